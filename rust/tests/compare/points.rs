//! Extents, Morton numbers, blocks, points and the fields of a word: the library's calls, the wrapper's types, and bit
//! by bit.

use crate::pair::{flat, same, some, Count};
use crate::plain::points;
use crate::random::Random;
use kingletbed::{raw, Account, Block, Pixel, Refusal, Tile};

impl Count {
    fn extent(&mut self, order: u32) {
        let plain = points::extent(order);
        let answer = raw::extent(order);
        same("extent", &order, (answer.number, answer.side, answer.pixels), plain);
        same("side", &order, flat(Block::whole(order).side()), some(plain.0, plain.1));
        self.add("extent", plain.0);
    }

    fn morton(&mut self, order: u32, column: u32, row: u32) -> (u32, u32) {
        let plain = points::morton(order, column, row);
        let answer = raw::morton(order, column, row);
        same("morton", &(order, column, row), (answer.number, answer.morton), plain);
        same(
            "a pixel's morton",
            &(order, column, row),
            flat(Pixel { column, row }.morton(order)),
            some(plain.0, plain.1),
        );
        self.add("morton", plain.0);
        plain
    }

    fn block(&mut self, order: u32, column: u32, row: u32, size: u32) {
        let given = (order, column, row, size);
        let plain = points::block(order, column, row, size);
        let answer = raw::block(order, column, row, size);
        same("block", &given, (answer.number, answer.corner, answer.size), plain);
        let block = Block { corner: plain.1, size: plain.2 };
        same("around", &given, flat(Block::around(order, Pixel { column, row }, size)), some(plain.0, block));
        for corner in [plain.1, plain.1 ^ 1, plain.1 ^ 1 << 20, u32::MAX] {
            let block = Block { corner, size };
            let has = points::has(corner, size, column, row);
            same("has", &(block, column, row), block.has(Pixel { column, row }), has);
        }
        self.add("block", plain.0);
    }

    fn point(&mut self, order: u32, morton: u32) -> (u32, u32, u32) {
        let plain = points::point(order, morton);
        let answer = raw::point(order, morton);
        same("point", &(order, morton), (answer.number, answer.column, answer.row), plain);
        let pixel = Pixel { column: plain.1, row: plain.2 };
        same("of_morton", &(order, morton), flat(Pixel::of_morton(order, morton)), some(plain.0, pixel));
        self.add("point", plain.0);
        plain
    }

    fn word(&mut self, word: u32) {
        let field = |low, high| points::field(word, low, high);
        let plain = (field(10, 31), field(6, 9), field(0, 5) as u8);
        same("fields", &word, (raw::tile_corner(word), raw::tile_size(word), raw::tile_account(word)), plain);
        let tile = Tile::of_word(word);
        same(
            "a tile's fields",
            &word,
            (tile.corner(), tile.size(), tile.account()),
            (plain.0, plain.1, Account(plain.2)),
        );
        same("a tile's word", &word, (tile.word(), tile.block()), (word, Block { corner: plain.0, size: plain.1 }));
        let (number, column, row) = points::point(10, plain.0);
        same("a tile's pixel", &word, flat(tile.pixel()), some(number, Pixel { column, row }));
        let (number, side, _) = points::extent(plain.1);
        same("a tile's side", &word, flat(tile.side()), some(number, side));
        self.add("word", 0);
    }
}

/// Orders, numbers that would be good orders if they were cut down, and the numbers next to powers of two.
fn edges() -> Vec<u32> {
    let mut edges: Vec<u32> = (0..=12).chain([255, 256, 258, 1 << 16, u32::MAX]).collect();
    edges.extend((0..32).flat_map(|bit| [(1u32 << bit) - 1, 1 << bit, (1 << bit) + 1]));
    edges.sort();
    edges.dedup();
    edges
}

/// Every point of every order, and every combination at the limits.
pub fn all(count: &mut Count) {
    let edges = edges();
    for &order in &edges {
        count.extent(order);
        for &number in &edges {
            count.point(order, number);
            for &row in &edges {
                count.morton(order, number, row);
            }
        }
    }
    for order in 0..=12 {
        let end = 4u32.pow(order);
        for morton in 0..end.min(1 << 20) {
            let (number, column, row) = count.point(order, morton);
            assert_eq!(count.morton(order, column, row), some_point(number, morton));
        }
        let side = 1 << order;
        for column in [0, 1, side / 2, side - 1, side, u32::MAX] {
            for row in [0, side - 1, side] {
                edges.iter().for_each(|&size| count.block(order, column, row, size));
            }
        }
    }
    for order in 0..=6 {
        for (column, row) in (0..1 << order).flat_map(|column| (0..1 << order).map(move |row| (column, row))) {
            (0..=order + 1).for_each(|size| count.block(order, column, row, size));
        }
    }
    words(count, &edges);
}

/// An accepted point has the Morton number that it was asked by; a refused one is (0, 0), refused as it was.
fn some_point(number: u32, morton: u32) -> (u32, u32) {
    if number == 0 {
        (0, morton)
    } else {
        (number, 0)
    }
}

/// Every size and account with corners at their limits, and words with few bits set.
fn words(count: &mut Count, edges: &[u32]) {
    for low in 0..1024 {
        edges.iter().for_each(|corner| count.word(corner << 10 | low));
    }
    for (one, other) in (0..32).flat_map(|one| (0..32).map(move |other| (one, other))) {
        count.word(1 << one | 1 << other);
        count.word(!(1 << one | 1 << other));
    }
    edges.iter().for_each(|&word| count.word(word));
}

/// Random numbers of 32 bits, most of them cut to fewer.
pub fn case(random: &mut Random, count: &mut Count) {
    let mut number = || random.next() as u32 >> random.below(32);
    let (column, row, size, word) = (number(), number(), number(), number());
    for order in [random.below(13) as u32, number_near(random, column, row)] {
        count.extent(order);
        count.morton(order, column, row);
        count.point(order, word);
        count.block(order, column, row, size);
        count.block(order, column, row, random.below(12) as u32);
    }
    count.word(word);
    count.word(random.next() as u32);
    assert_eq!(Block::whole(size), Block { corner: 0, size });
    assert_eq!(Block::whole(size).side().is_err_and(|refusal| refusal == Refusal::OrderTooLarge), size > 10);
}

/// The smallest order that has a column and a row, or one less.
fn number_near(random: &mut Random, column: u32, row: u32) -> u32 {
    (32 - (column | row).leading_zeros()).saturating_sub(random.below(2) as u32)
}
