//! Extents, Morton numbers, blocks, points and the fields of a word, bit by bit. Answers begin with the number.

use super::{area, morton as morton_of, pixel};

/// 2 to a power, by doubling.
fn power(exponent: u32) -> u64 {
    (0..exponent).fold(1, |power, _| power + power)
}

/// The bits of a word from low to high.
pub fn field(word: u32, low: u32, high: u32) -> u32 {
    let bit = |at: u32| u64::from(word) / power(at) % 2;
    (low..=high).map(|at| bit(at) * power(at - low)).sum::<u64>() as u32
}

pub fn extent(order: u32) -> (u32, u32, u32) {
    if order > 10 {
        return (1, 0, 0);
    }
    (0, power(order) as u32, power(order + order) as u32)
}

/// 1 or 31, or 0.
fn check(order: u32, column: u32, row: u32) -> u32 {
    if order > 10 {
        return 1;
    }
    let outside = |at: u32| u64::from(at) >= power(order);
    if outside(column) || outside(row) {
        31
    } else {
        0
    }
}

pub fn morton(order: u32, column: u32, row: u32) -> (u32, u32) {
    match check(order, column, row) {
        0 => (0, morton_of(column as usize, row as usize) as u32),
        number => (number, 0),
    }
}

/// The corner is the number of the block's north-west pixel: column and row go back to the last multiple of the side.
pub fn block(order: u32, column: u32, row: u32, size: u32) -> (u32, u32, u32) {
    let number = check(order, column, row);
    if number != 0 {
        return (number, 0, 0);
    }
    if size > order {
        return (32, 0, 0);
    }
    let back = |at: u32| at as usize - at as usize % power(size) as usize;
    (0, morton_of(back(column), back(row)) as u32, size)
}

pub fn point(order: u32, morton: u32) -> (u32, u32, u32) {
    if order > 10 {
        return (1, 0, 0);
    }
    if u64::from(morton) >= power(order + order) {
        return (32, 0, 0);
    }
    let (column, row) = pixel(u64::from(morton));
    (0, column as u32, row as u32)
}

/// Whether the block of a size at a corner is one of the largest bed, and a pixel lies in its square.
pub fn has(corner: u32, size: u32, column: u32, row: u32) -> bool {
    if size > 10 || u64::from(corner) >= area(10) || u64::from(corner) % area(size) != 0 {
        return false;
    }
    let ((west, north), side) = (pixel(corner.into()), 2usize.pow(size));
    (west..west + side).contains(&(column as usize)) && (north..north + side).contains(&(row as usize))
}
