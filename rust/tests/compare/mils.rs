//! Positions in mils: the library's calls, the wrapper's, and nanometre by nanometre.

use crate::lent::Lent;
use crate::pair::{flat, same, some, Count};
use crate::plain::mils as plain;
use crate::random::Random;
use kingletbed::{mils, raw, Pixel};

impl Count {
    pub fn mils_pixel(&mut self, order: u32, text: &[u8]) -> (u32, u32) {
        let answered = plain::pixel(order, text);
        let answer = raw::mils_pixel(order, text);
        same("mils_pixel", &(order, text), (answer.number, answer.pixel), answered);
        same("a position's pixel", &(order, text), flat(mils::pixel(order, text)), some(answered.0, answered.1));
        self.add("mils_pixel", answered.0);
        answered
    }

    pub fn mils_h(&mut self, order: u32, pixel: u32) -> (u32, u32) {
        let answered = plain::hundredths(order, pixel);
        let answer = raw::mils_h(order, pixel);
        same("mils_h", &(order, pixel), (answer.number, answer.h), answered);
        same("hundredths", &(order, pixel), flat(mils::hundredths(order, pixel)), some(answered.0, answered.1));
        // The wrapper's text has bytes enough of its own.
        let text = mils::text(order, pixel).map(|text| {
            assert_eq!(text.as_bytes(), text.as_str().as_bytes());
            text.to_string()
        });
        same("a pixel's text", &(order, pixel), flat(text), some(answered.0, plain::text_of(answered.1.into())));
        self.add("mils_h", answered.0);
        answered
    }

    /// The number and, accepted, the text.
    pub fn mils_text(&mut self, order: u32, pixel: u32, bytes: &[u8]) -> (u32, Vec<u8>) {
        let given = (order, pixel, bytes.len());
        let (number, length, after) = plain::text(order, pixel, bytes);
        let mut lent = Lent::new(bytes);
        let answer = raw::mils_text(order, pixel, lent.as_mut());
        same("mils_text", &given, (answer.number, answer.length), (number, length));
        lent.must_be("mils_text", &given, &after);
        self.add("mils_text", number);
        (number, after[..length].to_vec())
    }

    /// The wrapper's pixel of two texts.
    fn at_mils(&mut self, order: u32, column: &[u8], row: &[u8]) {
        let (one, two) = (plain::pixel(order, column), plain::pixel(order, row));
        let number = if one.0 != 0 { one.0 } else { two.0 };
        let pixel = Pixel { column: one.1, row: two.1 };
        same("at_mils", &(order, column, row), flat(Pixel::at_mils(order, column, row)), some(number, pixel));
        self.add("at_mils", number);
    }
}

/// All orders, and such as no bed has.
const ORDERS: [u32; 14] = [0, 1, 2, 3, 4, 5, 6, 7, 8, 9, 10, 11, 12, u32::MAX];

/// Every position up to here is tried: those of the largest bed, and a piece beyond its end.
const EVERY: u64 = 1_700_000;
/// The last position that has a text.
const LAST: u64 = 9_999_999;

/// What a byte of a text is spoilt with: other digits, the bytes next to the digits, and what stands about in files.
const SPOILS: [u8; 23] = *b"0519./:,+- \n\r\t\0eE_\xb2\xae\xb0\xff\x80";

pub fn all(count: &mut Count) {
    for hundredths in (0..=EVERY).chain((EVERY..LAST).step_by(97)).chain(LAST - 99..=LAST) {
        let text = plain::text_of(hundredths);
        for order in ORDERS {
            count.mils_pixel(order, text.as_bytes());
        }
        spoilt(count, hundredths as usize, text.as_bytes());
    }
    for order in ORDERS {
        for pixel in (0..1100).chain([1 << 16, 1 << 22, 1 << 31, u32::MAX - 1, u32::MAX]) {
            back(count, order, pixel);
        }
    }
    for (call, numbers) in [("mils_pixel", &[0, 1, 53][..]), ("mils_h", &[0, 1, 31]), ("mils_text", &[0, 1, 31, 26])] {
        for &number in numbers {
            assert!(count.met.contains_key(&(call, number)), "{call} never answered {number}");
        }
    }
}

/// A text with another byte in one place, then with one byte less, or with one more somewhere or at its end. Place and
/// byte go round with the turns.
fn spoilt(count: &mut Count, turn: usize, text: &[u8]) {
    let (at, byte) = (turn % text.len(), SPOILS[turn % SPOILS.len()]);
    let mut other = text.to_vec();
    other[at] = byte;
    count.mils_pixel(10, &other);
    other[at] = text[at];
    match turn / 8 % 3 {
        0 => drop(other.remove(at)),
        1 => other.insert(at, byte),
        _ => other.push(byte),
    }
    count.mils_pixel(10, &other);
    if turn % 16 == 0 {
        for order in [9, 10, 11] {
            count.at_mils(order, text, &other);
            count.at_mils(order, &other, text);
        }
    }
}

/// The way back from a pixel, to lent bytes of every length; and there again, where the position just below leads to
/// the pixel ahead.
fn back(count: &mut Count, order: u32, pixel: u32) {
    let (number, hundredths) = count.mils_h(order, pixel);
    let mut put = Vec::new();
    for length in 0..=9 {
        let (refused, text) = count.mils_text(order, pixel, &[0xaa; 9][..length]);
        assert!(refused == number || (refused, number) == (26, 0));
        put = text;
    }
    if number == 0 {
        assert!((4..=8).contains(&put.len()));
        assert_eq!(count.mils_pixel(order, &put), (0, pixel));
        if let Some(below) = hundredths.checked_sub(1) {
            assert_eq!(count.mils_pixel(order, plain::text_of(below.into()).as_bytes()), (0, pixel - 1));
        }
    }
}

/// Texts out of the middle of others, of digits and points for the most part, and a pixel. What stands on either side
/// of a text does not belong to it.
pub fn case(random: &mut Random, count: &mut Count) {
    let mut letters: Vec<u8> = (0..14).map(|_| random.pick(b"0123456789012345....")).collect();
    if random.once_in(3) {
        let at = random.below(letters.len());
        letters[at] = if random.once_in(2) { random.pick(&SPOILS) } else { random.next() as u8 };
    }
    let length = random.below(13);
    let text = &letters[1..1 + length];
    let order = random.pick(&ORDERS);
    count.mils_pixel(order, text);
    count.mils_pixel(10, text);
    let good = plain::text_of(random.below(LAST as usize + 1) as u64 >> random.below(24));
    for order in [order, 10, random.next() as u32 >> random.below(32)] {
        count.mils_pixel(order, good.as_bytes());
        count.at_mils(order, good.as_bytes(), text);
        count.at_mils(order, text, good.as_bytes());
        back(count, order, random.next() as u32 >> random.below(32));
    }
}
