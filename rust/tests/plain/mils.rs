//! Positions in mils, in nanometres: a hundredth of a mil is 254 of them, a pixel 400,000. The text is taken apart at
//! its point, and the smallest position of a pixel is found by going through all positions. Answers begin with the
//! number.

use super::points::extent;
use std::sync::OnceLock;

/// The pixel that so many hundredths of a mil lie in, on a bed without an end.
pub fn under(hundredths: u64) -> u64 {
    254 * hundredths / 400_000
}

/// The hundredths of a mil that a text names, if it has the form.
pub fn named(text: &[u8]) -> Option<u64> {
    let (whole, behind) = std::str::from_utf8(text).ok()?.split_once('.')?;
    let digits = |part: &str| part.chars().all(|letter| "0123456789".contains(letter));
    let needless = whole.starts_with('0') && whole != "0";
    if whole.is_empty() || whole.len() > 5 || behind.len() != 2 || needless || !digits(whole) || !digits(behind) {
        return None;
    }
    Some(100 * whole.parse::<u64>().ok()? + behind.parse::<u64>().ok()?)
}

/// The text of so many hundredths of a mil.
pub fn text_of(hundredths: u64) -> String {
    format!("{}.{:02}", hundredths / 100, hundredths % 100)
}

pub fn pixel(order: u32, text: &[u8]) -> (u32, u32) {
    let (number, side, _) = extent(order);
    if number != 0 {
        return (number, 0);
    }
    match named(text).map(under) {
        Some(pixel) if pixel < side.into() => (0, pixel as u32),
        _ => (53, 0),
    }
}

/// The first position of each pixel of the largest bed.
fn firsts() -> &'static [u64] {
    static FIRSTS: OnceLock<Vec<u64>> = OnceLock::new();
    FIRSTS.get_or_init(|| {
        let mut firsts = Vec::new();
        for hundredths in (0..).take_while(|&hundredths| under(hundredths) < 1024) {
            if under(hundredths) as usize == firsts.len() {
                firsts.push(hundredths);
            }
        }
        firsts
    })
}

pub fn hundredths(order: u32, pixel: u32) -> (u32, u32) {
    match extent(order) {
        (0, side, _) if pixel < side => (0, firsts()[pixel as usize] as u32),
        (0, ..) => (31, 0),
        (number, ..) => (number, 0),
    }
}

/// The number, the length, and what the lent bytes are then.
pub fn text(order: u32, pixel: u32, bytes: &[u8]) -> (u32, usize, Vec<u8>) {
    let (number, hundredths) = hundredths(order, pixel);
    let text = text_of(hundredths.into());
    match number {
        0 if bytes.len() < text.len() => (26, 0, bytes.to_vec()),
        0 => (0, text.len(), [text.as_bytes(), &bytes[text.len()..]].concat()),
        _ => (number, 0, bytes.to_vec()),
    }
}
