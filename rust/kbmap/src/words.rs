//! Words for people: classes, counts, shares, and where a block lies.

use kingletbed::{raw, Account, Block, Table};

/// The class of an account, as its rights by the old table tell it: a guest may not place on nobody's pixel, and of the
/// others only staff may place on a guest's. They are asked on beds of one pixel, which is scanned.
pub fn class(account: Account) -> &'static str {
    let (kind, order, pixels) = (0, 0, 1);
    let mut guests = [0];
    let claimed = raw::claim(kind, order, pixels, 0, &mut guests, 0, 0, Account::HIGHEST.0);
    let table = Table::OLD.bytes();
    let may = |tiles, slots: &[u32]| raw::rights(table, kind, order, pixels, tiles, slots, 0, 0, account.0).yes != 0;
    match (may(0, &[]), may(claimed.tiles, &guests)) {
        (false, _) => "guest",
        (true, false) => "student",
        (true, true) => "staff",
    }
}

/// Text from outside for messages: what would steer a terminal, or turn the order of its letters, is spelled.
pub fn visible(text: &str) -> String {
    let mut seen = String::with_capacity(text.len());
    for letter in text.chars() {
        match letter {
            _ if letter.is_control() => seen.push_str(&format!("\\x{:02x}", u32::from(letter))),
            '\u{200e}' | '\u{200f}' | '\u{2028}'..='\u{202e}' | '\u{2066}'..='\u{2069}' => {
                seen.extend(letter.escape_unicode());
            }
            _ => seen.push(letter),
        }
    }
    seen
}

/// "1 tile", "2 tiles".
pub fn count(number: usize, thing: &str) -> String {
    format!("{number} {thing}{}", if number == 1 { "" } else { "s" })
}

/// "64 by 64 pixels", of a bed or a picture with such a side.
pub fn square(side: u32) -> String {
    format!("{side} by {side} pixel{}", if side == 1 { "" } else { "s" })
}

/// A share in percent. A little is never nothing, and nearly all never everything.
pub fn share(part: u32, whole: u32) -> String {
    let percent = 100.0 * f64::from(part) / f64::from(whole);
    match percent {
        _ if part > 0 && percent < 0.05 => "<0.1 %".to_owned(),
        _ if part < whole && percent >= 99.95 => ">99.9 %".to_owned(),
        _ => format!("{percent:.1} %"),
    }
}

/// "columns 40 to 47, rows 24 to 31", or of a single pixel "column 40, row 24". Nothing for a block that no bed has.
pub fn span(block: Block) -> Option<String> {
    let (pixel, side) = (block.pixel().ok()?, block.side().ok()?);
    let stretch = |name, first, last| match side {
        1 => format!("{name} {first}"),
        _ => format!("{name}s {first} to {last}"),
    };
    let columns = stretch("column", pixel.column, pixel.column + (side - 1));
    let rows = stretch("row", pixel.row, pixel.row + (side - 1));
    Some(format!("{columns}, {rows}"))
}

#[cfg(test)]
mod tests {
    use super::*;

    #[test]
    fn classes() {
        for number in 1..=Account::HIGHEST.0 {
            let expected = match number {
                1..=7 => "staff",
                8..=47 => "student",
                _ => "guest",
            };
            assert_eq!(class(Account(number)), expected, "account {number}");
        }
    }

    #[test]
    fn shares() {
        assert_eq!(share(0, 16), "0.0 %");
        assert_eq!(share(3, 16), "18.8 %");
        assert_eq!(share(16, 16), "100.0 %");
        assert_eq!(share(1, 1 << 20), "<0.1 %");
        assert_eq!(share((1 << 20) - 1, 1 << 20), ">99.9 %");
    }

    #[test]
    fn visible_letters() {
        assert_eq!(visible("bed ü\u{1b}[2J\n\u{9b}\u{202e}.map"), r"bed ü\x1b[2J\x0a\x9b\u{202e}.map");
    }

    #[test]
    fn spans() {
        assert_eq!(span(Block { corner: 12, size: 1 }).unwrap(), "columns 2 to 3, rows 2 to 3");
        assert_eq!(span(Block { corner: 7, size: 0 }).unwrap(), "column 3, row 1");
        assert_eq!(span(Block { corner: 0, size: 11 }), None);
    }
}
