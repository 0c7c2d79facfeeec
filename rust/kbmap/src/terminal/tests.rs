//! Drawings of small beds, letter by letter.

use super::*;
use crate::input::Source;
use crate::map::{self, Map};
use kingletbed::{Bed, Kind};

/// A bed of these accounts, row after row.
fn drawing(order: u32, raster: &[u8]) -> Drawing {
    let mut bed = Bed::fresh(Kind::Rows, order, vec![0; raster.len()]).unwrap();
    bed.feed(raster).unwrap();
    let bytes = map::file_of(&bed).unwrap();
    Drawing::of(Map { source: Source::File("bed.map".into()), bytes, bed }).unwrap()
}

fn drawn(drawing: &Drawing, colour: bool, width: usize) -> String {
    let mut out = Vec::new();
    write(&mut out, drawing, colour, width).unwrap();
    String::from_utf8(out).unwrap()
}

/// The worked bed M.
fn bed() -> Drawing {
    drawing(2, &[5, 5, 0, 0, 5, 5, 0, 9, 9, 0, 9, 9, 0, 0, 9, 9])
}

#[test]
fn letters_alone() {
    let text = "bed.map: order 2, 4 by 4 pixels, 4 tiles

    0  1  2  3
0   5  5  .  .
1   5  5  .  9
2   9  .  9  9
3   .  .  9  9

  5 staff          4 pixels  25.0 %
  9 student        6 pixels  37.5 %
  . nobody's       6 pixels  37.5 %
";
    assert_eq!(drawn(&bed(), false, 40), text);
}

/// Blocks of which not all pixels are one account's are mixed, whoever has most of them.
#[test]
fn mixed_blocks() {
    let text = drawn(&bed(), false, 9);
    let cells: Vec<&str> = text.lines().skip_while(|line| !line.is_empty()).skip(1).take(3).collect();
    assert_eq!(cells, ["    0  2", "0   5 ##", "2  ##  9"]);
    assert!(text.contains("\na cell is a block of\n2 by 2 pixels, mixed\n"));
    let legend =
        ["              pixels", "  5 staff          4", "  9 student        6", "  . nobody's       6", " ## mixed"];
    assert!(text.ends_with(&format!("\n\n{}\n", legend.join("\n"))));
}

#[test]
fn one_cell() {
    assert!(drawn(&bed(), false, 0).lines().any(|line| line == "0  ##"));
    assert!(drawn(&drawing(0, &[7]), false, 0).lines().any(|line| line == "0   7"));
}

/// Every cell of every form has the colour of the account that has all its pixels.
#[test]
fn coloured_cells() {
    let bed = bed();
    let wide = drawn(&bed, true, 40);
    let fill = |account| bed.fill(Account(account)).unwrap();
    let cell =
        |account: u8, width| format!("{}{}{account:>width$}", ground(fill(account)), letters(fill(account).label()));
    let free = format!("{}{}  .", ground(WHITE), letters(MUTED));
    let line = format!("\n1 {0}{0}{free}{1}\x1b[0m\n", cell(5, 3), cell(9, 3));
    assert!(wide.contains(&line), "{wide:?}");
    assert!(drawn(&bed, true, 10).contains(&format!("\n0 {0}{0}", cell(5, 2))));
}

/// Two rows to a line: rows 2 and 3 of the bed are 9 0 9 9 and 0 0 9 9.
#[test]
fn halves() {
    let nine = crate::colour::PALETTE[9];
    let letter = |ink, fill, letter| format!("{}{}{letter}", letters(ink), ground(fill));
    let line = [
        letter(nine, WHITE, '\u{2580}'),
        letter(WHITE, WHITE, '\u{2580}'),
        letter(nine.label(), nine, '9'),
        letter(nine, nine, '\u{2580}'),
    ];
    let text = drawn(&bed(), true, 6);
    assert!(text.contains(&format!("\n2 {}\x1b[0m\n", line.concat())), "{text:?}");
}

#[test]
fn numbers_over_halves() {
    let cell = |account: u8| Cell::Held(Account(account));
    let line = [cell(21), cell(21), cell(21), cell(21), Cell::Free, cell(5), cell(51), Cell::Mixed];
    let said =
        |above: &[Cell]| -> String { numbers(&line, above).into_iter().map(|number| number.unwrap_or(' ')).collect() };
    assert_eq!(said(&[]), " 21  5  ");
    assert_eq!(said(&line), "        ");
    assert_eq!(said(&[Cell::Free; 8]), " 21  5  ");
}

/// The numbers over columns and beside rows are those of the cells' first pixels, and do not touch.
#[test]
fn numbered_columns() {
    let bed = drawing(4, &[0; 256]);
    let text = drawn(&bed, true, 20);
    assert!(text.contains("\n   0   4   8   12\n"), "{text}");
    let text = drawn(&bed, true, 36);
    assert!(text.contains("\n    0   2   4   6   8  10  12  14\n"), "{text}");
}

/// Ten colours and more accounts: the legend says so where colours are shown.
#[test]
fn shared_colours() {
    let many = drawing(2, &[1, 2, 3, 4, 5, 6, 7, 8, 9, 10, 11, 12, 0, 0, 0, 0]);
    assert!(drawn(&many, true, 80).ends_with("\n12 accounts share 10 colours\n"));
    assert!(drawn(&many, true, 20).ends_with("\n12 accounts share 10\ncolours\n"));
    assert!(!drawn(&many, false, 80).contains("colours"));
    assert!(!drawn(&bed(), true, 80).contains("colours"));
}

#[test]
fn wrapped_lines() {
    let lines = |text: &str| {
        let mut out = Vec::new();
        wrapped(&mut out, text, 20).unwrap();
        String::from_utf8(out).unwrap()
    };
    assert_eq!(lines("twenty letters, just"), "twenty letters, just\n");
    assert_eq!(lines("twenty letters, justly"), "twenty letters,\njustly\n");
    assert_eq!(lines("a_name_of_more_than_twenty_letters: so"), "a_name_of_more_than_\ntwenty_letters: so\n");
    assert_eq!(lines(""), "\n");
}
