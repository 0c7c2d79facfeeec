//! A table of rights: read from its file, shown in words, and what is wrong with a file that is refused. Which file is
//! refused, the library says.

use crate::failure::Failure;
use crate::input::Source;
use crate::words::count;
use kingletbed::{Refusal, Table};

/// The classes that ask, as the rows of a table have them, and whose a pixel is, as its columns have it.
const ROWS: [&str; 3] = ["staff", "student", "guest"];
const COLUMNS: [&str; 5] = ["own", "nobody's", "guest's", "student's", "staff's"];
/// What a row lacks that says no where the row below it says yes.
const LACKS: [&str; 2] =
    ["where a student has a yes; staff must have it too", "where a guest has a yes; a student must have it too"];

/// Reads a table from its file; one that a load refuses is refused with what is wrong.
pub fn open(source: &Source) -> Result<Table, Failure> {
    let file = source.read()?;
    of_file(source.name(), &file)
}

/// The table of a file's bytes, or their refusal under a name.
pub fn of_file(name: String, file: &[u8]) -> Result<Table, Failure> {
    Table::from_file(file).map_err(|refusal| Failure::refusal(name, refusal, &wrong(file, refusal)))
}

/// The rows of a table under its columns, each line indented.
pub fn rows(table: &Table) -> String {
    let line = |asking: &str, cells: [&str; 5]| {
        let cells = cells.into_iter().zip(COLUMNS).map(|(cell, column)| format!("{cell:<0$}", column.len().max(3)));
        let text = format!("  {asking:<7}  {}", cells.collect::<Vec<_>>().join("  "));
        format!("{}\n", text.trim_end())
    };
    let (file, mut text) = (table.file(), line("asking", COLUMNS));
    for (row, asking) in ROWS.into_iter().enumerate() {
        let said = |column| if byte(&file, row, column) == 0 { "no" } else { "yes" };
        text.push_str(&line(asking, [0, 1, 2, 3, 4].map(said)));
    }
    text
}

/// Where in a file a row has a column: behind the count, row after row.
fn place(row: usize, column: usize) -> usize {
    1 + COLUMNS.len() * row + column
}

/// The byte there; 0 if the file ends ahead of it.
fn byte(file: &[u8], row: usize, column: usize) -> u8 {
    file.get(place(row, column)).copied().unwrap_or(0)
}

/// "byte 8, student, guest's".
fn cell(row: usize, column: usize) -> String {
    format!("byte {}, {}, {}", place(row, column), ROWS[row], COLUMNS[column])
}

/// Every cell: its row and its column.
fn cells() -> impl Iterator<Item = (usize, usize)> {
    (0..ROWS.len()).flat_map(|row| (0..COLUMNS.len()).map(move |column| (row, column)))
}

/// What a file was refused for: a few lines for people.
fn wrong(file: &[u8], refusal: Refusal) -> Vec<String> {
    match refusal {
        Refusal::TableMalformed => malformed(file),
        Refusal::TableUnsound => unsound(file),
        _ => Vec::new(),
    }
}

/// The count, the length, or, if both are right, each byte above 1.
fn malformed(file: &[u8]) -> Vec<String> {
    let mut lines = Vec::new();
    if let Some(first) = file.first().filter(|&&first| usize::from(first) != Table::LENGTH) {
        lines.push(format!("byte 0: the count is {first}, and should be {}", Table::LENGTH));
    }
    if file.len() != Table::FILE_LENGTH {
        let has = if file.is_empty() { "is empty".to_owned() } else { format!("has {}", count(file.len(), "byte")) };
        lines.push(format!("the file {has}; a count and {} bytes take {}", Table::LENGTH, Table::FILE_LENGTH));
    }
    if lines.is_empty() {
        let bad = cells().map(|(row, column)| (cell(row, column), byte(file, row, column))).filter(|cell| cell.1 > 1);
        lines.extend(bad.map(|(cell, byte)| format!("{cell}: {byte}, and should be 1 for yes or 0 for no")));
    }
    lines
}

/// Each yes that a table lacks: to own pixels, or one that the row below has.
fn unsound(file: &[u8]) -> Vec<String> {
    let yes = |row: usize, column: usize| byte(file, row, column) != 0;
    let lacked = cells().filter(|&(row, column)| !yes(row, column)).filter_map(|(row, column)| {
        let why = match LACKS.get(row) {
            _ if column == 0 => "and each row must say yes to its own pixels",
            Some(lacks) if yes(row + 1, column) => lacks,
            _ => return None,
        };
        Some(format!("{}: no, {why}", cell(row, column)))
    });
    lacked.collect()
}

#[cfg(test)]
mod tests;
