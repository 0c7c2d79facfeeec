//! A shift at the machine: the bed is scanned row by row, a student's ground is claimed, accounts ask whether they may
//! place there, also by the lab's own table of rights, and the bed is archived and read back.
//!
//!     cargo run --example shift

use kingletbed::{Account, Bed, Block, Kind, Pixel, Table};
use std::error::Error;
use std::fmt::Write;

/// What the camera sees on a bed of order 3: the account of each pixel.
const SEEN: [[u8; 8]; 8] = [
    [9, 9, 9, 9, 0, 0, 0, 0],
    [9, 9, 9, 9, 0, 0, 0, 0],
    [9, 9, 9, 9, 0, 0, 0, 0],
    [9, 9, 9, 9, 0, 0, 0, 0],
    [0, 0, 0, 0, 0, 0, 0, 0],
    [0, 0, 0, 0, 0, 0, 0, 0],
    [0, 0, 0, 48, 48, 0, 0, 0],
    [0, 0, 0, 48, 48, 0, 0, 0],
];

/// The lab's table of rights for workshops, as its file has it: a count, then a row each for staff, students and
/// guests. By it a guest may place on nobody's pixels, the second column.
const WORKSHOP: [u8; Table::FILE_LENGTH] = [
    15, //
    1, 1, 1, 1, 0, //
    1, 1, 0, 0, 0, //
    1, 1, 0, 0, 0, //
];

fn main() -> Result<(), Box<dyn Error>> {
    let mut text = String::new();
    shift(&mut text)?;
    print!("{text}");
    Ok(())
}

pub fn shift(text: &mut String) -> Result<(), Box<dyn Error>> {
    // The bed has its slots: an array here, and nothing is allocated. A row is fed as soon as it is seen.
    let mut bed = Bed::fresh(Kind::Rows, 3, [0; 64])?;
    for row in SEEN {
        bed.feed(&row)?;
    }
    writeln!(text, "{} of {} pixels scanned, {} tiles", bed.scanned(), bed.pixels(), bed.tiles().len())?;

    // A student wants the block of 2 by 2 pixels around the first part of a board file, which is in mils. That no tile
    // is inside would not say that it is free.
    let (student, at) = (Account(12), Pixel::at_mils(bed.order(), b"80.00", b"40.00")?);
    writeln!(text, "80.00, 40.00 in mils is column {}, row {}", at.column, at.row)?;
    let ground = Block::around(bed.order(), at, 1)?;
    writeln!(text, "the ground of {student} is free: {}", bed.account_of(ground)? == Some(Account::NOBODY))?;
    writeln!(text, "its claim would leave {} tiles", bed.preview(ground, student)?)?;
    bed.claim(ground, student)?;

    // The bed that was claimed on is the bed that is asked: there is no older one that could still say nobody.
    for asking in [student, Account(9), Account(3), Account(48)] {
        ask(&bed, &Table::OLD, at, asking, text)?;
    }
    workshop(&bed, at, text)?;

    // To the archive, and back to a bed of its own.
    let mut file = vec![0; bed.file_room()];
    let length = bed.write(&mut file)?;
    let archived = Bed::read(&file[..length], vec![0; 64])?;
    writeln!(text, "archived in {length} bytes, and read back the same: {}", archived == bed)?;

    bed.release(ground)?;
    writeln!(text, "released, and no longer as archived: {}", archived != bed)?;
    Ok(())
}

/// In the afternoon guests come. The lab's table is in force once it is loaded; a load that is refused leaves it so.
fn workshop(bed: &Bed<[u32; 64]>, held: Pixel, text: &mut String) -> Result<(), Box<dyn Error>> {
    let (mut table, guest, nobodys) = (Table::OLD, Account(48), Pixel { column: 7, row: 7 });
    ask(bed, &table, nobodys, guest, text)?;
    table.load(&WORKSHOP)?;
    writeln!(text, "the lab's table for workshops is loaded")?;
    if let Err(refusal) = table.load(&WORKSHOP[..15]) {
        writeln!(text, "the same file, cut short, is refused: {refusal}")?;
    }
    ask(bed, &table, nobodys, guest, text)?;
    ask(bed, &table, held, guest, text)
}

/// Whether an account may place at a pixel, by the table in force.
fn ask(
    bed: &Bed<[u32; 64]>,
    table: &Table,
    at: Pixel,
    asking: Account,
    text: &mut String,
) -> Result<(), Box<dyn Error>> {
    let may = if bed.rights(table, at, asking)? { "may" } else { "may not" };
    writeln!(text, "{asking} {may} place on ground of {}", bed.lookup(at)?.account)?;
    Ok(())
}
