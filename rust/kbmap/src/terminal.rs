//! A bed in the terminal. A cell is a pixel, or, of a bed that is too wide, a block of pixels; a block that is not all
//! of one account is drawn as mixed, never as one account's. In colour a cell has its account's number if there is
//! room, or is half a letter high, with numbers where a few cells are alike; without colour it is the number alone.

use crate::colour::{Colour, MIXED, MUTED, WHITE};
use crate::drawing::Drawing;
use crate::words::{share, square, visible};
use kingletbed::{raw, Account};
use std::io::{self, Write};

/// Letters of a cell with a number: those of the number and a blank, or the number alone where colours part the cells.
const WIDE: usize = 3;
const NARROW: usize = 2;
/// Letters of an entry of the legend; in a narrower drawing an entry is short.
const ENTRY: usize = 36;
/// The columns that a drawing takes at least: those of a short entry.
pub const NARROWEST: usize = 20;

/// The letters that a number takes.
fn digits(number: u32) -> usize {
    number.to_string().len()
}

/// What a cell shows.
#[derive(Clone, Copy, Debug, PartialEq, Eq)]
enum Cell {
    Free,
    Held(Account),
    Mixed,
}

/// How the cells are drawn: each one pixel or more to the side, so many letters wide, one letter or half a letter high.
#[derive(Clone, Copy, Debug, PartialEq, Eq)]
struct Form {
    block: u32,
    letters: usize,
    halves: bool,
}

impl Form {
    /// The form that shows most within a width.
    fn of(drawing: &Drawing, colour: bool, width: usize) -> Form {
        let room = width.saturating_sub(digits(drawing.side()) + 1);
        let fits = |block: u32, letters: usize| (drawing.side() / block) as usize * letters <= room;
        let numbered = if colour { [WIDE, NARROW] } else { [WIDE, WIDE] };
        if let Some(letters) = numbered.into_iter().find(|&letters| fits(1, letters)) {
            return Form { block: 1, letters, halves: false };
        }
        let (letters, halves) = if colour { (1, true) } else { (WIDE, false) };
        let mut blocks = (0..=drawing.map.bed.order()).map(|size| raw::extent(size).side);
        let block = blocks.find(|&block| fits(block, letters)).unwrap_or(drawing.side());
        Form { block, letters, halves }
    }

    /// The distance of numbered columns: blocks apart so that the numbers do not touch.
    fn step(self, drawing: &Drawing) -> u32 {
        let least = digits(drawing.side()) + 1;
        let steps = (0..=drawing.map.bed.order()).map(|size| raw::extent(size).side);
        let mut wide = steps.filter(|&step| step >= self.block && (step / self.block) as usize * self.letters >= least);
        wide.next().unwrap_or(drawing.side())
    }
}

/// The cells, row after row.
fn cells(drawing: &Drawing, block: u32) -> Vec<Vec<Cell>> {
    let (side, block) = (drawing.side() as usize, block as usize);
    let cell = |rows: &[u8], from: usize| {
        let first = rows[from];
        let alike = rows.chunks(side).all(|row| row[from..from + block].iter().all(|&account| account == first));
        match (alike, Account(first)) {
            (false, _) => Cell::Mixed,
            (true, Account::NOBODY) => Cell::Free,
            (true, account) => Cell::Held(account),
        }
    };
    let line = |rows: &[u8]| (0..side).step_by(block).map(|from| cell(rows, from)).collect();
    drawing.raster.chunks(side * block).map(line).collect()
}

/// Writes the drawing.
pub fn write(out: &mut dyn Write, drawing: &Drawing, colour: bool, width: usize) -> io::Result<()> {
    let form = Form::of(drawing, colour, width);
    wrapped(out, &format!("{}: {}", visible(&drawing.title()), drawing.summary()), width)?;
    if form.block > 1 {
        let block = square(form.block);
        wrapped(out, &format!("a cell is a block of {block}, mixed if they are not all one account's"), width)?;
    }
    writeln!(out)?;
    let (margin, step) = (digits(drawing.side()), form.step(drawing));
    writeln!(out, "{:margin$} {}", "", columns(drawing, form, step))?;
    let (pen, cells) = (Pen { drawing, colour }, cells(drawing, form.block));
    let high = if form.halves { 2 } else { 1 };
    let mut above = Vec::new();
    for (line, rows) in cells.chunks(high).enumerate() {
        let row = (line * high) as u32 * form.block;
        let number = if row.is_multiple_of(step) { row.to_string() } else { String::new() };
        write!(out, "{number:>margin$} ")?;
        match rows {
            [upper, lower] => {
                let whole: Vec<Cell> = upper.iter().zip(lower).map(|(&upper, &lower)| both(upper, lower)).collect();
                let numbers = numbers(&whole, if line % REPEAT == 0 { &[] } else { &above });
                pen.halves(out, upper, lower, &numbers)?;
                above = whole;
            }
            _ => pen.line(out, &rows[0], form.letters)?,
        }
    }
    let mixed = cells.iter().flatten().any(|&cell| cell == Cell::Mixed);
    pen.legend(out, mixed, width)?;
    // Without colours each cell has its number.
    let notes = drawing.notes.iter().filter(|_| colour);
    notes.into_iter().try_for_each(|note| wrapped(out, note, width))
}

/// Writes a text in lines of so many letters at most; a word that is longer is parted.
fn wrapped(out: &mut dyn Write, text: &str, width: usize) -> io::Result<()> {
    let width = width.max(NARROWEST);
    let mut line: Vec<char> = Vec::new();
    for word in text.split(' ') {
        let word: Vec<char> = word.chars().collect();
        if !line.is_empty() && line.len() + 1 + word.len() > width {
            writeln!(out, "{}", line.drain(..).collect::<String>())?;
        } else if !line.is_empty() {
            line.push(' ');
        }
        line.extend(word);
        while line.len() > width {
            writeln!(out, "{}", line.drain(..width).collect::<String>())?;
        }
    }
    writeln!(out, "{}", line.into_iter().collect::<String>())
}

/// The numbers of columns. Each stands over the last letter of its cell, as the numbers in cells do.
fn columns(drawing: &Drawing, form: Form, step: u32) -> String {
    let mut numbers = String::new();
    for column in (0..drawing.side()).step_by(step as usize) {
        let end = (column / form.block) as usize * form.letters + form.letters.max(digits(column));
        let room = end - numbers.len();
        numbers.push_str(&format!("{column:>room$}"));
    }
    numbers
}

/// Lines after which a number is said again.
const REPEAT: usize = 4;

/// What a letter shows whose halves are these cells.
fn both(upper: Cell, lower: Cell) -> Cell {
    if upper == lower {
        upper
    } else {
        Cell::Mixed
    }
}

/// The digits to write into a line of letters: for each stretch of an account's letters its number in the middle, if
/// there is room for it, and if the letter above is not the account's already.
fn numbers(line: &[Cell], above: &[Cell]) -> Vec<Option<char>> {
    let mut numbers = vec![None; line.len()];
    let mut start = 0;
    for stretch in line.chunk_by(|one, two| one == two) {
        if let Cell::Held(account) = stretch[0] {
            let text = account.0.to_string();
            if stretch.len() >= text.len() {
                let middle = start + (stretch.len() - text.len()) / 2;
                if above.get(middle) != Some(&stretch[0]) {
                    text.chars().enumerate().for_each(|(at, digit)| numbers[middle + at] = Some(digit));
                }
            }
        }
        start += stretch.len();
    }
    numbers
}

/// Writes cells in colour or without.
struct Pen<'a> {
    drawing: &'a Drawing,
    colour: bool,
}

impl Pen<'_> {
    fn fill(&self, cell: Cell) -> Colour {
        match cell {
            Cell::Free => WHITE,
            Cell::Mixed => MIXED,
            Cell::Held(account) => self.drawing.fill(account).unwrap_or(MIXED),
        }
    }

    /// A line of cells with numbers.
    fn line(&self, out: &mut dyn Write, cells: &[Cell], letters: usize) -> io::Result<()> {
        cells.iter().try_for_each(|&cell| self.cell(out, cell, letters))?;
        self.end(out)
    }

    fn cell(&self, out: &mut dyn Write, cell: Cell, width: usize) -> io::Result<()> {
        let text = match cell {
            Cell::Free => ".".to_owned(),
            Cell::Held(account) => account.0.to_string(),
            Cell::Mixed => "##".to_owned(),
        };
        if !self.colour {
            return write!(out, "{text:>width$}");
        }
        let fill = self.fill(cell);
        let ink = if cell == Cell::Free { MUTED } else { fill.label() };
        write!(out, "{}{}{text:>width$}", ground(fill), letters(ink))
    }

    /// Two lines of cells in one line of letters, the upper half of each letter and the lower, and numbers over them.
    fn halves(&self, out: &mut dyn Write, upper: &[Cell], lower: &[Cell], numbers: &[Option<char>]) -> io::Result<()> {
        let mut before = None;
        for ((&upper, &lower), &number) in upper.iter().zip(lower).zip(numbers) {
            let (upper, lower) = (self.fill(upper), self.fill(lower));
            let colours = (if number.is_some() { lower.label() } else { upper }, lower);
            if before != Some(colours) {
                write!(out, "{}{}", letters(colours.0), ground(colours.1))?;
                before = Some(colours);
            }
            write!(out, "{}", number.unwrap_or('\u{2580}'))?;
        }
        self.end(out)
    }

    fn end(&self, out: &mut dyn Write) -> io::Result<()> {
        writeln!(out, "{}", if self.colour { "\x1b[0m" } else { "" })
    }

    /// What the cells mean, in as many columns as there is room for.
    fn legend(&self, out: &mut dyn Write, mixed: bool, width: usize) -> io::Result<()> {
        let pixels = self.drawing.map.bed.pixels();
        let entry = |held: u32| {
            if width < ENTRY {
                return format!("{held:>8}");
            }
            let noun = if held == 1 { "pixel" } else { "pixels" };
            format!("{held:>8} {noun:<6} {:>7}", share(held, pixels))
        };
        let mut entries: Vec<(Cell, String)> = Vec::new();
        for shown in &self.drawing.entries {
            let text = format!("{:<8}{}", shown.holding.class, entry(shown.holding.pixels));
            entries.push((Cell::Held(shown.holding.account), text));
        }
        entries.push((Cell::Free, format!("nobody's{}", entry(self.drawing.free))));
        if mixed {
            entries.push((Cell::Mixed, "mixed".to_owned()));
        }
        let columns = (width / ENTRY).clamp(1, entries.len());
        let rows = entries.len().div_ceil(columns);
        writeln!(out)?;
        if width < ENTRY {
            writeln!(out, "{:>1$}", "pixels", NARROWEST - usize::from(self.colour))?;
        }
        for row in 0..rows {
            for (column, (cell, text)) in entries.iter().skip(row).step_by(rows).enumerate() {
                let gap = if column == 0 { "" } else { "    " };
                let off = if self.colour { "\x1b[0m" } else { "" };
                write!(out, "{gap}")?;
                self.cell(out, *cell, NARROW + usize::from(!self.colour))?;
                write!(out, "{off} {text}")?;
            }
            writeln!(out)?;
        }
        Ok(())
    }
}

fn ground(Colour { red, green, blue }: Colour) -> String {
    format!("\x1b[48;2;{red};{green};{blue}m")
}

fn letters(Colour { red, green, blue }: Colour) -> String {
    format!("\x1b[38;2;{red};{green};{blue}m")
}

#[cfg(test)]
mod tests;
