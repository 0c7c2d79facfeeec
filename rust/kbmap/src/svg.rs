//! A bed as a picture: the tiles as they are, axes with columns and rows, and a legend.

use crate::colour::{Colour, DARK, FRAME, HATCH, MUTED, PAPER, WHITE};
use crate::drawing::{escaped, Drawing, Entry, Square};
use crate::progress::Progress;
use crate::words::{count, share};
use std::io::{self, Write};

/// The bed's side in units of the picture, and that of a bed whose pixels would be less than `SHARP` units: theirs are
/// whole units, so that none is left out. Where the bed begins.
const BED: f64 = 640.0;
const LARGE: f64 = 1024.0;
const LEFT: f64 = 64.0;
const TOP: f64 = 112.0;
/// The legend: what is between it and the bed, its rows and its columns.
const GAP: f64 = 36.0;
const ROW: f64 = 24.0;
const ROWS: usize = 25;
const COLUMN: f64 = 276.0;
/// Numbered columns and rows, at most.
const TICKS: u32 = 16;
/// A tile whose side is less has no label; one whose side is less than the other has no outline either.
const LABELLED: f64 = 15.0;
const OUTLINED: f64 = 4.0;
/// Edges are sharp where pixels have more units. Sharp edges would leave a pixel out where a picture is scaled to less
/// than a dot for it, and held ground would look free; soft ones show it faintly.
const SHARP: f64 = 2.0;

const INK: Colour = DARK;

/// Writes the picture.
pub fn write(out: &mut dyn Write, drawing: &Drawing) -> io::Result<()> {
    let columns = (drawing.entries.len() + 1 + drawing.notes.len()).div_ceil(ROWS);
    let width = LEFT + bed(drawing) + GAP + COLUMN * columns as f64;
    let height = TOP + bed(drawing) + 40.0;
    write!(out, r#"<svg xmlns="http://www.w3.org/2000/svg" viewBox="0 0 {width} {height}" width="{width}" "#)?;
    write!(out, r#"height="{height}" role="img" font-family="Helvetica, Arial, sans-serif" font-size="13" "#)?;
    writeln!(out, r#"fill="{INK}">"#)?;
    let (title, summary) = (escaped(&drawing.title()), drawing.summary());
    writeln!(out, "<title>{title}: a bed of {summary}</title>")?;
    write!(out, r#"<defs><pattern id="free" width="8" height="8" patternUnits="userSpaceOnUse" "#)?;
    write!(out, r#"patternTransform="rotate(45)"><path fill="{WHITE}" d="M0 0h8v8h-8z"/>"#)?;
    writeln!(out, r#"<path stroke="{HATCH}" stroke-width="1.5" d="M0 0v8"/></pattern></defs>"#)?;
    writeln!(out, r#"<path fill="{PAPER}" d="M0 0h{width}v{height}h-{width}z"/>"#)?;
    writeln!(out, r#"<text x="{LEFT}" y="36" font-size="20" font-weight="bold">{title}</text>"#)?;
    writeln!(out, r#"<text x="{LEFT}" y="58" fill="{MUTED}">{summary}</text>"#)?;
    ground(out, drawing)?;
    tiles(out, drawing)?;
    axes(out, drawing)?;
    legend(out, drawing)?;
    writeln!(out, "</svg>")
}

/// About how many bytes a picture of so many small tiles takes.
pub fn bytes_about(tiles: usize) -> usize {
    114 * tiles
}

/// A number as short as it can be said, to the thousandth.
fn short(number: f64) -> String {
    let text = format!("{number:.3}");
    text.trim_end_matches('0').trim_end_matches('.').to_owned()
}

/// Units for the bed's side: at least one for each column.
fn bed(drawing: &Drawing) -> f64 {
    let side = f64::from(drawing.side());
    if BED >= SHARP * side {
        BED
    } else {
        side.max(LARGE)
    }
}

/// Units for each pixel.
fn unit(drawing: &Drawing) -> f64 {
    bed(drawing) / f64::from(drawing.side())
}

fn ground(out: &mut dyn Write, drawing: &Drawing) -> io::Result<()> {
    let free = escaped(&share(drawing.free, drawing.map.bed.pixels()));
    let title = format!("nobody's; {} in all, {free}", count(drawing.free as usize, "pixel"));
    let bed = bed(drawing);
    writeln!(
        out,
        r#"<rect x="{LEFT}" y="{TOP}" width="{bed}" height="{bed}" fill="url(#free)"><title>{title}</title></rect>"#
    )
}

/// The numbers of columns and rows stand at the middle of theirs.
fn axes(out: &mut dyn Write, drawing: &Drawing) -> io::Result<()> {
    writeln!(out, r#"<g fill="{MUTED}" stroke="none" font-size="11">"#)?;
    let (x, y, turned) = (LEFT, TOP - 28.0, LEFT - 44.0);
    writeln!(out, r#"<text x="{x}" y="{y}">column →</text>"#)?;
    writeln!(out, r#"<text transform="translate({turned} {TOP}) rotate(-90)" text-anchor="end">← row</text>"#)?;
    let mut ticks = String::new();
    for number in (0..drawing.side()).step_by(drawing.step(TICKS) as usize) {
        let middle = (f64::from(number) + 0.5) * unit(drawing);
        let (x, y) = (short(LEFT + middle), short(TOP + middle));
        ticks.push_str(&format!("M{x} {}v5M{} {y}h5", TOP - 6.0, LEFT - 6.0));
        writeln!(out, r#"<text x="{x}" y="{}" text-anchor="middle">{number}</text>"#, TOP - 11.0)?;
        writeln!(out, r#"<text x="{}" y="{y}" dy=".35em" text-anchor="end">{number}</text>"#, LEFT - 11.0)?;
    }
    // The frame is drawn last, so that no tile lies on it.
    let bed = bed(drawing);
    ticks.push_str(&format!("M{LEFT} {TOP}h{bed}v{bed}h-{bed}z"));
    writeln!(out, "</g>")?;
    writeln!(out, r#"<path fill="none" stroke="{FRAME}" pointer-events="none" d="{ticks}"/>"#)
}

/// The tiles, account by account: a group has the fill, a tile its square and its title.
fn tiles(out: &mut dyn Write, drawing: &Drawing) -> io::Result<()> {
    let mut groups: Vec<Vec<Square>> = drawing.entries.iter().map(|_| Vec::new()).collect();
    for &square in &drawing.squares {
        groups[square.entry].push(square);
    }
    let unit = unit(drawing);
    let (scale, line) = (short(unit), short(1.0 / unit));
    let edges = if unit > SHARP { r#" shape-rendering="crispEdges""# } else { "" };
    write!(out, r#"<g transform="translate({LEFT} {TOP}) scale({scale})"{edges} "#)?;
    writeln!(out, r#"stroke-width="{line}" stroke-opacity=".6">"#)?;
    let mut progress = Progress::new("drawing", drawing.map.bed.words().len());
    for (entry, squares) in drawing.entries.iter().zip(&groups) {
        group(out, entry, squares, unit, &mut progress)?;
    }
    writeln!(out, "</g>")?;
    writeln!(out, r#"<g text-anchor="middle" pointer-events="none">"#)?;
    for (entry, squares) in drawing.entries.iter().zip(&groups) {
        labels(out, entry, squares, unit)?;
    }
    writeln!(out, "</g>")
}

/// The tiles of an account: those with room for an outline, then the others.
fn group(out: &mut dyn Write, entry: &Entry, squares: &[Square], unit: f64, progress: &mut Progress) -> io::Result<()> {
    let (large, small): (Vec<&Square>, Vec<&Square>) =
        squares.iter().partition(|square| f64::from(square.side) * unit >= OUTLINED);
    for (squares, stroke) in [(large, entry.fill.label().to_string()), (small, "none".to_owned())] {
        if squares.is_empty() {
            continue;
        }
        writeln!(out, r#"<g fill="{}" stroke="{stroke}">"#, entry.fill)?;
        for square in squares {
            tile(out, entry, square)?;
            progress.step();
        }
        writeln!(out, "</g>")?;
    }
    Ok(())
}

fn tile(out: &mut dyn Write, entry: &Entry, square: &Square) -> io::Result<()> {
    let Square { pixel, side, .. } = square;
    let title = square.described(entry.holding.class);
    writeln!(
        out,
        r#"<rect x="{}" y="{}" width="{side}" height="{side}"><title>{title}</title></rect>"#,
        pixel.column, pixel.row
    )
}

/// The account's number on each tile that has room for it.
fn labels(out: &mut dyn Write, entry: &Entry, squares: &[Square], unit: f64) -> io::Result<()> {
    let mut large = squares.iter().filter(|square| f64::from(square.side) * unit >= LABELLED).peekable();
    if large.peek().is_none() {
        return Ok(());
    }
    writeln!(out, r#"<g fill="{}">"#, entry.fill.label())?;
    for square in large {
        let side = f64::from(square.side) * unit;
        let x = LEFT + f64::from(square.pixel.column) * unit + side / 2.0;
        let y = TOP + f64::from(square.pixel.row) * unit + side / 2.0;
        let font = (0.45 * side).clamp(9.0, 40.0);
        writeln!(
            out,
            r#"<text x="{}" y="{}" dy=".35em" font-size="{}">{}</text>"#,
            short(x),
            short(y),
            short(font),
            entry.holding.account.0
        )?;
    }
    writeln!(out, "</g>")
}

/// Where the columns of the legend's table end, and where its classes begin.
const CLASS: f64 = 32.0;
const TILES: f64 = 134.0;
const PIXELS: f64 = 196.0;
const SHARE: f64 = 250.0;

fn legend(out: &mut dyn Write, drawing: &Drawing) -> io::Result<()> {
    let (count, pixels) = (drawing.entries.len(), drawing.map.bed.pixels());
    let at = |entry: usize| {
        let (column, row) = (entry / ROWS, entry % ROWS);
        (LEFT + bed(drawing) + GAP + COLUMN * column as f64, TOP + 12.0 + ROW * row as f64)
    };
    for column in 0..=count / ROWS {
        let (x, y) = (at(column * ROWS).0, TOP - 11.0);
        writeln!(out, r#"<g fill="{MUTED}" font-size="11"><text x="{x}" y="{y}">account</text>"#)?;
        for (end, name) in [(TILES, "tiles"), (PIXELS, "pixels"), (SHARE, "share")] {
            writeln!(out, r#"<text x="{}" y="{y}" text-anchor="end">{name}</text>"#, x + end)?;
        }
        writeln!(out, "</g>")?;
    }
    for (number, entry) in drawing.entries.iter().enumerate() {
        let (x, y) = at(number);
        let (account, holding) = (entry.holding.account.0, &entry.holding);
        swatch(out, x, y, &entry.fill.to_string())?;
        writeln!(
            out,
            r#"<text x="{}" y="{y}" dy=".35em" font-size="11" text-anchor="middle" fill="{}">{account}</text>"#,
            x + 11.0,
            entry.fill.label()
        )?;
        let numbers = [holding.tiles.to_string(), holding.pixels.to_string(), share(holding.pixels, pixels)];
        entry_text(out, x, y, holding.class, &numbers)?;
    }
    let (x, y) = at(count);
    swatch(out, x, y, "url(#free)")?;
    entry_text(out, x, y, "nobody's", &[String::new(), drawing.free.to_string(), share(drawing.free, pixels)])?;
    for (number, note) in drawing.notes.iter().enumerate() {
        let (x, y) = at(count + 1 + number);
        writeln!(out, r#"<text x="{x}" y="{y}" dy=".35em" fill="{MUTED}">{note}</text>"#)?;
    }
    Ok(())
}

fn swatch(out: &mut dyn Write, x: f64, y: f64, fill: &str) -> io::Result<()> {
    let y = y - 9.0;
    writeln!(out, r#"<rect x="{x}" y="{y}" width="22" height="18" fill="{fill}" stroke="{INK}" stroke-opacity=".7"/>"#)
}

fn entry_text(out: &mut dyn Write, x: f64, y: f64, class: &str, numbers: &[String; 3]) -> io::Result<()> {
    write!(out, r#"<text x="{}" y="{y}" dy=".35em">{class}</text>"#, x + CLASS)?;
    for (end, number) in [TILES, PIXELS, SHARE].into_iter().zip(numbers).filter(|(_, number)| !number.is_empty()) {
        let number = escaped(number);
        write!(out, r#"<text x="{}" y="{y}" dy=".35em" text-anchor="end">{number}</text>"#, x + end)?;
    }
    writeln!(out)
}
