//! A bed as a page: one file that needs nothing else. The template page.html draws it; here its gaps are filled.

use crate::drawing::{escaped, Drawing, Square};
use crate::progress::Progress;
use crate::words::share;
use kingletbed::{raw, HIGHEST_ORDER};
use std::io::{self, Write};

const TEMPLATE: &str = include_str!("page.html");

/// Writes the page.
pub fn write(out: &mut dyn Write, drawing: &Drawing) -> io::Result<()> {
    let mut parts = TEMPLATE.split("{{");
    out.write_all(parts.next().unwrap_or_default().as_bytes())?;
    for part in parts {
        let (gap, text) = part.split_once("}}").unwrap_or((part, ""));
        match gap {
            "title" => out.write_all(escaped(&drawing.title()).as_bytes())?,
            "summary" => out.write_all(drawing.summary().as_bytes())?,
            "notes" => drawing.notes.iter().try_for_each(|note| write!(out, "<br>{note}"))?,
            "legend" => legend(out, drawing)?,
            "data" => data(out, drawing)?,
            _ => return Err(io::Error::other(format!("the page has no {gap}"))),
        }
        out.write_all(text.as_bytes())?;
    }
    Ok(())
}

/// The rows of the table: each account, and nobody's ground.
fn legend(out: &mut dyn Write, drawing: &Drawing) -> io::Result<()> {
    let pixels = drawing.map.bed.pixels();
    for entry in &drawing.entries {
        let (holding, account) = (&entry.holding, entry.holding.account.0);
        let (fill, label) = (entry.fill, entry.fill.label());
        let share = escaped(&share(holding.pixels, pixels));
        write!(out, r#"<tr><td><button class="swatch" data-account="{account}" aria-pressed="false" "#)?;
        write!(out, r#"style="background:{fill};color:{label}">{account}</button></td><td>{}</td>"#, holding.class)?;
        writeln!(out, "<td>{}</td><td>{}</td><td>{share}</td></tr>", holding.tiles, holding.pixels)?;
    }
    let share = escaped(&share(drawing.free, pixels));
    let swatch = r#"<span class="swatch free"></span>"#;
    writeln!(out, "<tr><td>{swatch}</td><td>nobody's</td><td></td><td>{}</td><td>{share}</td></tr>", drawing.free)
}

/// What the script reads: the bed's side, the sides of all sizes, the accounts, and the tiles.
fn data(out: &mut dyn Write, drawing: &Drawing) -> io::Result<()> {
    let sides: Vec<String> = (0..=HIGHEST_ORDER).map(|size| raw::extent(size).side.to_string()).collect();
    write!(out, r#"{{"side":{},"sides":[{}],"accounts":["#, drawing.side(), sides.join(","))?;
    for (number, entry) in drawing.entries.iter().enumerate() {
        let comma = if number == 0 { "" } else { "," };
        let (account, class) = (entry.holding.account.0, entry.holding.class);
        let (fill, label) = (entry.fill, entry.fill.label());
        write!(out, r#"{comma}{{"account":{account},"class":"{class}","fill":"{fill}","label":"{label}"}}"#)?;
    }
    write!(out, r#"],"tiles":""#)?;
    let mut progress = Progress::new("drawing", drawing.map.bed.words().len());
    for square in &drawing.squares {
        out.write_all(&packed(square))?;
        progress.step();
    }
    write!(out, r#""}}"#)
}

/// A tile in eight letters of base64: column and row in two bytes each, size and account in one.
fn packed(square: &Square) -> [u8; 8] {
    const LETTERS: &[u8; 64] = b"ABCDEFGHIJKLMNOPQRSTUVWXYZabcdefghijklmnopqrstuvwxyz0123456789+/";
    let fields = [
        (square.pixel.column, 16),
        (square.pixel.row, 16),
        (square.tile.size(), 8),
        (u32::from(square.tile.account().0), 8),
    ];
    let bits = fields.iter().fold(0, |bits: u64, &(field, width)| bits << width | u64::from(field));
    std::array::from_fn(|at| LETTERS[(bits >> (42 - 6 * at) & 63) as usize])
}
