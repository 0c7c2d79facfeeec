//! `draw`: a bed as a picture, as a page, or in the terminal.

use super::{apart, tell};
use crate::args::Style;
use crate::drawing::Drawing;
use crate::failure::{note, Failure};
use crate::input::Source;
use crate::map::Map;
use crate::output::Target;
use crate::{page, svg, terminal};
use std::env;
use std::fs::File;
use std::io::{self, IsTerminal};
use std::process::{Command, Stdio};

/// Tiles from which on a picture takes a viewer long to open.
const MANY: usize = 100_000;
/// The columns of a terminal that does not say.
const WIDTH: usize = 80;

pub fn draw(file: Source, out: &Target, style: &Style) -> Result<(), Failure> {
    apart(&file, out)?;
    let drawing = Drawing::of(Map::open(file)?)?;
    match style {
        Style::Svg => {
            let tiles = drawing.map.bed.words().len();
            if tiles > MANY {
                let megabytes = svg::bytes_about(tiles) / 1_000_000;
                note(format_args!(
                    "kbmap: {tiles} tiles: the picture takes about {megabytes} MB, and long to open; a page does not"
                ));
            }
            out.write(&|writer| svg::write(writer, &drawing))?;
        }
        Style::Html => out.write(&|writer| page::write(writer, &drawing))?,
        Style::Terminal { colour, width } => {
            let (colour, width) = (*colour || coloured(), width.unwrap_or_else(columns).max(terminal::NARROWEST));
            return out.write(&|writer| terminal::write(writer, &drawing, colour, width));
        }
    }
    match out {
        Target::Standard => Ok(()),
        Target::File(_) => tell(out, &format!("{}: {}", out.name(), drawing.summary())),
    }
}

/// Whether standard output shows colours.
fn coloured() -> bool {
    let set = |name| env::var_os(name).is_some_and(|value| !value.is_empty());
    io::stdout().is_terminal() && !set("NO_COLOR") && env::var_os("TERM").is_none_or(|term| term != "dumb")
}

/// The columns of the terminal; where there is none, those of the environment, or the usual ones.
fn columns() -> usize {
    let asked = if io::stdout().is_terminal() { terminal_columns() } else { None };
    let told = || env::var("COLUMNS").ok()?.parse().ok();
    asked.or_else(told).filter(|&columns| columns > 0).unwrap_or(WIDTH)
}

/// Asks the system's `stty`, which says "rows columns".
fn terminal_columns() -> Option<usize> {
    let terminal = File::open("/dev/tty").ok()?;
    let answer = Command::new("stty").arg("size").stdin(terminal).stderr(Stdio::null()).output().ok()?;
    String::from_utf8(answer.stdout).ok()?.split_whitespace().nth(1)?.parse().ok()
}
