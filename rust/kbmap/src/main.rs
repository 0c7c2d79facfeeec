//! kbmap: checks, shows, compares, changes, combines and draws map files of a machine's bed, shows and makes tables of
//! rights, and says who may place where. All work on maps and tables is the library's; this program reads, writes and
//! tells.

#![forbid(unsafe_code)]

mod args;
mod colour;
mod commands;
mod drawing;
mod failure;
mod input;
mod layout;
mod locate;
mod lock;
mod map;
mod output;
mod page;
mod pgm;
mod progress;
mod svg;
mod table;
mod terminal;
mod words;

use args::Command;
use failure::Failure;
use std::process::ExitCode;

fn main() -> ExitCode {
    match args::parse(std::env::args_os().skip(1)).and_then(obey) {
        Ok(()) => ExitCode::SUCCESS,
        Err(failure) => {
            failure.tell();
            ExitCode::from(failure.status)
        }
    }
}

fn obey(command: Command) -> Result<(), Failure> {
    match command {
        Command::Help => output::print(args::HELP),
        Command::Version => output::print(concat!("kbmap ", env!("CARGO_PKG_VERSION"), "\n")),
        Command::Check { file } => commands::check(&file),
        Command::Show { file } => commands::show(file),
        Command::Same { file, other } => commands::same(file, other),
        Command::At { file, place } => commands::at(file, &place),
        Command::Rights { file, place, account, table } => commands::rights(file, &place, account, table.as_ref()),
        Command::Table { file } => commands::show_table(&file),
        Command::MakeTable { bytes, out } => commands::make_table(&bytes, &out),
        Command::Scan { image, out } => commands::scan(&image, &out),
        Command::Decode { file, out, plain } => commands::decode(file, &out, plain),
        Command::Preview { file, claim } => commands::preview(file, &claim),
        Command::Claim { file, out, claim } => commands::claim(file, out, &claim),
        Command::Combine { choice, file, zones, out } => commands::combine(choice, file, zones, &out),
        Command::Draw { file, out, style } => commands::draw(file, &out, &style),
    }
}
