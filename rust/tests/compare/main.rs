//! Compares the library's raw calls and its beds with the plain implementation: answers and storage, refusals
//! included.
//!
//!     cargo test --test compare                                 half a minute of random cases
//!     cargo test --test compare -- --seconds 3600               longer
//!     cargo test --test compare -- --seed 12345                 the same cases again
//!     cargo test --test compare -- --group lists --case 678     one case again, as a failure prints it

mod bands;
mod changing;
mod checks;
mod combine;
mod damage;
mod equal;
mod files;
mod large;
mod lent;
mod limits;
mod living;
mod mils;
mod pair;
#[path = "../plain/mod.rs"]
mod plain;
mod points;
mod random;
mod rosters;
mod scans;
mod sequences;
mod tables;
mod worked;

use pair::Count;
use random::Random;
use std::collections::BTreeSet;
use std::panic::{catch_unwind, AssertUnwindSafe};
use std::time::{Duration, Instant, SystemTime};

type Case = fn(&mut Random, &mut Count);

/// A group of cases; they come in rounds of so many.
struct Group {
    name: &'static str,
    case: Case,
    round: usize,
}

/// Once, first.
const ONCE: [Group; 11] = [
    Group { name: "worked", case: |_, count| worked::lines(count), round: 1 },
    Group { name: "checks", case: |_, count| checks::in_order(count), round: 1 },
    Group { name: "limits", case: |_, count| limits::all(count), round: 1 },
    Group { name: "rosters", case: |_, count| rosters::all(count), round: 1 },
    Group { name: "every-file", case: files::all, round: 1 },
    Group { name: "every-point", case: |_, count| points::all(count), round: 1 },
    Group { name: "every-position", case: |_, count| mils::all(count), round: 1 },
    Group { name: "every-table", case: |_, count| tables::all(count), round: 1 },
    Group { name: "every-feed", case: bands::all, round: 1 },
    Group { name: "every-word", case: damage::every_word, round: 1 },
    Group { name: "patterns", case: large::patterns, round: 1 },
];

/// Round after round until the time is over.
const ROUNDS: [Group; 12] = [
    Group { name: "sequences", case: sequences::case, round: 1000 },
    Group { name: "scans", case: scans::case, round: 500 },
    Group { name: "bands", case: bands::case, round: 100 },
    Group { name: "lists", case: damage::list_case, round: 5000 },
    Group { name: "files", case: damage::file_case, round: 5000 },
    Group { name: "combine", case: combine::case, round: 1000 },
    Group { name: "pairs", case: damage::pair_case, round: 2000 },
    Group { name: "points", case: points::case, round: 5000 },
    Group { name: "positions", case: mils::case, round: 5000 },
    Group { name: "tables", case: tables::case, round: 2000 },
    Group { name: "equal", case: equal::case, round: 1000 },
    Group { name: "large", case: large::case, round: 1 },
];

struct Options {
    seconds: u64,
    seed: u64,
    group: Option<String>,
    case: Option<u64>,
}

fn options() -> Options {
    let now = SystemTime::now().duration_since(SystemTime::UNIX_EPOCH).expect("a clock past 1970");
    let mut options = Options { seconds: 30, seed: now.as_nanos() as u64 % 1_000_000_007, group: None, case: None };
    let mut arguments = std::env::args().skip(1);
    while let Some(argument) = arguments.next() {
        let mut number = || arguments.next().and_then(|text| text.parse().ok()).unwrap_or_else(|| usage());
        match argument.as_str() {
            "--seconds" => options.seconds = number(),
            "--seed" => options.seed = number(),
            "--case" => options.case = Some(number()),
            "--group" => options.group = Some(arguments.next().unwrap_or_else(|| usage())),
            _ => usage(),
        }
    }
    options
}

fn usage() -> ! {
    eprintln!("compare [--seconds N] [--seed N] [--group NAME [--case N]]");
    std::process::exit(2)
}

/// Runs one case from its own seed; a difference ends the program with the line that runs it again.
fn run(group: &Group, seed: u64, count: &mut Count) {
    let mut random = Random::new(seed);
    if catch_unwind(AssertUnwindSafe(|| (group.case)(&mut random, count))).is_err() {
        println!("compare: FAILED; again by: cargo test --test compare -- --group {} --case {seed}", group.name);
        std::process::exit(1);
    }
}

fn main() {
    let options = options();
    let chosen = |group: &&Group| options.group.as_ref().is_none_or(|name| name == group.name);
    let mut count = Count::default();
    if let Some(seed) = options.case {
        ONCE.iter().chain(&ROUNDS).filter(chosen).for_each(|group| run(group, seed, &mut count));
        println!("compare: the case passed");
        return;
    }
    println!("compare: seed {}, {} seconds", options.seed, options.seconds);
    let mut seeds = Random::new(options.seed);
    let begin = Instant::now();
    for group in ONCE.iter().filter(chosen) {
        run(group, seeds.next() >> 1, &mut count);
    }
    let mut cases = 0u64;
    let end = Duration::from_secs(options.seconds);
    while ROUNDS.iter().any(|group| chosen(&group)) {
        for group in ROUNDS.iter().filter(chosen) {
            for _ in 0..group.round {
                run(group, seeds.next() >> 1, &mut count);
                cases += 1;
            }
        }
        if begin.elapsed() >= end {
            break;
        }
    }
    let numbers: BTreeSet<u32> = count.met.keys().map(|&(_, number)| number).collect();
    let met: Vec<String> = numbers.iter().map(|&number| format!("{number}: {}", count.times(number))).collect();
    println!("compare: {cases} random cases, {} calls alike; numbers met: {}", count.calls, met.join(", "));
    let unmet = if options.group.is_none() { checks::unmet(&count) } else { Vec::new() };
    if !unmet.is_empty() {
        println!("compare: FAILED; {}", unmet.join("; "));
        std::process::exit(1);
    }
    println!("compare: passed in {:.0} seconds", begin.elapsed().as_secs_f64());
}
