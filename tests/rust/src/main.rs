//! The independent check of the replay, of the plan and of captures: a plain model of document 01 with requests 1/12, 2/12, 3/12,
//! 4/12 and 6/12, the chips' histories of request 8/12, generated traces, captures and contents, and a comparison over pipes.
//!
//!   hazelcrook-check check DRIVER_COMMAND [--cases N] [--seed S] [--long]
//!   hazelcrook-check histories DRIVER_COMMAND [--cases N] [--seed S] [--long]
//!   hazelcrook-check plans DRIVER_COMMAND [--cases N] [--seed S] [--long]
//!   hazelcrook-check captures DRIVER_COMMAND [--cases N] [--seed S] [--long]
//!   hazelcrook-check listings replay|pages|plan|merge COMMAND [--cases N] [--seed S]
//!   hazelcrook-check folders FOLDER [--cases N] [--seed S]
//!   hazelcrook-check serve [plan|merge|levels]
//!   hazelcrook-check listing replay|pages|plan|merge
//!   hazelcrook-check list [growth|captures]
//!   hazelcrook-check emit NAME [levels|trace]
//!
//! A command is one word of the shell, its own words parted by blanks.

mod captures;
mod check;
mod driver;
mod fixed;
mod folders;
mod generate;
mod histories;
mod listings;
mod merge_listings;
mod model;
mod plan_listings;
mod plans;
mod protocol;
mod report;
mod serve;

use generate::capture_samples;
use generate::samples::{self, Sample};
use model::listing::{Listing, PROGRAMS};
use std::env;
use std::io::{self, Write};
use std::path::Path;
use std::process::exit;

const CASES: usize = 12_000;
const LONG_CASES: usize = 250_000;
const HISTORY_CASES: usize = 1_500;
const LONG_HISTORY_CASES: usize = 20_000;
const PLAN_CASES: usize = 2_000;
const LONG_PLAN_CASES: usize = 50_000;
const CAPTURE_CASES: usize = 3_000;
const LONG_CAPTURE_CASES: usize = 60_000;
const LISTING_CASES: usize = 600;
/// A listing of a plan stands for so many cases: it takes long to print.
const A_PLAN: usize = 10;
/// A merged capture for two: those written by hand are many.
const A_MERGE: usize = 2;
const FOLDERS: usize = 150;

/// The programs whose files and listings are of their own kind, and the driver's words for their calls.
const PLAN: &str = "plan";
const MERGE: &str = "merge";

/// The words after the mode: options with their values, and the rest.
#[derive(Default)]
struct Arguments {
    plain: Vec<String>,
    cases: Option<usize>,
    seed: Option<u64>,
    long: bool,
}

fn main() {
    let mut words = env::args().skip(1);
    let mode = words.next().unwrap_or_default();
    let outcome = match arguments(words) {
        Some(arguments) => run(&mode, arguments),
        None => Err(io::Error::from(io::ErrorKind::InvalidInput)),
    };
    match outcome {
        Ok(true) => (),
        Ok(false) => exit(1),
        Err(error) => {
            eprintln!("hazelcrook-check: {}", error);
            exit(2);
        }
    }
}

fn arguments(mut words: impl Iterator<Item = String>) -> Option<Arguments> {
    let mut arguments = Arguments::default();
    while let Some(word) = words.next() {
        match word.as_str() {
            "--cases" => arguments.cases = Some(words.next()?.parse().ok()?),
            "--seed" => arguments.seed = Some(words.next()?.parse().ok()?),
            "--long" => arguments.long = true,
            _ => arguments.plain.push(word),
        }
    }
    Some(arguments)
}

fn run(mode: &str, arguments: Arguments) -> io::Result<bool> {
    let seed = arguments.seed.unwrap_or(1);
    let usual = if arguments.long { LONG_CASES } else { CASES };
    match (mode, arguments.plain.as_slice()) {
        ("check", [command]) => {
            check::check(&check::Plan { command: command.clone(), cases: arguments.cases.unwrap_or(usual), seed })
        }
        ("histories", [command]) => {
            let usual = if arguments.long { LONG_HISTORY_CASES } else { HISTORY_CASES };
            histories::check(&histories::Plan { command: command.clone(), cases: arguments.cases.unwrap_or(usual), seed })
        }
        ("plans", [command]) => {
            let usual = if arguments.long { LONG_PLAN_CASES } else { PLAN_CASES };
            plans::check(&plans::Plan { command: command.clone(), cases: arguments.cases.unwrap_or(usual), seed })
        }
        ("captures", [command]) => {
            let usual = if arguments.long { LONG_CAPTURE_CASES } else { CAPTURE_CASES };
            captures::check(&captures::Plan { command: command.clone(), cases: arguments.cases.unwrap_or(usual), seed })
        }
        ("listings", [program, command]) if program == PLAN => {
            let cases = arguments.cases.unwrap_or(LISTING_CASES) / A_PLAN;
            plan_listings::check(&plan_listings::Plan { command: command.clone(), cases, seed })
        }
        ("listings", [program, command]) if program == MERGE => {
            let cases = arguments.cases.unwrap_or(LISTING_CASES) / A_MERGE;
            merge_listings::check(&merge_listings::Plan { command: command.clone(), cases, seed })
        }
        ("listings", [program, command]) => {
            let cases = arguments.cases.unwrap_or(LISTING_CASES);
            listings::check(&listings::Plan { command: command.clone(), listing: listing_of(program)?, cases, seed })
        }
        ("folders", [folder]) => folders::lay_down(Path::new(folder), arguments.cases.unwrap_or(FOLDERS), seed).map(|()| true),
        ("serve", []) => serve::serve().map(|()| true),
        ("serve", [word]) => serve_call(word).map(|()| true),
        ("listing", [program]) if program == PLAN => print(plan_listings::here()?.as_bytes()),
        ("listing", [program]) if program == MERGE => {
            let due = merge_listings::here()?;
            io::stderr().write_all(&due.refusal)?;
            print(&due.trace)
        }
        ("listing", [program]) => print(listings::here(listing_of(program)?)?.as_bytes()),
        ("list", []) => print(list(&samples::ALL).as_bytes()),
        ("list", [growth]) if growth == "growth" => print(list(&samples::GROWTH).as_bytes()),
        ("list", [captures]) if captures == "captures" => print(list_captures().as_bytes()),
        ("emit", [name]) => emit(name),
        ("emit", [name, part]) => emit_capture(name, part),
        _ => Err(io::Error::new(io::ErrorKind::InvalidInput, "no such mode; see the head of src/main.rs")),
    }
}

fn serve_call(word: &str) -> io::Result<()> {
    match word {
        PLAN => serve::serve_plans(),
        MERGE => serve::serve_merges(),
        "levels" => serve::serve_levels(),
        _ => Err(io::Error::new(io::ErrorKind::InvalidInput, "no such call")),
    }
}

fn listing_of(program: &str) -> io::Result<Listing> {
    let found = PROGRAMS.iter().find(|(name, _)| *name == program);
    found.map(|&(_, listing)| listing).ok_or_else(|| io::Error::new(io::ErrorKind::InvalidInput, "no such program"))
}

/// The sample traces by name, after the word `tied` or `untied`.
fn list(samples: &[Sample]) -> String {
    samples.iter().map(|sample| format!("{} {}\n", if sample.tied { "tied" } else { "untied" }, sample.name)).collect()
}

fn emit(name: &str) -> io::Result<bool> {
    match samples::ALL.iter().chain(&samples::GROWTH).find(|sample| sample.name == name) {
        Some(sample) => print(&sample.text()),
        None => Err(io::Error::new(io::ErrorKind::InvalidInput, "no such trace; `list` and `list growth` name them")),
    }
}

fn list_captures() -> String {
    capture_samples::ALL.iter().map(|sample| format!("{}\n", sample.name)).collect()
}

/// One of the two texts of a capture that is measured.
fn emit_capture(name: &str, part: &str) -> io::Result<bool> {
    let capture = capture_samples::ALL.iter().find(|sample| sample.name == name).map(|sample| sample.capture());
    match (capture, part) {
        (Some(capture), "levels") => print(&capture.levels),
        (Some(capture), "trace") => print(&capture.trace),
        _ => Err(io::Error::new(io::ErrorKind::InvalidInput, "no such capture; `list captures` names them")),
    }
}

fn print(bytes: &[u8]) -> io::Result<bool> {
    let mut output = io::stdout();
    output.write_all(bytes)?;
    output.flush()?;
    Ok(true)
}
