//! A program as a whole: files in a folder, a listing on its standard output.

use crate::fixed;
use crate::generate::dumps::Dumps;
use crate::generate::kinds::{self, Kind};
use crate::generate::random::Random;
use crate::generate::write_cycles::write_cycles;
use crate::model::call::Call;
use crate::model::kept::{Kept, KEPT};
use crate::model::listing::{Files, Listing};
use crate::report::{fresh_folder, Group, Report, Saved};
use std::fs;
use std::io;
use std::path::Path;
use std::process::{Command, Output};

/// The listing that a program owes for the files in the present folder.
pub fn here(listing: Listing) -> io::Result<String> {
    let files = Files { trace: file_here("trace.tsv")?, flash: file_here("flash.bin")?, eeprom: file_here("eeprom.bin")? };
    Ok(listing(&files))
}

/// A file of the present folder; None where it is absent.
pub fn file_here(name: &str) -> io::Result<Option<Vec<u8>>> {
    match fs::read(name) {
        Ok(bytes) => Ok(Some(bytes)),
        Err(error) if error.kind() == io::ErrorKind::NotFound => Ok(None),
        Err(error) => Err(io::Error::new(error.kind(), format!("{}: {}", name, error))),
    }
}

pub struct Plan {
    pub command: String,
    /// What the command must print.
    pub listing: Listing,
    pub cases: usize,
    pub seed: u64,
}

const KINDS: [Kind; 9] = [
    kinds::session,
    kinds::probe,
    write_cycles,
    kinds::damaged,
    kinds::limit,
    kinds::words,
    kinds::tied_session,
    kinds::mutated,
    kinds::board_lines,
];

pub fn check(plan: &Plan) -> io::Result<bool> {
    let program = Program { command: whole_paths(&plan.command), listing: plan.listing };
    let mut report = Report::default();
    let mut fixed_group = report.group("listings of texts written by hand");
    for case in fixed::all() {
        let files = Files { trace: Some(case.call.text.clone()), flash: None, eeprom: None };
        program.judge(&mut fixed_group, &files, &[&case.call]);
    }
    let nothing = Files { trace: None, flash: None, eeprom: None };
    program.judge(&mut fixed_group, &nothing, &[]);
    report.close(fixed_group);

    let mut group = report.group("listings of generated files");
    let mut random = Random::seeded(plan.seed);
    for number in 0..plan.cases {
        let (call, files) = generated(&mut random, number);
        program.judge(&mut group, &files, &[&call]);
    }
    report.close(group);
    Ok(report.finish())
}

/// The call of a case, and the files that it is made into.
pub fn generated(random: &mut Random, number: usize) -> (Call, Files) {
    let call = if number % 50 == 49 { kinds::long(random, number / 50) } else { KINDS[number % KINDS.len()](random, number) };
    let files = files_for(random, &call);
    (call, files)
}

fn files_for(random: &mut Random, call: &Call) -> Files {
    let dumps = Dumps {
        flash: Kept { value: call.flash.clone(), mask: call.flash_mask.clone() },
        eeprom: Kept { value: call.eeprom.clone(), mask: call.eeprom_mask.clone() },
    };
    let trace = if random.percent(2) { None } else { Some(call.text.clone()) };
    Files { trace, flash: dump(random, &dumps.flash), eeprom: dump(random, &dumps.eeprom) }
}

/// A dump file: mostly whole, now and then absent or of a wrong length.
fn dump(random: &mut Random, kept: &Kept) -> Option<Vec<u8>> {
    let mut bytes = kept.value.clone();
    match random.below(20) {
        0..=5 => return None,
        6 => bytes.truncate(random.pick(&[0, 1, KEPT - 1])),
        7 => bytes.push(0),
        _ => (),
    }
    Some(bytes)
}

struct Program {
    command: Vec<String>,
    listing: Listing,
}

impl Program {
    fn judge(&self, group: &mut Group, files: &Files, calls: &[&dyn Saved]) {
        let due = (self.listing)(files);
        group.judge(answer_told(&due), || unlike(&self.command, &named(files), &due), calls);
    }
}

/// The number that a listing's last line tells.
fn answer_told(listing: &str) -> u32 {
    let last: Vec<&str> = listing.lines().last().unwrap_or("").split('\t').collect();
    match last.as_slice() {
        ["settled", ..] => 0,
        [_, number, ..] => number.parse().unwrap_or(0),
        _ => 0,
    }
}

/// The first line in which the program's listing is not as it must be.
pub fn unlike(command: &[String], files: &NamedFiles, due: &str) -> Option<String> {
    match run_on(command, files) {
        Ok(output) => unlike_text("listing", &output.stdout, due.as_bytes()),
        Err(error) => Some(format!("the program did not run: {}", error)),
    }
}

/// The first line in which a text is not as it must be.
pub fn unlike_text(name: &str, found: &[u8], due: &[u8]) -> Option<String> {
    if found == due {
        return None;
    }
    let (found, due) = (String::from_utf8_lossy(found), String::from_utf8_lossy(due));
    let place = found.lines().zip(due.lines()).take_while(|(one, other)| one == other).count();
    let line = |text: &str| text.lines().nth(place).map(String::from);
    Some(format!("{} line {}: {:?} where {:?} is due", name, place + 1, line(&found), line(&due)))
}

/// What a program says in a folder with these files.
pub fn run_on(command: &[String], files: &NamedFiles) -> io::Result<Output> {
    let folder = fresh_folder()?;
    write_named(&folder, files)?;
    let (program, arguments) = command.split_first().ok_or(io::ErrorKind::InvalidInput)?;
    let output = Command::new(program).args(arguments).current_dir(&folder).output()?;
    fs::remove_dir_all(&folder)?;
    Ok(output)
}

/// The files that a program finds in its folder, each None where it is absent.
pub type NamedFiles<'a> = Vec<(&'static str, &'a Option<Vec<u8>>)>;

fn named(files: &Files) -> NamedFiles<'_> {
    vec![("trace.tsv", &files.trace), ("flash.bin", &files.flash), ("eeprom.bin", &files.eeprom)]
}

pub fn write_files(folder: &Path, files: &Files) -> io::Result<()> {
    write_named(folder, &named(files))
}

fn write_named(folder: &Path, files: &NamedFiles) -> io::Result<()> {
    for (name, content) in files {
        if let Some(bytes) = content {
            fs::write(folder.join(name), bytes)?;
        }
    }
    Ok(())
}

/// The words of a command; those that name files here are made to name them from anywhere.
pub fn whole_paths(command: &str) -> Vec<String> {
    command.split_whitespace().map(whole_path).collect()
}

fn whole_path(word: &str) -> String {
    if !word.contains('/') {
        return String::from(word);
    }
    match Path::new(word).canonicalize() {
        Ok(path) => path.to_string_lossy().into_owned(),
        Err(_) => String::from(word),
    }
}
