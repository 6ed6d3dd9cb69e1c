//! What a check prints, and where it lays down the cases that failed.

use crate::model::call::{Call, BUFFERS};
use crate::model::capture_calls::{MergeCall, PlayCall};
use crate::model::merge_listing::MergeFiles;
use crate::model::plan::PlanCall;
use crate::model::plan_listing::PlanFiles;
use crate::protocol::Asked;
use std::collections::BTreeMap;
use std::env;
use std::fs;
use std::io;
use std::path::{Path, PathBuf};
use std::process;

const SHOWN: usize = 12;
const SHOWN_TEXT: usize = 1500;

#[derive(Default)]
pub struct Report {
    passed: usize,
    failed: usize,
    shown: usize,
}

/// One group of cases; it prints one line when it is closed.
pub struct Group {
    name: String,
    passed: usize,
    failed: usize,
    may_show: usize,
    answers: BTreeMap<u32, usize>,
}

impl Report {
    pub fn group(&self, name: &str) -> Group {
        let may_show = SHOWN.saturating_sub(self.shown);
        Group { name: String::from(name), passed: 0, failed: 0, may_show, answers: BTreeMap::new() }
    }

    pub fn close(&mut self, group: Group) {
        let answers: Vec<String> = group.answers.iter().map(|(answer, count)| format!("{}: {}", answer, count)).collect();
        println!("{:<36}{:>7} passed, {} failed   (answers {})", group.name, group.passed, group.failed, answers.join(", "));
        self.passed += group.passed;
        self.failed += group.failed;
        self.shown += group.failed;
    }

    /// Prints the last line; true where nothing failed.
    pub fn finish(&self) -> bool {
        println!("{} passed, {} failed", self.passed, self.failed);
        self.failed == 0
    }
}

impl Group {
    /// Counts a case by the answer due; what `difference` finds is shown with the calls it came from.
    pub fn judge(&mut self, answer: u32, difference: impl FnOnce() -> Option<String>, calls: &[&dyn Saved]) {
        *self.answers.entry(answer).or_insert(0) += 1;
        match difference() {
            None => self.passed += 1,
            Some(found) => {
                self.failed += 1;
                if self.failed <= self.may_show {
                    println!("FAILED in {}: {}", self.name, found);
                    calls.iter().for_each(|call| show(*call));
                }
            }
        }
    }
}

/// What is laid down of a case that failed.
pub trait Saved {
    /// The files by name, with their bytes.
    fn files(&self) -> Vec<(&'static str, &[u8])>;
}

/// Those that can be read as they are.
const TEXTS: [&str; 3] = ["trace.tsv", "levels.tsv", "logger.tsv"];

const CALL_FILES: [&str; BUFFERS] =
    ["trace.tsv", "flash.bin", "flash-mask.bin", "eeprom.bin", "eeprom-mask.bin", "times.bin", "replies.bin", "result.bin"];
const MERGE_FILES: [&str; 4] = ["levels.tsv", "trace.tsv", "output.bin", "result.bin"];
const PLAY_FILES: [&str; 7] =
    ["levels.tsv", "trace.tsv", "flash.bin", "flash-mask.bin", "eeprom.bin", "eeprom-mask.bin", "result.bin"];
const PLAN_FILES: [&str; 5] = ["present.bin", "wanted.bin", "status.bin", "list.bin", "result.bin"];

impl Saved for Call {
    fn files(&self) -> Vec<(&'static str, &[u8])> {
        CALL_FILES.into_iter().zip(self.asked()).collect()
    }
}

impl Saved for PlanCall {
    fn files(&self) -> Vec<(&'static str, &[u8])> {
        PLAN_FILES.into_iter().zip(self.asked()).collect()
    }
}

impl Saved for MergeCall {
    fn files(&self) -> Vec<(&'static str, &[u8])> {
        MERGE_FILES.into_iter().zip(self.asked()).collect()
    }
}

impl Saved for PlayCall {
    fn files(&self) -> Vec<(&'static str, &[u8])> {
        PLAY_FILES.into_iter().zip(self.asked()).collect()
    }
}

impl Saved for PlanFiles {
    fn files(&self) -> Vec<(&'static str, &[u8])> {
        present(self.named())
    }
}

impl Saved for MergeFiles {
    fn files(&self) -> Vec<(&'static str, &[u8])> {
        present(self.named())
    }
}

/// Of a program's files those that are there.
fn present<'a>(files: Vec<(&'static str, &'a Option<Vec<u8>>)>) -> Vec<(&'static str, &'a [u8])> {
    files.into_iter().filter_map(|(name, content)| Some((name, content.as_deref()?))).collect()
}

fn show(call: &dyn Saved) {
    match save(call) {
        Ok(folder) => println!("  its buffers are in {}", folder.display()),
        Err(error) => println!("  its buffers could not be saved: {}", error),
    }
    for (name, bytes) in call.files() {
        if TEXTS.contains(&name) && bytes.len() <= SHOWN_TEXT {
            println!("{}", String::from_utf8_lossy(bytes));
        }
    }
}

fn save(call: &dyn Saved) -> io::Result<PathBuf> {
    let folder = fresh_folder()?;
    for (name, bytes) in call.files() {
        fs::write(folder.join(name), bytes)?;
    }
    Ok(folder)
}

/// A new folder for temporary files of this run.
pub fn fresh_folder() -> io::Result<PathBuf> {
    let run = env::temp_dir().join(format!("hazelcrook-check-{}", process::id()));
    fs::create_dir_all(&run)?;
    for number in 1.. {
        let folder = run.join(number.to_string());
        if !Path::new(&folder).exists() {
            fs::create_dir(&folder)?;
            return Ok(folder);
        }
    }
    Err(io::Error::from(io::ErrorKind::Other))
}
