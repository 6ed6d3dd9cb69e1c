//! What program `plan` prints: a line for each entry of the plan, and last the number of cycles; or the refusal alone.

use super::fields;
use super::plan::{Entry, PlanCall, PLAN_RESULT};

/// The three files that the program reads, each None where it is absent.
pub struct PlanFiles {
    pub present: Option<Vec<u8>>,
    pub wanted: Option<Vec<u8>>,
    pub status: Option<Vec<u8>>,
}

impl PlanFiles {
    pub fn named(&self) -> Vec<(&'static str, &Option<Vec<u8>>)> {
        vec![("present.bin", &self.present), ("wanted.bin", &self.wanted), ("status.txt", &self.status)]
    }
}

pub fn plan_listing(files: &PlanFiles) -> String {
    match entries(files) {
        Ok(entries) => {
            let lines: String = entries.iter().map(entry_line).collect();
            format!("{}cycles\t{}\n", lines, entries.len())
        }
        Err(refusal) => format!("refused\t{}\n", refusal),
    }
}

/// Refusal 14 for a file that is not there, of a wrong length or no status too. The program lends room enough for any plan.
fn entries(files: &PlanFiles) -> Result<Vec<Entry>, u32> {
    let status = files.status.as_deref().and_then(status_told).ok_or(14_u32)?;
    let present = files.present.clone().ok_or(14_u32)?;
    let wanted = files.wanted.clone().ok_or(14_u32)?;
    PlanCall { present, wanted, status, list: Vec::new(), result: vec![0; PLAN_RESULT] }.entries()
}

/// Two digits as on a board line, and LF.
fn status_told(text: &[u8]) -> Option<u8> {
    match text {
        [digits @ .., b'\n'] => fields::status(digits),
        _ => None,
    }
}

fn entry_line(entry: &Entry) -> String {
    match entry {
        Entry::SectorErase { first } => format!("sector-erase\t{:06x}\n", first),
        Entry::ChipErase => String::from("chip-erase\t000000\n"),
        Entry::Program { first, data } => {
            let page: String = data.iter().map(|byte| format!("{:02x}", byte)).collect();
            format!("program\t{:06x}\t{}\n", first, page)
        }
    }
}
