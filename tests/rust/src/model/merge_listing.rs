//! What program `merge` prints: the merged trace, or on the standard error the refusal (request 4/12).

use super::merge::{merged, text_of};

/// The two files that the program reads, each None where it is absent.
pub struct MergeFiles {
    pub levels: Option<Vec<u8>>,
    pub logger: Option<Vec<u8>>,
}

impl MergeFiles {
    pub fn named(&self) -> Vec<(&'static str, &Option<Vec<u8>>)> {
        vec![("levels.tsv", &self.levels), ("logger.tsv", &self.logger)]
    }
}

/// What goes to the standard output and to the standard error, and the answer.
pub struct MergePrinted {
    pub trace: Vec<u8>,
    pub refusal: Vec<u8>,
    pub answer: u32,
}

/// A file that is absent has no bytes. The program has room for any merged trace.
pub fn merge_printed(files: &MergeFiles) -> MergePrinted {
    let bytes = |file: &Option<Vec<u8>>| file.clone().unwrap_or_default();
    match merged(&bytes(&files.levels), &bytes(&files.logger)) {
        Ok(trace) => MergePrinted { trace: text_of(trace.board, &trace.records), refusal: Vec::new(), answer: 0 },
        Err(refusal) => {
            let line = format!("refused\t{}\t{}\t{}\n", refusal.number, refusal.line, refusal.field);
            MergePrinted { trace: Vec::new(), refusal: line.into_bytes(), answer: refusal.number }
        }
    }
}
