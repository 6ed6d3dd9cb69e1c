//! Program `merge` as a whole: files in a folder, the merged trace on its standard output or the refusal on its standard error,
//! and nothing on the other.

use crate::fixed::captures as fixed;
use crate::generate::captures::{self, Capture, Kind};
use crate::generate::random::Random;
use crate::generate::walks::{bad_walk, walk};
use crate::listings::{file_here, run_on, unlike_text, whole_paths};
use crate::model::merge_listing::{merge_printed, MergeFiles, MergePrinted};
use crate::model::text::TEXT_MOST;
use crate::report::{Group, Report};
use std::io;

/// What the program owes for the files in the present folder.
pub fn here() -> io::Result<MergePrinted> {
    let files = MergeFiles { levels: file_here("levels.tsv")?, logger: file_here("logger.tsv")? };
    Ok(merge_printed(&files))
}

pub struct Plan {
    pub command: String,
    pub cases: usize,
    pub seed: u64,
}

const KINDS: [Kind; 10] = [
    session,
    walk,
    captures::tied_ends,
    bad_walk,
    captures::damaged_levels,
    captures::changed_levels,
    captures::changed_bytes,
    captures::damaged_trace,
    captures::strangers,
    captures::random_bytes,
];

fn session(random: &mut Random, _number: usize) -> Capture {
    captures::session(random).0.into()
}

pub fn check(plan: &Plan) -> io::Result<bool> {
    let program = Program { command: whole_paths(&plan.command) };
    let mut report = Report::default();
    let mut by_hand = report.group("captures written by hand, printed");
    for case in fixed::captures() {
        let call = case.merge().call;
        program.judge(&mut by_hand, &files_of(call.levels, call.trace));
    }
    report.close(by_hand);

    let mut texts = report.group("files written by hand");
    for (files, due) in files_by_hand() {
        program.judge_due(&mut texts, &files, &due);
    }
    report.close(texts);

    let mut generated = report.group("generated captures, printed");
    let mut random = Random::named(plan.seed, "generated captures, printed");
    for number in 0..plan.cases {
        let kind = if number % 50 == 49 { captures::long } else { KINDS[number % KINDS.len()] };
        let Capture { levels, trace } = kind(&mut random, number / KINDS.len());
        program.judge(&mut generated, &without_some(&mut random, files_of(levels, trace)));
    }
    report.close(generated);
    Ok(report.finish())
}

struct Program {
    command: Vec<String>,
}

impl Program {
    fn judge(&self, group: &mut Group, files: &MergeFiles) {
        self.judge_due(group, files, &merge_printed(files));
    }

    fn judge_due(&self, group: &mut Group, files: &MergeFiles, due: &MergePrinted) {
        group.judge(due.answer, || self.unlike(files, due), &[files]);
    }

    /// The first line, of either output, in which it is not as it must be.
    fn unlike(&self, files: &MergeFiles, due: &MergePrinted) -> Option<String> {
        let output = match run_on(&self.command, &files.named()) {
            Ok(output) => output,
            Err(error) => return Some(format!("the program did not run: {}", error)),
        };
        unlike_text("standard error", &output.stderr, &due.refusal)
            .or_else(|| unlike_text("standard output", &output.stdout, &due.trace))
    }
}

fn files_of(levels: Vec<u8>, trace: Vec<u8>) -> MergeFiles {
    MergeFiles { levels: Some(levels), logger: Some(trace) }
}

/// Now and then a file is absent.
fn without_some(random: &mut Random, files: MergeFiles) -> MergeFiles {
    match random.below(60) {
        0 => MergeFiles { levels: None, ..files },
        1 => MergeFiles { logger: None, ..files },
        _ => files,
    }
}

const REST: &[u8] = b"5\t1\t0\t0\t1\t1\t1\t1\n";
const BOARD: &[u8] = b"board\t8c\t4\t7\n";

/// Files that are absent, empty, at the limit and beyond it, and which of two bad ones is told.
fn files_by_hand() -> Vec<(MergeFiles, MergePrinted)> {
    let file = |bytes: &[u8]| Some(bytes.to_vec());
    let long = |bytes: &[u8], length: usize| Some([bytes, &vec![b'\n'; length - bytes.len()]].concat());
    let printed = |text: &[u8]| MergePrinted { trace: text.to_vec(), refusal: Vec::new(), answer: 0 };
    let refused = |number: u32, line: &str| MergePrinted {
        trace: Vec::new(),
        refusal: format!("refused\t{}\t{}\n", number, line).into_bytes(),
        answer: number,
    };
    vec![
        (MergeFiles { levels: file(REST), logger: file(BOARD) }, printed(BOARD)),
        (MergeFiles { levels: None, logger: file(BOARD) }, refused(12, "1\t0")),
        (MergeFiles { levels: file(b""), logger: file(BOARD) }, refused(12, "1\t0")),
        (MergeFiles { levels: file(REST), logger: None }, refused(3, "1\t1")),
        (MergeFiles { levels: file(REST), logger: file(b"") }, refused(3, "1\t1")),
        (MergeFiles { levels: None, logger: None }, refused(3, "1\t1")),
        (MergeFiles { levels: file(BOARD), logger: file(REST) }, refused(3, "1\t1")),
        (MergeFiles { levels: file(BOARD), logger: file(BOARD) }, refused(12, "1\t0")),
        (MergeFiles { levels: long(REST, TEXT_MOST), logger: file(BOARD) }, refused(12, "2\t0")),
        (MergeFiles { levels: long(REST, TEXT_MOST + 1), logger: file(BOARD) }, refused(2, "0\t0")),
        (MergeFiles { levels: long(REST, 1_000_000), logger: file(BOARD) }, refused(2, "0\t0")),
        (MergeFiles { levels: file(REST), logger: long(BOARD, TEXT_MOST) }, refused(3, "2\t1")),
        (MergeFiles { levels: file(REST), logger: long(BOARD, TEXT_MOST + 1) }, refused(2, "0\t0")),
        (MergeFiles { levels: file(REST), logger: long(BOARD, 1_000_000) }, refused(2, "0\t0")),
        (MergeFiles { levels: long(REST, TEXT_MOST + 1), logger: long(BOARD, TEXT_MOST) }, refused(3, "2\t1")),
        (MergeFiles { levels: None, logger: long(BOARD, TEXT_MOST + 1) }, refused(2, "0\t0")),
    ]
}
