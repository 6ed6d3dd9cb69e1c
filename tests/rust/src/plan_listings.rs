//! Program `plan` as a whole: files in a folder, its listing on the standard output.

use crate::fixed::plans as fixed;
use crate::generate::plans::{self, Kind};
use crate::generate::random::Random;
use crate::listings::{file_here, unlike, whole_paths};
use crate::model::plan::{PlanCall, CHIP, PLAN_RESULT};
use crate::model::plan_listing::{plan_listing, PlanFiles};
use crate::report::{Group, Report};
use std::io;

/// The listing that the program owes for the files in the present folder.
pub fn here() -> io::Result<String> {
    let files =
        PlanFiles { present: file_here("present.bin")?, wanted: file_here("wanted.bin")?, status: file_here("status.txt")? };
    Ok(plan_listing(&files))
}

pub struct Plan {
    pub command: String,
    pub cases: usize,
    pub seed: u64,
}

const KINDS: [Kind; 5] = [plans::changed_bytes, plans::changed_pages, plans::ties, plans::whole, plans::at_locks];

pub fn check(plan: &Plan) -> io::Result<bool> {
    let program = Program { command: whole_paths(&plan.command) };
    let mut report = Report::default();
    let mut by_hand = report.group("listings of plans written by hand");
    // Lengths of list and result are no concern of the program.
    for case in fixed::all().into_iter().filter(|case| case.call.result.len() == PLAN_RESULT && !case.has_own_list) {
        program.judge(&mut by_hand, &files_of(&case.call));
    }
    report.close(by_hand);

    let mut texts = report.group("files written by hand");
    for (files, due) in files_by_hand() {
        program.judge_due(&mut texts, &files, due);
    }
    report.close(texts);

    let mut generated = report.group("listings of generated plans");
    let mut random = Random::named(plan.seed, "listings of generated plans");
    for number in 0..plan.cases {
        let call = KINDS[number % KINDS.len()](&mut random, number);
        program.judge(&mut generated, &spoilt(&mut random, files_of(&call)));
    }
    report.close(generated);
    Ok(report.finish())
}

struct Program {
    command: Vec<String>,
}

impl Program {
    fn judge(&self, group: &mut Group, files: &PlanFiles) {
        self.judge_due(group, files, &plan_listing(files));
    }

    fn judge_due(&self, group: &mut Group, files: &PlanFiles, due: &str) {
        let found =
            || unlike(&self.command, &files.named(), due).map(|found| format!("status {:?}: {}", shown(&files.status), found));
        group.judge(answer_told(due), found, &[files]);
    }
}

fn shown(status: &Option<Vec<u8>>) -> Option<String> {
    status.as_ref().map(|text| String::from_utf8_lossy(text).chars().take(20).collect())
}

fn answer_told(due: &str) -> u32 {
    due.strip_prefix("refused\t").map_or(0, |number| number.trim_end().parse().unwrap_or(0))
}

fn files_of(call: &PlanCall) -> PlanFiles {
    let status = format!("{:02x}\n", call.status).into_bytes();
    PlanFiles { present: Some(call.present.clone()), wanted: Some(call.wanted.clone()), status: Some(status) }
}

/// Now and then a file is absent, longer or shorter.
fn spoilt(random: &mut Random, mut files: PlanFiles) -> PlanFiles {
    let file = match random.below(30) {
        0 => &mut files.present,
        1 => &mut files.wanted,
        2 => &mut files.status,
        _ => return files,
    };
    match (random.below(3), &mut *file) {
        (0, Some(bytes)) => bytes.push(random.pick(&[b'\n', 0xff])),
        (1, Some(bytes)) => bytes.truncate(bytes.len() - 1),
        _ => *file = None,
    }
    files
}

const REFUSED: &str = "refused\t14\n";

/// Texts that tell no status, beside contents for which there is a plan.
const NO_STATUS: [&[u8]; 30] = [
    b"",
    b"\n",
    b"0\n",
    b"00",
    b"000\n",
    b"00\n\n",
    b"00\n00\n",
    b"00\r\n",
    b"00\r",
    b"00\t\n",
    b" 00\n",
    b"00 \n",
    b"0 \n",
    b"0x00\n",
    b"0x\n",
    b"g0\n",
    b"0g\n",
    b"0C\n",
    b"8C\n",
    b"8C",
    b"01\n",
    b"02\n",
    b"10\n",
    b"40\n",
    b"7f\n",
    b"ff\n",
    b"00\x00",
    b"\x000\n",
    b"\xff\xfe\n",
    b"board\t00\t1\t0\n",
];

fn files_by_hand() -> Vec<(PlanFiles, &'static str)> {
    let erased = || Some(vec![0xff; CHIP]);
    let status = |text: &[u8]| {
        let mut wanted = vec![0xff; CHIP];
        wanted[0] = 0xfe;
        PlanFiles { present: erased(), wanted: Some(wanted), status: Some(text.to_vec()) }
    };
    let good = || PlanFiles { present: erased(), wanted: erased(), status: Some(b"00\n".to_vec()) };
    let long = [vec![b'0'; 70_000], vec![b'\n']].concat();
    let mut cases: Vec<(PlanFiles, &str)> = NO_STATUS.iter().map(|text| (status(text), REFUSED)).collect();
    cases.extend([
        (status(&long), REFUSED),
        (status(b"0c\n"), "refused\t15\n"),
        (status(b"8c\n"), "refused\t15\n"),
        (good(), "cycles\t0\n"),
        (PlanFiles { present: Some(vec![0x00; CHIP]), ..good() }, "chip-erase\t000000\ncycles\t1\n"),
        (PlanFiles { status: None, ..good() }, REFUSED),
        (PlanFiles { present: None, ..good() }, REFUSED),
        (PlanFiles { wanted: None, ..good() }, REFUSED),
        (PlanFiles { present: None, wanted: None, ..good() }, REFUSED),
        (PlanFiles { present: None, wanted: None, status: None }, REFUSED),
    ]);
    for length in [0, 1, 32_768, CHIP - 1, CHIP + 1, 2 * CHIP, 1_000_000] {
        let wrong = || Some(vec![0xff; length]);
        cases.push((PlanFiles { present: wrong(), ..good() }, REFUSED));
        cases.push((PlanFiles { wanted: wrong(), ..good() }, REFUSED));
        cases.push((PlanFiles { present: wrong(), wanted: wrong(), ..good() }, REFUSED));
    }
    cases
}
