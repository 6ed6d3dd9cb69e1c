//! The comparison of a driver's merges and of its second engine with the model and with the hand-written cases, and of both with
//! the driver's own replay of what was merged (request 4/12).

use crate::check::numbers;
use crate::driver::{Answer, Driver};
use crate::fixed::captures::{self as fixed, FixedCall};
use crate::generate::capture_samples::ALL;
use crate::generate::captures::{self, calls, Calls, Capture, Kind};
use crate::generate::drawn::Drawn;
use crate::generate::dumps::{dumps, Dumps};
use crate::generate::random::Random;
use crate::generate::spoilt;
use crate::generate::walks::{bad_walk, walk};
use crate::model::call::{Call, REPLIES, RESULT, TIMES};
use crate::model::capture_calls::{MergeCall, PlayCall};
use crate::model::kept::Kept;
use crate::model::text::{read, TEXT_MOST};
use crate::protocol::Asked;
use crate::report::{Group, Report, Saved};
use std::io;
use std::slice;

const BATCH: usize = 24;

pub struct Plan {
    /// Answers replays; with the word `merge` behind it merges, with `levels` it is the second engine.
    pub command: String,
    pub cases: usize,
    pub seed: u64,
}

/// Generated groups: a name, how many captures for each hundred of the plan, and how to make one.
const GENERATED: [(&str, usize, Kind); 11] = [
    ("wires that move at random", 25, walk),
    ("ends and lines at one stamp", 4, captures::tied_ends),
    ("played on with the status lost", 4, captures::lost_status),
    ("each ground for 12 and 13", 16, bad_walk),
    ("damaged level texts", 13, captures::damaged_levels),
    ("changed levels", 10, captures::changed_levels),
    ("changed bytes of both texts", 6, captures::changed_bytes),
    ("damaged traces of the logger", 11, captures::damaged_trace),
    ("another logger's trace", 4, captures::strangers),
    ("bytes for a level text", 3, captures::random_bytes),
    ("long captures", 1, captures::long),
];

/// Of a hundred, drawn from a session.
const SESSIONS: usize = 10;

pub fn check(plan: &Plan) -> io::Result<bool> {
    let mut checker = Checker {
        merger: Driver::start(&format!("{} merge", plan.command))?,
        player: Driver::start(&format!("{} levels", plan.command))?,
        replayer: Driver::start(&plan.command)?,
        report: Report::default(),
        seed: plan.seed,
        settled: 0,
    };
    checker.written_by_hand()?;
    checker.measured_captures()?;
    checker.sessions((plan.cases * SESSIONS / 100).max(24))?;
    for (name, share, kind) in GENERATED {
        checker.generated(name, (plan.cases * share / 100).max(16), kind)?;
    }
    checker.wrong_buffers((plan.cases / 50).max(16))?;
    checker.spoilt_texts()?;
    checker.finish()
}

struct Checker {
    merger: Driver,
    player: Driver,
    replayer: Driver,
    report: Report,
    seed: u64,
    /// How many merged texts the driver's replay has settled.
    settled: usize,
}

trait Modelled: Asked + Saved {
    fn run_by_model(&mut self) -> u32;
    /// What is compared, by name, what tells most first.
    fn named(&self) -> Vec<(&'static str, &[u8])>;
}

impl Modelled for MergeCall {
    fn run_by_model(&mut self) -> u32 {
        self.run()
    }

    fn named(&self) -> Vec<(&'static str, &[u8])> {
        vec![("result", &self.result), ("output", &self.output)]
    }
}

impl Modelled for PlayCall {
    fn run_by_model(&mut self) -> u32 {
        self.run()
    }

    fn named(&self) -> Vec<(&'static str, &[u8])> {
        let PlayCall { flash, flash_mask, eeprom, eeprom_mask, result, .. } = self;
        vec![
            ("result", result),
            ("flash image", flash),
            ("flash mask", flash_mask),
            ("EEPROM image", eeprom),
            ("EEPROM mask", eeprom_mask),
        ]
    }
}

fn by_model<C: Modelled>(call: &C) -> (u32, C) {
    let mut after = call.clone();
    let answer = after.run_by_model();
    (answer, after)
}

/// Hand-written outcomes, asked of the driver and of the model.
fn ask_by_hand<C: Modelled>(report: &mut Report, driver: &mut Driver, name: &str, cases: Vec<FixedCall<C>>) -> io::Result<()> {
    let mut group = report.group(name);
    let mut of_model = report.group(&format!("{}, the model", name));
    for cases in cases.chunks(BATCH) {
        let asked: Vec<C> = cases.iter().map(|case| case.call.clone()).collect();
        let answers = driver.ask(&asked)?;
        for (case, answer) in cases.iter().zip(&answers) {
            let expected = (case.answer, case.after.clone());
            let named = |difference: Option<String>| difference.map(|found| format!("{}: {}", case.name, found));
            group.judge(case.answer, || named(difference(&expected, answer)), &[&case.call]);
            let model = Some(by_model(&case.call));
            of_model.judge(case.answer, || named(difference(&expected, &model)), &[&case.call]);
        }
    }
    report.close(group);
    report.close(of_model);
    Ok(())
}

/// The driver's answers to calls, each judged beside the model's.
fn ask_beside_model<C: Modelled>(group: &mut Group, driver: &mut Driver, asked: &[C]) -> io::Result<Vec<Answer<C>>> {
    let (answers, expected) = driver.ask_beside(asked, || asked.iter().map(by_model).collect::<Vec<_>>())?;
    for ((call, expected), answer) in asked.iter().zip(&expected).zip(&answers) {
        group.judge(expected.0, || difference(expected, answer), &[call]);
    }
    Ok(answers)
}

impl Checker {
    fn written_by_hand(&mut self) -> io::Result<()> {
        ask_by_hand(&mut self.report, &mut self.merger, "merges by hand", fixed::merges())?;
        ask_by_hand(&mut self.report, &mut self.player, "levels played by hand", fixed::plays())?;
        let captures = fixed::captures().into_iter().map(|case| Calls { merge: case.merge().call, play: case.play().call });
        self.compared("captures by hand, replayed", captures)
    }

    /// The captures on which both calls are measured, on images without dumps.
    fn measured_captures(&mut self) -> io::Result<()> {
        let mut random = Random::named(self.seed, "measured");
        let doubtful = || Dumps { flash: Kept::doubtful(), eeprom: Kept::doubtful() };
        let measured = ALL.iter().map(|sample| calls(&mut random, 7, sample.capture(), doubtful()));
        self.compared("captures that are measured", measured)
    }

    fn generated(&mut self, name: &str, count: usize, kind: Kind) -> io::Result<()> {
        let mut random = Random::named(self.seed, name);
        let made = (0..count).map(|number| {
            let capture = kind(&mut random, number);
            let dumps = dumps(&mut random);
            calls(&mut random, number, capture, dumps)
        });
        self.compared(name, made)
    }

    /// Captures drawn from records, by the driver alone: what is merged has these records.
    fn sessions(&mut self, count: usize) -> io::Result<()> {
        let name = "captures of sessions";
        let mut group = self.report.group("records drawn and given back");
        let mut random = Random::named(self.seed, name);
        let mut made = Vec::new();
        for number in 0..count {
            let (drawn, dumps) = captures::session(&mut random);
            let capture = Capture { levels: drawn.levels.clone(), trace: drawn.trace.clone() };
            made.push(calls(&mut random, number, capture, dumps));
            let wide = MergeCall { output: vec![0x00; 2 * TEXT_MOST], ..made[number].merge.clone() };
            let answers = self.merger.ask(slice::from_ref(&wide))?;
            let due = if drawn.levels.len() > TEXT_MOST { 2 } else { 0 };
            group.judge(due, || not_given_back(&drawn, due, &answers[0]), &[&wide]);
        }
        self.report.close(group);
        self.compared(name, made.into_iter())
    }

    fn wrong_buffers(&mut self, count: usize) -> io::Result<()> {
        let name = "wrong buffers";
        let mut random = Random::named(self.seed, name);
        let made: Vec<Calls> = (0..count).map(|number| captures::wrong_buffers(&mut random, number)).collect();
        self.compared(name, made.into_iter())
    }

    /// A short capture, spoilt at each byte of its level text in each way.
    fn spoilt_texts(&mut self) -> io::Result<()> {
        let dumps = Dumps { flash: Kept::doubtful(), eeprom: Kept::doubtful() };
        for (name, spoil) in spoilt::WAYS {
            let mut random = Random::named(self.seed, name);
            let texts = spoilt::texts_of(spoilt::CAPTURE, spoil);
            let made =
                texts.map(|levels| calls(&mut random, 7, Capture { levels, trace: spoilt::LOGGER.to_vec() }, dumps.clone()));
            self.compared(&format!("levels: {}", name), made)?;
        }
        Ok(())
    }

    /// Both calls on each capture, and the replay of what was merged.
    fn compared(&mut self, name: &str, made: impl Iterator<Item = Calls>) -> io::Result<()> {
        let mut group = self.report.group(name);
        let mut made = made.peekable();
        while made.peek().is_some() {
            let batch: Vec<Calls> = made.by_ref().take(BATCH).collect();
            let merges: Vec<MergeCall> = batch.iter().map(|both| both.merge.clone()).collect();
            let plays: Vec<PlayCall> = batch.into_iter().map(|both| both.play).collect();
            let merged = ask_beside_model(&mut group, &mut self.merger, &merges)?;
            let played = ask_beside_model(&mut group, &mut self.player, &plays)?;
            self.agree(&mut group, &merged, &plays, &played)?;
        }
        self.report.close(group);
        Ok(())
    }

    /// A merged text is never refused with 3, 4 or 5, and where its replay on the same images is settled, it leaves what the
    /// second engine does.
    fn agree(
        &mut self,
        group: &mut Group,
        merged: &[Answer<MergeCall>],
        plays: &[PlayCall],
        played: &[Answer<PlayCall>],
    ) -> io::Result<()> {
        for ((merged, play), played) in merged.iter().zip(plays).zip(played) {
            let (merged, played) = match (merged, played) {
                (Some((0, merged)), Some((0, played))) => (merged, played),
                _ => continue,
            };
            let length = numbers(&merged.result)[2] as usize;
            let text = merged.output.get(..length).unwrap_or(&[]).to_vec();
            let replay = replay_call(text, play);
            let answers = self.replayer.ask(slice::from_ref(&replay))?;
            self.settled += usize::from(matches!(answers[0], Some((0, _))));
            let answer = answers[0].as_ref().map_or(0, |answer| answer.0);
            let long = replay.text.len() > TEXT_MOST;
            group.judge(answer, || unlike_replay(&answers[0], long, played), &[play, &replay]);
        }
        Ok(())
    }

    fn finish(mut self) -> io::Result<bool> {
        // A comparison with no replay that is settled would tell nothing.
        let mut enough = self.report.group("settled replays of merged texts");
        let settled = self.settled;
        enough.judge(0, || (settled < LEAST_SETTLED).then(|| format!("{}, where {} are due", settled, LEAST_SETTLED)), &[]);
        self.report.close(enough);
        let mut ending = self.report.group("the drivers' own end");
        for driver in [self.merger, self.player, self.replayer] {
            let status = driver.stop()?;
            ending.judge(0, || if status.success() { None } else { Some(format!("the driver ended with {}", status)) }, &[]);
        }
        self.report.close(ending);
        Ok(self.report.finish())
    }
}

const LEAST_SETTLED: usize = 300;

fn not_given_back(drawn: &Drawn, due: u32, answer: &Answer<MergeCall>) -> Option<String> {
    let (number, after) = match answer {
        Some(outcome) => outcome,
        None => return Some(String::from("the driver ended without an answer")),
    };
    if *number != due {
        return Some(format!("answer {} where {} is due", number, due));
    }
    if due != 0 {
        return None;
    }
    let length = numbers(&after.result)[2] as usize;
    match after.output.get(..length).map(read) {
        Some(Ok(trace)) => drawn.unlike(&trace),
        // Longer than a trace may be: the comparison with the model has it.
        Some(Err(refusal)) if refusal.number == 2 => None,
        _ => Some(String::from("what was merged cannot be read")),
    }
}

/// The merged text on the images that the second engine had.
fn replay_call(text: Vec<u8>, play: &PlayCall) -> Call {
    Call {
        text,
        flash: play.flash.clone(),
        flash_mask: play.flash_mask.clone(),
        eeprom: play.eeprom.clone(),
        eeprom_mask: play.eeprom_mask.clone(),
        times: vec![0; TIMES],
        replies: vec![0; REPLIES],
        result: vec![0; RESULT],
    }
}

fn unlike_replay(replayed: &Answer<Call>, long: bool, played: &PlayCall) -> Option<String> {
    let (answer, after) = match replayed {
        Some(outcome) => outcome,
        None => return Some(String::from("the driver ended without an answer to the merged text")),
    };
    let pairs = [
        ("flash image", &after.flash, &played.flash),
        ("flash mask", &after.flash_mask, &played.flash_mask),
        ("EEPROM image", &after.eeprom, &played.eeprom),
        ("EEPROM mask", &after.eeprom_mask, &played.eeprom_mask),
    ];
    match (answer, long) {
        (0, false) => pairs.iter().find_map(|(name, replayed, played)| unlike(name, replayed, played)),
        // Longer than the replay takes.
        (2, true) | (6..=8, false) => None,
        _ => Some(format!("the merged text's replay answers {}", answer)),
    }
}

/// The first byte in which two buffers differ.
fn unlike(name: &str, due: &[u8], found: &[u8]) -> Option<String> {
    if due.len() != found.len() {
        return Some(format!("{} of {} bytes where {} are due", name, found.len(), due.len()));
    }
    let place = (0..due.len()).find(|&place| due[place] != found[place])?;
    Some(format!("{} differs at byte {}: {:02x} where {:02x} is due", name, place, found[place], due[place]))
}

/// The first thing in which an answer is not as expected.
fn difference<C: Modelled>(expected: &(u32, C), answer: &Answer<C>) -> Option<String> {
    let (number, after) = match answer {
        Some(outcome) => outcome,
        None => return Some(String::from("the driver ended without an answer")),
    };
    if *number != expected.0 {
        return Some(format!("answer {} where {} is due", number, expected.0));
    }
    if after.named()[0] != expected.1.named()[0] {
        return Some(format!("result {:?} where {:?} is due", numbers(after.named()[0].1), numbers(expected.1.named()[0].1)));
    }
    expected.1.named().iter().zip(after.named()).find_map(|((name, due), (_, found))| unlike(name, due, found))
}
