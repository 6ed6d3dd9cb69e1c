//! The comparison of a driver with the model and with the hand-written cases.

use crate::driver::{Answer, Driver};
use crate::fixed::{self, Start};
use crate::generate::cut_pages::cut_pages;
use crate::generate::kinds::{self, Kind};
use crate::generate::prepared::prepared;
use crate::generate::random::Random;
use crate::generate::reorder::{reorder, Reordered};
use crate::generate::restamp::{restamp, Restamped};
use crate::generate::samples;
use crate::generate::spoilt;
use crate::generate::write_cycles::write_cycles;
use crate::model::call::{Call, BUFFERS, REPLIES, RESULT, TIMES};
use crate::model::kept::KEPT;
use crate::model::stamp::Orders;
use crate::model::text::{read, Trace};
use crate::model::times::ENTRY;
use crate::report::Report;
use std::collections::BTreeMap;
use std::io;

const BATCH: usize = 24;

pub struct Plan {
    pub command: String,
    pub cases: usize,
    pub seed: u64,
}

/// Generated groups: a name, how many cases for each thousand of the plan, and how to make one.
const GENERATED: [(&str, usize, Kind); 14] = [
    ("sessions", 140, kinds::session),
    ("tied sessions", 100, kinds::tied_session),
    ("tied stamps", 140, kinds::probe),
    ("ties in prepared states", 220, prepared),
    ("cut page writes", 40, cut_pages),
    ("write cycles of every kind", 80, write_cycles),
    ("stamps at the limits", 60, kinds::limit),
    ("damaged lines", 140, kinds::damaged),
    ("changed bytes", 70, kinds::mutated),
    ("board lines", 40, kinds::board_lines),
    ("words in any order", 40, kinds::words),
    ("random bytes", 20, kinds::random_bytes),
    ("wrong buffers", 30, kinds::spoiled_buffers),
    ("long traces", 10, kinds::long),
];

pub fn check(plan: &Plan) -> io::Result<bool> {
    let mut checker = Checker { driver: Driver::start(&plan.command)?, report: Report::default(), seed: plan.seed };
    checker.fixed_cases()?;
    checker.measured_traces()?;
    for (name, share, kind) in GENERATED {
        checker.generated(name, (plan.cases * share / 1000).max(8), kind)?;
    }
    checker.joint_orders((plan.cases / 50).max(8))?;
    let twelfth = (plan.cases / 12).max(8);
    checker.varied("lines in another allowed order", twelfth, [kinds::probe, kinds::tied_session], reordered)?;
    checker.varied("the same lines with other stamps", twelfth, [write_cycles, kinds::probe], restamped)?;
    checker.prefixes((plan.cases / 3000).max(2))?;
    checker.spoilt_texts()?;
    let mut ending = checker.report.group("the driver's own end");
    let status = checker.driver.stop()?;
    ending.judge(0, || if status.success() { None } else { Some(format!("the driver ended with {}", status)) }, &[]);
    checker.report.close(ending);
    Ok(checker.report.finish())
}

struct Checker {
    driver: Driver,
    report: Report,
    seed: u64,
}

type Outcome = (u32, Call);

fn small_stamps(random: &mut Random, number: usize) -> Call {
    match number % 2 {
        0 => kinds::small_stamps(random, number),
        _ => prepared(random, number / 2),
    }
}

fn by_model(call: &Call, orders: Orders) -> Outcome {
    let mut after = call.clone();
    let answer = after.run(orders);
    (answer, after)
}

impl Checker {
    /// Hand-written outcomes, asked of the driver and of the model.
    fn fixed_cases(&mut self) -> io::Result<()> {
        let mut group = self.report.group("written by hand");
        let mut of_model = self.report.group("written by hand, the model");
        for cases in fixed::all().chunks(BATCH) {
            let calls: Vec<Call> = cases.iter().map(|case| case.call.clone()).collect();
            let answers = self.driver.ask(&calls)?;
            for (case, answer) in cases.iter().zip(&answers) {
                let expected = (case.answer, case.after.clone());
                let named = |difference: Option<String>| difference.map(|found| format!("{}: {}", case.name, found));
                group.judge(case.answer, || named(difference(&expected, answer)), &[&case.call]);
                let model = Some(by_model(&case.call, Orders::EachBusWithLines));
                of_model.judge(case.answer, || named(difference(&expected, &model)), &[&case.call]);
            }
        }
        self.report.close(group);
        self.report.close(of_model);
        Ok(())
    }

    /// The traces on which the replay is measured, on buffers without dumps.
    fn measured_traces(&mut self) -> io::Result<()> {
        let calls = samples::ALL.iter().map(|sample| Start::Doubtful.call(sample.text()));
        self.compared("traces that are measured", calls, Orders::EachBusWithLines)
    }

    fn generated(&mut self, name: &str, count: usize, kind: Kind) -> io::Result<()> {
        let mut random = self.random_for(name);
        let calls = (0..count).map(|number| kind(&mut random, number));
        self.compared(name, calls, Orders::EachBusWithLines)
    }

    /// Small stamps in every order of all three channels at once.
    fn joint_orders(&mut self, count: usize) -> io::Result<()> {
        let name = "all three channels in every order";
        let mut random = self.random_for(name);
        let calls = (0..count).map(|number| small_stamps(&mut random, number));
        self.compared(name, calls, Orders::AllChannels)
    }

    /// Every prefix of some traces.
    fn prefixes(&mut self, count: usize) -> io::Result<()> {
        let name = "prefixes";
        let mut random = self.random_for(name);
        let whole: Vec<Call> = (0..count).map(|number| kinds::probe(&mut random, number)).collect();
        let calls = whole.iter().flat_map(prefixes_of);
        self.compared(name, calls, Orders::EachBusWithLines)
    }

    /// A trace with every kind of line, spoilt at each of its bytes in each way.
    fn spoilt_texts(&mut self) -> io::Result<()> {
        for (name, spoil) in spoilt::WAYS {
            let calls = spoilt::texts(spoil).map(|text| Start::Counting.call(text));
            self.compared(name, calls, Orders::EachBusWithLines)?;
        }
        Ok(())
    }

    fn random_for(&self, name: &str) -> Random {
        Random::named(self.seed, name)
    }

    fn compared(&mut self, name: &str, calls: impl Iterator<Item = Call>, orders: Orders) -> io::Result<()> {
        let mut group = self.report.group(name);
        let mut calls = calls.peekable();
        while calls.peek().is_some() {
            let batch: Vec<Call> = calls.by_ref().take(BATCH).collect();
            let (answers, expected) =
                self.driver.ask_beside(&batch, || batch.iter().map(|call| by_model(call, orders)).collect::<Vec<_>>())?;
            for ((call, expected), answer) in batch.iter().zip(&expected).zip(&answers) {
                group.judge(expected.0, || difference(expected, answer), &[call]);
            }
        }
        self.report.close(group);
        Ok(())
    }

    /// Other texts of the same history: the driver must say the same of each, as the variant reads it.
    fn varied(&mut self, name: &str, count: usize, kinds: [Kind; 2], vary: Vary) -> io::Result<()> {
        let mut group = self.report.group(name);
        let mut random = self.random_for(name);
        for number in 0..count {
            let call = kinds[number % 2](&mut random, number);
            let trace = match read(&call.text) {
                Ok(trace) => trace,
                Err(_) => continue,
            };
            let variants = [vary(&mut random, &call.text, &trace), vary(&mut random, &call.text, &trace)];
            let mut calls = vec![call.clone()];
            calls.extend(variants.iter().map(|variant| Call { text: variant.text.clone(), ..call.clone() }));
            let answers = self.driver.ask(&calls)?;
            for (place, variant) in variants.iter().enumerate() {
                let expected = answers[0].as_ref().map(|outcome| (variant.due)(outcome));
                let found = || match &expected {
                    Some(expected) => difference(expected, &answers[place + 1]),
                    None => Some(String::from("no answer to the first text")),
                };
                let answer = expected.as_ref().map_or(0, |outcome| outcome.0);
                group.judge(answer, found, &[&calls[0], &calls[place + 1]]);
            }
        }
        self.report.close(group);
        Ok(())
    }
}

/// Another text, and what the first one's outcome is in its terms.
struct Variant {
    text: Vec<u8>,
    due: Box<dyn Fn(&Outcome) -> Outcome>,
}

type Vary = fn(&mut Random, &[u8], &Trace) -> Variant;

/// Another allowed order of the lines: each reply is at its record's new place.
fn reordered(random: &mut Random, text: &[u8], trace: &Trace) -> Variant {
    let Reordered { text, origins } = reorder(random, text, trace);
    Variant { text, due: Box::new(move |outcome| moved(outcome, &origins)) }
}

/// Other stamps in the same order: a stop and the pages' times have the new ones.
fn restamped(random: &mut Random, text: &[u8], trace: &Trace) -> Variant {
    let Restamped { text, stamps } = restamp(random, text, trace);
    Variant { text, due: Box::new(move |outcome| dated(outcome, &stamps)) }
}

const LONGEST_PREFIX: usize = 700;

fn prefixes_of(call: &Call) -> impl Iterator<Item = Call> + '_ {
    let most = call.text.len().min(LONGEST_PREFIX);
    (0..=most).map(move |length| Call { text: call.text[..length].to_vec(), ..call.clone() })
}

/// An outcome as it must be for the same records in another order.
fn moved(outcome: &Outcome, origins: &[usize]) -> Outcome {
    let (answer, before) = outcome;
    let mut after = before.clone();
    for (place, &origin) in origins.iter().enumerate() {
        let reply = &before.replies[4 * origin..4 * origin + 4];
        after.replies[4 * place..4 * place + 4].copy_from_slice(reply);
    }
    (*answer, after)
}

/// An outcome as it must be for the same records with these new stamps.
fn dated(outcome: &Outcome, stamps: &BTreeMap<u32, u32>) -> Outcome {
    let (answer, mut after) = outcome.clone();
    let entries = after.times.chunks_exact_mut(ENTRY).filter(|entry| entry[0] != 0).map(|entry| &mut entry[1..]);
    let stop = if answer >= 6 { Some(&mut after.result[4..8]) } else { None };
    for four in entries.chain(stop) {
        // A stamp that the trace has not is left as it is, and will differ.
        if let Some(stamp) = stamps.get(&numbers(four)[0]) {
            four.copy_from_slice(&stamp.to_le_bytes());
        }
    }
    (answer, after)
}

const NAMES: [&str; BUFFERS] =
    ["text", "flash image", "flash mask", "EEPROM image", "EEPROM mask", "page times", "replies", "result"];

/// Which buffer is looked at first: what tells most.
const BY_WEIGHT: [usize; BUFFERS - 1] = [7, 6, 5, 1, 2, 3, 4];

/// The first thing in which an answer is not as expected.
fn difference(expected: &Outcome, answer: &Answer<Call>) -> Option<String> {
    let (number, after) = match answer {
        Some(outcome) => outcome,
        None => return Some(String::from("the driver ended without an answer")),
    };
    if *number != expected.0 {
        return Some(format!("answer {} where {} is due", number, expected.0));
    }
    for which in BY_WEIGHT {
        let due = expected.1.buffers()[which];
        let found = after.buffers()[which];
        if let Some(place) = (0..due.len()).find(|&place| due[place] != found[place]) {
            return Some(format!("{} differs{}", NAMES[which], told(which, place, due, found)));
        }
    }
    None
}

fn told(which: usize, place: usize, due: &[u8], found: &[u8]) -> String {
    match (which, due.len()) {
        (5, TIMES) => {
            let entry = place / ENTRY * ENTRY..place / ENTRY * ENTRY + ENTRY;
            format!(" in entry {}: {:?} where {:?} is due", place / ENTRY, &found[entry.clone()], &due[entry])
        }
        (6, REPLIES) => {
            let first = place / 4 * 4;
            format!(" at line {}: {:?} where {:?} is due", place / 4 + 2, &found[first..first + 4], &due[first..first + 4])
        }
        (7, RESULT) => format!(": {:?} where {:?} is due", numbers(found), numbers(due)),
        (1..=4, KEPT) => format!(" at {:04x}: {:02x} where {:02x} is due", place, found[place], due[place]),
        _ => format!(" at byte {}: {:02x} where {:02x} is due", place, found[place], due[place]),
    }
}

/// The numbers of a result.
pub fn numbers(result: &[u8]) -> Vec<u32> {
    result.chunks_exact(4).map(|four| u32::from_le_bytes([four[0], four[1], four[2], four[3]])).collect()
}
