//! The comparison of what a driver leaves with histories: sampled ones of generated traces; of small traces every one that
//! differs in the bits in focus.

use super::history::Shown;
use super::met::{self, Met};
use super::seen::Seen;
use super::tried::{every, sampled};
use crate::driver::{Answer, Driver};
use crate::fixed::{self, Start};
use crate::generate::cut_pages::cut_pages;
use crate::generate::kinds::{self, Kind};
use crate::generate::prepared::prepared;
use crate::generate::random::Random;
use crate::generate::samples;
use crate::generate::small_doubts::{small_doubts, SCENE_COUNT};
use crate::generate::write_cycles::write_cycles;
use crate::model::call::Call;
use crate::report::{Group, Report};
use std::collections::BTreeMap;
use std::io;

const BATCH: usize = 24;

pub struct Plan {
    pub command: String,
    pub cases: usize,
    pub seed: u64,
}

/// Generated groups: a name, how many cases for each thousand of the plan, and how to make one.
const GENERATED: [(&str, usize, Kind); 9] = [
    ("sessions", 150, kinds::session),
    ("tied sessions", 120, kinds::tied_session),
    ("tied stamps", 120, kinds::probe),
    ("small tied stamps", 60, kinds::small_stamps),
    ("ties in prepared states", 120, prepared),
    ("cut page writes", 140, cut_pages),
    ("write cycles of every kind", 250, write_cycles),
    ("stamps at the limits", 30, kinds::limit),
    ("long traces", 10, kinds::long),
];

/// How often a scene is made again, where a trace has more.
const TRIES: usize = 100;

/// So many times at least each small scene is played: each case of the request is then met.
const LEAST_ROUNDS: usize = 4;

pub fn check(plan: &Plan) -> io::Result<bool> {
    let driver = Driver::start(&plan.command)?;
    let mut checker = Checker { driver, report: Report::default(), seed: plan.seed, found: Found::default() };
    checker.written_by_hand();
    let measured = samples::ALL.iter().map(|sample| Start::Doubtful.call(sample.text()));
    checker.sampled("traces that are measured", measured)?;
    for (name, share, kind) in GENERATED {
        let mut random = Random::named(plan.seed, name);
        let count = (plan.cases * share / 1000).max(8);
        checker.sampled(name, (0..count).map(|number| kind(&mut random, number)))?;
    }
    checker.tell("sampled histories");
    let rounds = (plan.cases / 5 / SCENE_COUNT).max(LEAST_ROUNDS);
    checker.small_traces(rounds * SCENE_COUNT)?;
    checker.tell("all histories");
    checker.finish()
}

struct Checker {
    driver: Driver,
    report: Report,
    seed: u64,
    found: Found,
}

/// How much was compared.
#[derive(Default)]
struct Found {
    traces: usize,
    histories: usize,
    marked: usize,
    marked_in_replies: usize,
    met: BTreeMap<&'static str, usize>,
}

impl Found {
    fn add(&mut self, seen: &Seen, met: Met) {
        let (marked, marked_in_replies) = seen.marked();
        self.traces += 1;
        self.histories += seen.histories;
        self.marked += marked;
        self.marked_in_replies += marked_in_replies;
        met.into_iter().for_each(|case| *self.met.entry(case).or_insert(0) += 1);
    }
}

impl Checker {
    /// Histories beside every outcome that is written by hand.
    fn written_by_hand(&mut self) {
        let mut group = self.report.group("written by hand, the histories");
        let mut random = Random::named(self.seed, "by hand");
        for case in fixed::all() {
            if let Some(shown) = Shown::of(&case.call, case.answer, &case.after.result) {
                let difference = sampled(&shown, &mut random).difference(&case.after);
                group.judge(case.answer, || difference.map(|found| format!("{}: {}", case.name, found)), &[&case.call]);
            }
        }
        self.report.close(group);
    }

    /// What the driver leaves, beside the extremes and some random histories. Half of the traces at least must be played: a
    /// comparison of none would tell nothing.
    fn sampled(&mut self, name: &str, calls: impl Iterator<Item = Call>) -> io::Result<()> {
        let mut group = self.report.group(name);
        let mut random = Random::named(self.seed, &format!("histories of {}", name));
        let (mut asked, before) = (0, self.found.traces);
        let mut calls = calls.peekable();
        while calls.peek().is_some() {
            let batch: Vec<Call> = calls.by_ref().take(BATCH).collect();
            let answers = self.driver.ask(&batch)?;
            for (call, answer) in batch.iter().zip(&answers) {
                asked += 1;
                match compared(call, answer, |shown| Some(sampled(shown, &mut random))) {
                    Compared::Refused(_) => (),
                    other => self.judge(&mut group, call, other),
                }
            }
        }
        let played = self.found.traces - before;
        group.judge(0, || (played * 2 < asked).then(|| format!("{} played of {}", played, asked)), &[]);
        self.report.close(group);
        Ok(())
    }

    /// What the driver leaves of small traces, beside every history.
    fn small_traces(&mut self, count: usize) -> io::Result<()> {
        let mut group = self.report.group("small traces, every history");
        let mut random = Random::named(self.seed, "small traces");
        for number in 0..count {
            self.small_trace(&mut group, &mut random, number)?;
        }
        self.report.close(group);
        let mut cases = self.report.group("cases that small traces meet");
        for case in met::ALL {
            let times = self.found.met.get(case).copied().unwrap_or(0);
            println!("    {:<48}{:>6}", case, times);
            cases.judge(0, || (times == 0).then(|| format!("no small trace has {}", case)), &[]);
        }
        self.report.close(cases);
        Ok(())
    }

    /// A scene, made again till it has few enough histories.
    fn small_trace(&mut self, group: &mut Group, random: &mut Random, number: usize) -> io::Result<()> {
        for _ in 0..TRIES {
            let (call, focus) = small_doubts(random, number);
            let answers = self.driver.ask(&[call.clone()])?;
            match compared(&call, &answers[0], |shown| every(shown, focus)) {
                Compared::TooMany => (),
                other => {
                    self.judge(group, &call, other);
                    return Ok(());
                }
            }
        }
        group.judge(0, || Some(format!("scene {} has too many histories", number % SCENE_COUNT)), &[]);
        Ok(())
    }

    fn judge(&mut self, group: &mut Group, call: &Call, compared: Compared) {
        match compared {
            Compared::Ended => group.judge(0, || Some(String::from("the driver ended without an answer")), &[call]),
            Compared::Refused(answer) => group.judge(answer, || Some(format!("answer {} to a good trace", answer)), &[call]),
            Compared::TooMany => group.judge(0, || Some(String::from("too many histories")), &[call]),
            Compared::Beside { answer, seen, met, difference } => {
                self.found.add(&seen, met);
                group.judge(answer, || difference, &[call]);
            }
        }
    }

    /// Says how much was compared since it was last said.
    fn tell(&mut self, what: &str) {
        let Found { traces, histories, marked, marked_in_replies, .. } = std::mem::take(&mut self.found);
        println!(
            "{}: {} of {} traces, {} marked bits in images, {} in replies",
            what, histories, traces, marked, marked_in_replies
        );
    }

    fn finish(mut self) -> io::Result<bool> {
        let mut ending = self.report.group("the driver's own end");
        let status = self.driver.stop()?;
        ending.judge(0, || if status.success() { None } else { Some(format!("the driver ended with {}", status)) }, &[]);
        self.report.close(ending);
        Ok(self.report.finish())
    }
}

/// An answer beside histories of the records that it shows.
enum Compared {
    Ended,
    Refused(u32),
    TooMany,
    Beside { answer: u32, seen: Box<Seen>, met: Met, difference: Option<String> },
}

fn compared(call: &Call, answer: &Answer<Call>, histories: impl FnOnce(&Shown) -> Option<Seen>) -> Compared {
    let (answer, after) = match answer {
        Some((answer, after)) => (*answer, after),
        None => return Compared::Ended,
    };
    let shown = match Shown::of(call, answer, &after.result) {
        Some(shown) => shown,
        None => return Compared::Refused(answer),
    };
    match histories(&shown) {
        Some(seen) => {
            let difference = seen.difference(after);
            Compared::Beside { answer, seen: Box::new(seen), met: met::met(&shown, answer), difference }
        }
        None => Compared::TooMany,
    }
}
