//! The comparison of a driver's plans with the model and with the hand-written cases, and their replay.

use crate::check::numbers;
use crate::driver::{Answer, Driver};
use crate::fixed::plans::{self as fixed, FixedPlan};
use crate::generate::plan_traces::{entries_of, texts};
use crate::generate::plans::{self, Kind};
use crate::generate::random::Random;
use crate::model::call::{Call, REPLIES, RESULT, TIMES};
use crate::model::kept::KEPT;
use crate::model::plan::{PlanCall, FLASH};
use crate::model::record::BoardLine;
use crate::model::stamp::Orders;
use crate::report::{Group, Report};
use std::io;

const BATCH: usize = 12;

pub struct Plan {
    /// Answers replays; with the word `plan` behind it, plans.
    pub command: String,
    pub cases: usize,
    pub seed: u64,
}

/// Generated groups: a name, how many cases for each hundred of the plan, and how to make one.
const GENERATED: [(&str, usize, Kind); 6] = [
    ("changed bytes", 25, plans::changed_bytes),
    ("changed pages", 20, plans::changed_pages),
    ("ties and nearly", 25, plans::ties),
    ("whole contents", 10, plans::whole),
    ("at the locks", 10, plans::at_locks),
    ("to be refused", 10, plans::spoilt),
];

pub fn check(plan: &Plan) -> io::Result<bool> {
    let planner = Driver::start(&format!("{} plan", plan.command))?;
    let mut checker = Checker { planner, replayer: Driver::start(&plan.command)?, report: Report::default(), seed: plan.seed };
    checker.written_by_hand("plans by hand", fixed::all().into_iter())?;
    checker.written_by_hand("every status", fixed::every_status())?;
    for (name, share, kind) in GENERATED {
        checker.generated(name, (plan.cases * share / 100).max(8), kind)?;
    }
    let by_hand = fixed::all().into_iter().filter(|case| !case.has_own_list).map(|case| case.call);
    checker.replayed("plans by hand, replayed", by_hand, 70)?;
    let mut random = Random::named(plan.seed, "replayed");
    let few = (plan.cases / 25).max(8);
    checker.replayed("few entries, replayed", (0..few).map(|number| plans::few_entries(&mut random, number)), few / 2)?;
    checker.longest_replayed()?;
    checker.finish()
}

struct Checker {
    planner: Driver,
    replayer: Driver,
    report: Report,
    seed: u64,
}

type Outcome = (u32, PlanCall);

fn by_model(call: &PlanCall) -> Outcome {
    let mut after = call.clone();
    let answer = after.run();
    (answer, after)
}

impl Checker {
    /// Hand-written outcomes, asked of the driver and of the model.
    fn written_by_hand(&mut self, name: &str, mut cases: impl Iterator<Item = FixedPlan>) -> io::Result<()> {
        let mut group = self.report.group(name);
        let mut of_model = self.report.group(&format!("{}, the model", name));
        loop {
            let batch: Vec<FixedPlan> = cases.by_ref().take(BATCH).collect();
            if batch.is_empty() {
                break;
            }
            let calls: Vec<PlanCall> = batch.iter().map(|case| case.call.clone()).collect();
            let models = || calls.iter().map(|call| Some(by_model(call))).collect::<Vec<_>>();
            let (answers, models) = self.planner.ask_beside(&calls, models)?;
            for ((case, answer), model) in batch.iter().zip(&answers).zip(&models) {
                let expected = (case.answer, case.after());
                let named = |difference: Option<String>| difference.map(|found| format!("{}: {}", case.name, found));
                group.judge(case.answer, || named(difference(&expected, answer)), &[&case.call]);
                of_model.judge(case.answer, || named(difference(&expected, model)), &[&case.call]);
            }
        }
        self.report.close(group);
        self.report.close(of_model);
        Ok(())
    }

    fn generated(&mut self, name: &str, count: usize, kind: Kind) -> io::Result<()> {
        let mut group = self.report.group(name);
        let mut random = Random::named(self.seed, name);
        let mut calls = (0..count).map(|number| kind(&mut random, number)).peekable();
        while calls.peek().is_some() {
            let batch: Vec<PlanCall> = calls.by_ref().take(BATCH).collect();
            let (answers, expected) = self.planner.ask_beside(&batch, || batch.iter().map(by_model).collect::<Vec<_>>())?;
            for ((call, expected), answer) in batch.iter().zip(&expected).zip(&answers) {
                group.judge(expected.0, || difference(expected, answer), &[call]);
            }
        }
        self.report.close(group);
        Ok(())
    }

    /// The driver's lists of few entries, played as traces by the driver and by the model. Of the calls at least so many must
    /// give one: a comparison of none would tell nothing.
    fn replayed(&mut self, name: &str, calls: impl Iterator<Item = PlanCall>, least: usize) -> io::Result<()> {
        let mut group = self.report.group(name);
        let mut of_model = self.report.group(&format!("{}, the model", name));
        let calls: Vec<PlanCall> = calls.filter(is_played).collect();
        let found = calls.len();
        group.judge(0, || (found < least).then(|| format!("{} to replay, where {} are due", found, least)), &[]);
        for call in calls {
            let answers = self.planner.ask(&[call.clone()])?;
            let Checker { replayer, .. } = self;
            judge_replay(&mut group, &call, &answers[0], &mut |calls| replayer.ask(calls))?;
            judge_replay(&mut of_model, &call, &answers[0], &mut |calls| Ok(calls.iter().map(replayed_by_model).collect()))?;
        }
        self.report.close(group);
        self.report.close(of_model);
        Ok(())
    }

    /// The longest plan, in as many texts as it takes, by the driver alone: the model would be at it for too long.
    fn longest_replayed(&mut self) -> io::Result<()> {
        let mut group = self.report.group("the longest plan, replayed");
        let call = fixed::longest().call;
        let answers = self.planner.ask(&[call.clone()])?;
        let Checker { replayer, .. } = self;
        judge_replay(&mut group, &call, &answers[0], &mut |calls| replayer.ask(calls))?;
        self.report.close(group);
        Ok(())
    }

    fn finish(mut self) -> io::Result<bool> {
        let mut ending = self.report.group("the drivers' own end");
        for driver in [self.planner, self.replayer] {
            let status = driver.stop()?;
            ending.judge(0, || if status.success() { None } else { Some(format!("the driver ended with {}", status)) }, &[]);
        }
        self.report.close(ending);
        Ok(self.report.finish())
    }
}

/// The most entries of a plan that is played.
const MOST_PLAYED: usize = 6;

fn is_played(call: &PlanCall) -> bool {
    let (answer, after) = by_model(call);
    answer == 0 && numbers(&after.result)[1] as usize <= MOST_PLAYED
}

type Replay<'a> = &'a mut dyn FnMut(&[Call]) -> io::Result<Vec<Answer<Call>>>;

fn replayed_by_model(call: &Call) -> Answer<Call> {
    let mut after = call.clone();
    let answer = after.run(Orders::EachBusWithLines);
    Some((answer, after))
}

fn judge_replay(group: &mut Group, call: &PlanCall, answer: &Answer<PlanCall>, replay: Replay) -> io::Result<()> {
    let found = match answer {
        Some((0, planned)) => unlike_wanted(call, planned, replay)?,
        Some((answer, _)) => Some(format!("answer {} where a plan is due", answer)),
        None => Some(String::from("the driver ended without an answer")),
    };
    group.judge(0, || found, &[call]);
    Ok(())
}

/// Plays a plan with each sector watched in turn: what is then not as wanted.
fn unlike_wanted(call: &PlanCall, planned: &PlanCall, replay: Replay) -> io::Result<Option<String>> {
    let entries = match entries_of(&planned.list, numbers(&planned.result)[1] as usize) {
        Some(entries) => entries,
        None => return Ok(Some(String::from("the list has no such entries"))),
    };
    for sector in 0..FLASH.sectors {
        let board = BoardLine { status: call.status, watched: sector as u8 + 1, address: 0 };
        let bytes = sector * KEPT..(sector + 1) * KEPT;
        let mut flash = call.present[bytes.clone()].to_vec();
        for text in texts(board, &entries) {
            let answers = replay(&[replay_call(text.text, flash)])?;
            match &answers[0] {
                Some((answer, after)) => {
                    if let Some(found) = unlike_plan(*answer, after, text.entries) {
                        return Ok(Some(format!("replayed with sector {} watched: {}", board.watched, found)));
                    }
                    flash = after.flash.clone();
                }
                None => return Ok(Some(String::from("the driver ended without an answer"))),
            }
        }
        if flash != call.wanted[bytes] {
            return Ok(Some(format!("replayed with sector {} watched it does not yield the wanted bytes", board.watched)));
        }
    }
    Ok(None)
}

/// A sure image, as a dump gives it.
fn replay_call(text: Vec<u8>, flash: Vec<u8>) -> Call {
    Call {
        text,
        flash,
        flash_mask: vec![0x00; KEPT],
        eeprom: vec![0x00; KEPT],
        eeprom_mask: vec![0xff; KEPT],
        times: vec![0; TIMES],
        replies: vec![0; REPLIES],
        result: vec![0; RESULT],
    }
}

const STARTS: u8 = 5;
const ENDS: u8 = 6;

/// A plan's replay is settled, every entry starts and ends a cycle, and no bit is in doubt.
fn unlike_plan(answer: u32, after: &Call, entries: usize) -> Option<String> {
    let cycles: Vec<u8> = after.replies.chunks(4).map(|reply| reply[0]).filter(|kind| (STARTS..=ENDS).contains(kind)).collect();
    if answer != 0 || numbers(&after.result) != [0, 0, 0, 0] {
        return Some(format!("answer {}, result {:?}", answer, numbers(&after.result)));
    }
    if cycles != [STARTS, ENDS].repeat(entries) {
        return Some(format!("starts and ends {:?} where {} entries are played", cycles, entries));
    }
    if after.flash_mask.iter().any(|&doubt| doubt != 0x00) {
        return Some(String::from("a bit is in doubt"));
    }
    None
}

/// The first thing in which an answer is not as expected.
fn difference(expected: &Outcome, answer: &Answer<PlanCall>) -> Option<String> {
    let (number, after) = match answer {
        Some(outcome) => outcome,
        None => return Some(String::from("the driver ended without an answer")),
    };
    let due = &expected.1;
    if *number != expected.0 {
        return Some(format!("answer {} where {} is due", number, expected.0));
    }
    if after.result != due.result {
        return Some(format!("result {:02x?} where {:02x?} is due", after.result, due.result));
    }
    let place = (0..due.list.len()).find(|&place| after.list[place] != due.list[place])?;
    Some(format!("list differs at byte {}: {:02x} where {:02x} is due", place, after.list[place], due.list[place]))
}
