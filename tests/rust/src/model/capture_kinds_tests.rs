//! Kinds of captures (request 4/12), each with what it is for, and the captures on which the calls are measured.

use super::capture_tests::{merged_by_model, played_by_model};
use super::flash::Status;
use super::kept::Kept;
use super::merge::{merged, text_of};
use super::record::Event;
use super::replay::{replay, start};
use super::stamp::Orders;
use super::text::{read, Trace, TEXT_MOST};
use crate::generate::capture_samples::ALL;
use crate::generate::captures::{self, calls, Capture, Kind};
use crate::generate::random::Random;
use crate::generate::spoilt;
use crate::generate::walks::{bad_walk, walk};
use std::collections::BTreeMap;

/// So many of a kind are given each of these answers.
fn reaches(kind: Kind, count: usize, due: &[(u32, usize)]) {
    let mut random = Random::seeded(6);
    let mut answers: BTreeMap<u32, usize> = BTreeMap::new();
    for number in 0..count {
        let Capture { levels, trace } = kind(&mut random, number);
        let answer = merged(&levels, &trace).map_or_else(|refusal| refusal.number, |_| 0);
        *answers.entry(answer).or_insert(0) += 1;
    }
    for (answer, least) in due {
        assert!(answers.get(answer).copied().unwrap_or(0) >= *least, "{} in {:?}", answer, answers);
    }
}

#[test]
fn every_kind_of_capture_reaches_what_it_is_for() {
    reaches(walk, 100, &[(0, 100)]);
    reaches(bad_walk, 320, &[(12, 180), (13, 70)]);
    reaches(captures::damaged_levels, 630, &[(0, 20), (12, 400), (13, 5)]);
    reaches(captures::damaged_trace, 530, &[(0, 25), (3, 200), (4, 10), (5, 10), (12, 5)]);
    reaches(captures::changed_bytes, 400, &[(3, 100), (12, 150)]);
    reaches(captures::changed_levels, 300, &[(0, 50), (12, 5), (13, 50)]);
    reaches(captures::strangers, 200, &[(0, 100), (12, 8)]);
    reaches(captures::random_bytes, 200, &[(0, 10), (12, 100)]);
    reaches(captures::lost_status, 60, &[(0, 50)]);
    reaches(captures::tied_ends, 60, &[(0, 50)]);
    reaches(captures::long, 32, &[(0, 6), (2, 8)]);
}

#[test]
fn calls_reach_10_and_room_for_all() {
    let mut random = Random::seeded(7);
    let mut answers: BTreeMap<(u32, bool), usize> = BTreeMap::new();
    for number in 0..160 {
        let (drawn, dumps) = captures::session(&mut random);
        let made = calls(&mut random, number, drawn.into(), dumps);
        let (answer, after) = merged_by_model(&made.merge);
        let length = u32::from_le_bytes([after.result[8], after.result[9], after.result[10], after.result[11]]) as usize;
        assert_eq!(after.output[length..], made.merge.output[length..]);
        *answers.entry((answer, length == after.output.len())).or_insert(0) += 1;
    }
    for due in [(0, true), (0, false), (10, false)] {
        assert!(answers.get(&due).copied().unwrap_or(0) >= 15, "{:?} in {:?}", due, answers);
    }
}

#[test]
fn wrong_buffers_are_refused_by_each_call() {
    let mut random = Random::seeded(8);
    for number in 0..200 {
        let made = captures::wrong_buffers(&mut random, number);
        assert_eq!(merged_by_model(&made.merge).0, 1);
        assert_eq!(played_by_model(&made.play).0, 1);
    }
}

fn replayed(trace: &Trace) -> u32 {
    replay(trace, Kept::doubtful(), Kept::doubtful(), Orders::EachBusWithLines).answer
}

/// After the status was lost, records go on that would start cycles if it were known.
#[test]
fn captures_go_on_with_the_status_lost() {
    let mut random = Random::seeded(9);
    let mut lost = 0;
    for number in 0..60 {
        let Capture { levels, trace } = captures::lost_status(&mut random, number);
        let trace = match merged(&levels, &trace) {
            Ok(trace) => trace,
            Err(_) => continue,
        };
        let mut board = start(trace.board, Kept::doubtful(), Kept::doubtful());
        let mut eeprom_ends = 0;
        for record in &trace.records {
            let reply = board.play(record.event, record.stamp);
            if board.flash.status == Status::Lost && matches!(record.event, Event::E(_)) && reply.kind() == 6 {
                eeprom_ends += 1;
            }
        }
        lost += usize::from(board.flash.status == Status::Lost && eeprom_ends > 0);
    }
    assert!(lost >= 12, "only {}", lost);
}

/// Some captures whose ends are tied settle, and of some the replay stops with 7: the order written is one of several.
#[test]
fn tied_ends_are_stopped_at_or_not() {
    let mut random = Random::seeded(10);
    let mut answers: BTreeMap<u32, usize> = BTreeMap::new();
    for number in 0..80 {
        let Capture { levels, trace } = captures::tied_ends(&mut random, number);
        let answer = merged(&levels, &trace).map_or_else(|refusal| refusal.number, |trace| replayed(&trace));
        *answers.entry(answer).or_insert(0) += 1;
    }
    assert!(answers[&0] >= 20 && answers[&7] >= 4, "{:?}", answers);
}

/// A sum of a text's bytes and their places.
fn sum(text: &[u8]) -> u64 {
    text.iter().fold(0, |sum: u64, &byte| sum.wrapping_mul(31).wrapping_add(u64::from(byte)))
}

/// Each with the sums of its level text and of its trace, and with how many records are merged.
const KEPT_CAPTURES: [(&str, u64, u64, usize); ALL.len()] = [
    ("frames", 16044721511505185739, 16233286081809029594, 208),
    ("erases", 16073278699714989151, 368760639060516284, 622),
    ("dense-alone", 6167613049178443776, 6306921093405489176, 8190),
    ("dense", 6167613049178443776, 4827872790530126616, 17550),
    ("dense-by-turns", 11977640803414223820, 14103616292445052436, 13415),
    ("dense-at-the-end", 11191326415261467050, 6716888842929631568, 13213),
];

#[test]
fn measured_captures_stay() {
    for (sample, kept) in ALL.iter().zip(KEPT_CAPTURES) {
        let Capture { levels, trace } = sample.capture();
        let merged = merged(&levels, &trace).expect("a capture that is measured is right");
        assert_eq!((sample.name, sum(&levels), sum(&trace), merged.records.len()), kept);
        assert!(levels.len() <= TEXT_MOST && levels.len() + 20 > TEXT_MOST, "{}: {}", sample.name, levels.len());
        let settles = text_of(merged.board, &merged.records).len() <= TEXT_MOST;
        assert_eq!(settles && replayed(&merged) == 0, !sample.name.starts_with("dense"), "{}", sample.name);
    }
}

#[test]
fn dense_captures_have_two_records_a_line_and_taken_ones_alone() {
    for sample in ALL.iter().filter(|sample| sample.name.starts_with("dense")) {
        let Capture { levels, trace } = sample.capture();
        let records = merged(&levels, &trace).expect("a capture that is measured is right").records.len();
        let lines = |text: &[u8]| text.iter().filter(|&&byte| byte == b'\n').count();
        assert_eq!(records, 2 * (lines(&levels) - 1) + lines(&trace) - 1, "{}", sample.name);
        let long = trace.len() <= TEXT_MOST && trace.len() + 20 > TEXT_MOST;
        assert_eq!(long, sample.name != "dense-alone", "{}", sample.name);
    }
}

#[test]
fn level_texts_are_brought_to_an_exact_length() {
    let mut random = Random::seeded(11);
    let lengths: Vec<usize> = (0..4).map(|number| captures::long(&mut random, number).levels.len()).collect();
    assert_eq!(lengths, [TEXT_MOST, TEXT_MOST + 1, TEXT_MOST - 1, TEXT_MOST]);
}

/// The capture that is spoilt at each byte, merged by hand.
#[test]
fn the_capture_that_is_spoilt_is_merged() {
    let due = "board 80 2 5|1 F sel|1 E sta|2 L lock|60 F end|60 L free|10002 E end|9999999 F x 7f 5a|10000000 E b 40 0|\
               100000000 F des|100000000 E sto|4000000000 L off|4000000001 L on|";
    let Trace { board, records } = merged(spoilt::CAPTURE, spoilt::LOGGER).expect("it is right");
    let text = String::from_utf8_lossy(&text_of(board, &records)).replace('\t', " ").replace('\n', "|");
    assert_eq!(text, due);
    assert!(read(spoilt::LOGGER).is_ok());
}
