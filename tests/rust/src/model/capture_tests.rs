//! Captures by themselves (request 4/12): outcomes written by hand, the decoder beside a search through the lines, captures drawn
//! from records give them back, and what is merged can be read.

use super::capture_calls::{MergeCall, PlayCall};
use super::decode::{eeprom_records, flash_records};
use super::levels::{read_levels, LevelLine};
use super::merge::{is_taken, merged, text_of};
use super::record::{EepromEvent, Event, FlashEvent, Record};
use super::text::{read, Trace, TEXT_MOST};
use crate::fixed::captures as fixed;
use crate::generate::captures::{self, Capture, Kind};
use crate::generate::drawn::Drawn;
use crate::generate::random::Random;
use crate::generate::walks::walk;
use std::collections::BTreeMap;

pub fn merged_by_model(call: &MergeCall) -> (u32, MergeCall) {
    let mut after = call.clone();
    let answer = after.run();
    (answer, after)
}

pub fn played_by_model(call: &PlayCall) -> (u32, PlayCall) {
    let mut after = call.clone();
    let answer = after.run();
    (answer, after)
}

/// The lines of a capture that is accepted, whatever the logger has.
fn lines_of(levels: &[u8]) -> Option<Vec<LevelLine>> {
    read_levels(levels, &[]).ok()
}

#[test]
fn hand_written_merges() {
    for case in fixed::merges() {
        let (answer, after) = merged_by_model(&case.call);
        assert_eq!(answer, case.answer, "{}", case.name);
        assert_eq!(after.result, case.after.result, "{}", case.name);
        let told = |output: &[u8]| String::from_utf8_lossy(output).replace('\t', " ");
        assert_eq!(told(&after.output), told(&case.after.output), "{}", case.name);
        assert!(after == case.after, "{}", case.name);
    }
}

#[test]
fn hand_written_plays() {
    for case in fixed::plays() {
        let (answer, after) = played_by_model(&case.call);
        assert_eq!(answer, case.answer, "{}", case.name);
        assert_eq!(after.result, case.after.result, "{}", case.name);
        assert!(after == case.after, "{}", case.name);
    }
}

#[test]
fn hand_written_captures_have_names_of_their_own() {
    let merges = fixed::merges().into_iter().map(|case| case.name);
    let plays = fixed::plays().into_iter().map(|case| case.name);
    for mut names in [merges.collect::<Vec<_>>(), plays.collect::<Vec<_>>()] {
        names.sort();
        for pair in names.windows(2) {
            assert_ne!(pair[0], pair[1]);
        }
    }
}

// The same records by a search from each line back.

fn rises(lines: &[LevelLine], place: usize, level: fn(&LevelLine) -> bool) -> bool {
    place > 0 && !level(&lines[place - 1]) && level(&lines[place])
}

fn falls(lines: &[LevelLine], place: usize, level: fn(&LevelLine) -> bool) -> bool {
    place > 0 && level(&lines[place - 1]) && !level(&lines[place])
}

fn cs(line: &LevelLine) -> bool {
    line.levels.cs
}

fn sck(line: &LevelLine) -> bool {
    line.levels.sck
}

fn scl(line: &LevelLine) -> bool {
    line.levels.scl
}

fn sda(line: &LevelLine) -> bool {
    line.levels.sda
}

fn found_flash(lines: &[LevelLine]) -> Vec<(u32, FlashEvent)> {
    let mut records = Vec::new();
    for place in 1..lines.len() {
        let stamp = lines[place].stamp;
        // The rising clocks with CS low and HOLD high since CS's last fall, this line's too.
        let fall = (0..place).rev().find(|&earlier| falls(lines, earlier, cs));
        let clocks: Vec<usize> = match fall {
            Some(fall) => {
                (fall..=place).filter(|&at| rises(lines, at, sck) && lines[at].levels.hold && !cs(&lines[at])).collect()
            }
            None => Vec::new(),
        };
        if falls(lines, place, cs) {
            records.push((stamp, FlashEvent::Sel));
        }
        if clocks.last() == Some(&place) && clocks.len() % 8 == 0 {
            let byte = &clocks[clocks.len() - 8..];
            let sum = |level: fn(&LevelLine) -> bool| (0..8).map(|bit| u8::from(level(&lines[byte[bit]])) << (7 - bit)).sum();
            records.push((stamp, FlashEvent::X { si: sum(|line| line.levels.si), so: sum(|line| line.levels.so) }));
        }
        if rises(lines, place, cs) {
            if clocks.len() % 8 != 0 {
                records.push((stamp, FlashEvent::Cut));
            }
            records.push((stamp, FlashEvent::Des));
        }
    }
    records
}

/// SDA moves with SCL high.
fn turns(lines: &[LevelLine], place: usize) -> bool {
    place > 0 && scl(&lines[place - 1]) && scl(&lines[place]) && sda(&lines[place - 1]) != sda(&lines[place])
}

/// The level of the bit that counts on this line.
fn bit_at(lines: &[LevelLine], place: usize) -> Option<bool> {
    let rise = (0..place).rev().find(|&earlier| rises(lines, earlier, scl))?;
    let turned = (rise..place).any(|between| turns(lines, between));
    if falls(lines, place, scl) && !turned {
        Some(sda(&lines[rise]))
    } else {
        None
    }
}

fn found_eeprom(lines: &[LevelLine]) -> Vec<(u32, EepromEvent)> {
    let mut records = Vec::new();
    for place in 1..lines.len() {
        let stamp = lines[place].stamp;
        let last_turn = (0..place).rev().find(|&earlier| turns(lines, earlier));
        let start = match last_turn.filter(|&turn| !sda(&lines[turn])) {
            Some(start) => start,
            None => {
                if turns(lines, place) && !sda(&lines[place]) {
                    records.push((stamp, EepromEvent::Sta));
                }
                continue;
            }
        };
        let bits: Vec<bool> = (start..=place).filter_map(|at| bit_at(lines, at)).collect();
        if bit_at(lines, place).is_some() && bits.len() % 9 == 0 {
            let byte = &bits[bits.len() - 9..];
            let sum = (0..8).map(|bit| u8::from(byte[bit]) << (7 - bit)).sum();
            records.push((stamp, EepromEvent::B { byte: sum, not_acknowledged: byte[8] }));
        }
        if turns(lines, place) {
            if bits.len() % 9 != 0 {
                records.push((stamp, EepromEvent::Cut));
            }
            records.push((stamp, if sda(&lines[place]) { EepromEvent::Sto } else { EepromEvent::Sta }));
        }
    }
    records
}

#[test]
fn the_decoder_finds_what_a_search_finds() {
    let mut random = Random::seeded(1);
    let mut seen = 0;
    for number in 0..1_500 {
        let lines = lines_of(&walk(&mut random, number).levels).expect("a walk is right");
        assert_eq!(flash_records(&lines), found_flash(&lines));
        assert_eq!(eeprom_records(&lines), found_eeprom(&lines));
        seen += flash_records(&lines).len() + eeprom_records(&lines).len();
    }
    assert!(seen > 20_000, "only {} records", seen);
}

/// Every event of a bus, with its neighbour before it, is met in walks and in drawn captures.
#[test]
fn captures_have_every_event_behind_every_other() {
    let mut pairs: BTreeMap<String, usize> = BTreeMap::new();
    let mut random = Random::seeded(2);
    for number in 0..1_500 {
        let lines = lines_of(&walk(&mut random, number).levels).expect("a walk is right");
        let flash: Vec<&str> = flash_records(&lines).iter().map(|record| flash_word(record.1)).collect();
        let eeprom: Vec<&str> = eeprom_records(&lines).iter().map(|record| eeprom_word(record.1)).collect();
        for pair in flash.windows(2).chain(eeprom.windows(2)) {
            *pairs.entry(pair.join(" ")).or_insert(0) += 1;
        }
    }
    let flash = ["sel x", "sel cut", "sel des", "x x", "x cut", "x des", "cut des", "des sel"];
    let eeprom = ["sta sta", "sta b", "sta cut", "sta sto", "b b", "b sta", "b cut", "b sto", "cut sta", "cut sto", "sto sta"];
    for pair in flash.iter().chain(&eeprom) {
        assert!(pairs.get(*pair).map_or(false, |&count| count >= 10), "{} in {:?}", pair, pairs);
    }
    assert_eq!(pairs.len(), flash.len() + eeprom.len(), "{:?}", pairs);
}

fn flash_word(event: FlashEvent) -> &'static str {
    match event {
        FlashEvent::Sel => "sel",
        FlashEvent::X { .. } => "x",
        FlashEvent::Cut => "cut",
        FlashEvent::Des => "des",
        FlashEvent::End => "end",
    }
}

fn eeprom_word(event: EepromEvent) -> &'static str {
    match event {
        EepromEvent::Sta => "sta",
        EepromEvent::B { .. } => "b",
        EepromEvent::Cut => "cut",
        EepromEvent::Sto => "sto",
        EepromEvent::End => "end",
    }
}

#[test]
fn drawn_captures_give_back_their_records() {
    let mut random = Random::seeded(3);
    let mut drawn_whole = 0;
    for number in 0..400 {
        let (drawn, _) = captures::session(&mut random);
        if drawn.levels.len() > TEXT_MOST {
            continue;
        }
        drawn_whole += 1;
        let trace = merged(&drawn.levels, &drawn.trace).unwrap_or_else(|refusal| panic!("{}: {:?}", number, refusal));
        assert_eq!(drawn.unlike(&trace), None, "{}", number);
    }
    assert!(drawn_whole > 350, "only {}", drawn_whole);
}

/// A trace that lacks something, or has it in another order, is told.
#[test]
fn what_does_not_come_back_is_told() {
    let mut random = Random::seeded(4);
    let (drawn, trace) = loop {
        let (drawn, _) = captures::session(&mut random);
        let trace = merged(&drawn.levels, &drawn.trace).expect("a capture that is drawn is right");
        if drawn.flash.len() > 5 && drawn.eeprom.len() > 5 && drawn.taken.len() > 1 {
            break (drawn, trace);
        }
    };
    assert_eq!(drawn.unlike(&trace), None);
    for place in 0..trace.records.len() {
        let mut fewer = trace.clone();
        fewer.records.remove(place);
        assert!(drawn.unlike(&fewer).is_some());
    }
    let board = Drawn { trace: b"board\t00\t1\t0\n".to_vec(), ..drawn };
    assert!(board.unlike(&Trace { records: Vec::new(), ..trace }).is_some());
}

#[test]
fn what_is_merged_can_be_read_and_keeps_both_sides() {
    let mut random = Random::seeded(5);
    for number in 0..600 {
        let kind: Kind = [walk, captures::strangers, captures::damaged_levels][number % 3];
        let Capture { levels, trace } = kind(&mut random, number);
        let found = match merged(&levels, &trace) {
            Ok(found) => found,
            Err(_) => continue,
        };
        let text = text_of(found.board, &found.records);
        assert_eq!(
            read(&text).map_err(|refusal| refusal.number),
            if text.len() > TEXT_MOST { Err(2) } else { Ok(found.clone()) }
        );
        let logger = read(&trace).expect("the trace was read");
        let taken = |records: &[Record]| {
            records.iter().filter(|record| is_taken(record.event)).map(|record| (record.stamp, record.event)).collect::<Vec<_>>()
        };
        let mut due = taken(&logger.records);
        due.sort_by_key(|&(stamp, event)| (stamp, matches!(event, Event::L(_)), matches!(event, Event::E(_))));
        assert_eq!(taken(&found.records), due);
        assert_eq!(found.board, logger.board);
    }
}
