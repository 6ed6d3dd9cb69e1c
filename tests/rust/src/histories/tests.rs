//! The histories by themselves: how many there are, and what a choice can be, counted by hand.

use super::history::{History, Shown};
use super::met::{self, Met};
use super::seen::Seen;
use super::tried::{at_random, each, extreme, RANDOM_HISTORIES};
use crate::fixed::Start;
use crate::generate::cut_pages::cut_pages;
use crate::generate::kinds::{self, Kind};
use crate::generate::random::Random;
use crate::generate::small_doubts::{small_doubts, FewBits, Focus, SCENE_COUNT};
use crate::generate::write_cycles::write_cycles;
use crate::model::call::Call;
use crate::model::kept::KEPT;
use crate::model::record::{Event, LineEvent, Reply};
use crate::model::stamp::Orders;
use std::collections::BTreeSet;

/// No place is in focus.
const NONE: [FewBits; 2] = [FewBits { place: 0, bits: 0x00 }; 2];

/// All bits of one place.
fn whole(place: usize) -> [FewBits; 2] {
    [FewBits { place, bits: 0xff }, NONE[0]]
}

fn flash(place: usize) -> Focus {
    Focus { flash: whole(place), eeprom: NONE }
}

fn eeprom(place: usize) -> Focus {
    Focus { flash: NONE, eeprom: whole(place) }
}

/// Records with `|` between two, blanks for tabs.
fn traced(start: Start, records: &str) -> Call {
    let lines: Vec<String> = records.split('|').map(|record| format!("{}\n", record.trim().replace(' ', "\t"))).collect();
    start.call(format!("board\t00\t1\t0\n{}", lines.concat()).into_bytes())
}

/// What all histories show: how many, and each that is seen through `look`.
fn all<T: Ord>(call: &Call, focus: Focus, look: impl Fn(&History) -> T) -> (usize, BTreeSet<T>) {
    let shown = Shown::of(call, 0, &[]).unwrap();
    let (mut count, mut found) = (0, BTreeSet::new());
    assert!(each(&shown, focus, |history| {
        count += 1;
        found.insert(look(history));
    }));
    (count, found)
}

/// An event that no byte is compared with.
const ANY: Event = Event::L(LineEvent::On);

const WREN: &str = "1 F sel | 1 F x 06 ff | 1 F des";

/// A program of one byte for 00010, cut.
fn cut_program(start: Start, data: &str) -> Call {
    let frame = "2 F sel | 2 F x 02 ff | 2 F x 00 ff | 2 F x 00 ff | 2 F x 10 ff";
    traced(start, &format!("{} | {} | 2 F x {} ff | 2 F des | 3 L off", WREN, frame, data))
}

#[test]
fn each_channel_keeps_its_order_and_any_may_come_next() {
    let tied = traced(Start::Erased, "5 F end | 5 F end | 5 E end | 5 L lock");
    assert_eq!(all(&tied, flash(0), |_| ()).0, 12);
    let two_stamps = traced(Start::Erased, "5 F end | 5 E end | 6 E end | 6 L on | 6 L off");
    assert_eq!(all(&two_stamps, flash(0), |_| ()).0, 2 * 3);
    let untied = traced(Start::Erased, "5 F end | 6 E end | 7 L off");
    assert_eq!(all(&untied, flash(0), |_| ()).0, 1);
}

/// RDID's second byte before or after `off`: both orders are tried.
#[test]
fn orders_lead_where_they_must() {
    let tied = traced(Start::Erased, "1 F sel | 1 F x 15 ff | 2 F x 00 1f | 2 L off");
    let replies = all(&tied, flash(0), |history| history.replies[2].kind());
    assert_eq!(replies, (2, BTreeSet::from([Reply::Silent.kind(), Reply::Byte { value: 0x1f, mask: 0 }.kind()])));
}

#[test]
fn a_doubtful_bit_starts_as_either() {
    let call = traced(Start::Half, "5 L on");
    let (count, values) = all(&call, flash(0x10), |history| (history.flash[0x10], history.flash[0x11], history.eeprom[0x10]));
    // Four bits by themselves, the flash's others together, the EEPROM's together.
    assert_eq!((count, values.len()), (16 * 2 * 2, 16 * 2 * 2));
    assert!(values.iter().all(|&(focus, beside, other)| [focus, beside, other].iter().all(|byte| byte & 0x0f == 0x05)));
    let sure = traced(Start::Counting, "5 L on");
    assert_eq!(all(&sure, flash(0x10), |history| history.flash[0x10]), (1, BTreeSet::from([0x10])));
}

#[test]
fn a_cut_program_is_old_or_new_bit_by_bit() {
    let (count, values) = all(&cut_program(Start::Erased, "0f"), flash(0x10), |history| history.flash[0x10]);
    let due: BTreeSet<u8> = (0x0..=0xf).map(|high| high << 4 | 0x0f).collect();
    assert_eq!((count, values), (16, due));
    // 0001 0000 is there, and a 0 cannot become a 1.
    assert_eq!(
        all(&cut_program(Start::Counting, "0f"), flash(0x10), |history| history.flash[0x10]).1,
        BTreeSet::from([0x00, 0x10])
    );
    assert_eq!(all(&cut_program(Start::Counting, "f0"), flash(0x10), |history| history.flash[0x10]), (1, BTreeSet::from([0x10])));
    let beside = all(&cut_program(Start::Erased, "0f"), flash(0x10), |history| (history.flash[0x0f], history.flash[0x11]));
    assert_eq!(beside.1, BTreeSet::from([(0xff, 0xff)]));
}

#[test]
fn a_cut_erase_leaves_any_value() {
    let frame = "2 F sel | 2 F x 52 ff | 2 F x 00 ff | 2 F x 00 ff | 2 F x 00 ff | 2 F des | 3 L off";
    let call = traced(Start::Counting, &format!("{} | {}", WREN, frame));
    let (count, values) = all(&call, flash(0x10), |history| (history.flash[0x10], history.flash[KEPT - 1]));
    let due: BTreeSet<(u8, u8)> = (0x00..=0xff).flat_map(|value| [(value, 0x00), (value, 0xff)]).collect();
    assert_eq!((count, values), (512, due));
}

#[test]
fn a_cut_page_leaves_any_value_in_all_of_it() {
    let frame = "1 E sta | 1 E b a0 0 | 1 E b 00 0 | 1 E b 41 0 | 1 E b 55 0 | 1 E sto | 2 L off";
    let call = traced(Start::Counting, frame);
    for (place, others) in [(0x41, [0x40, 0x7f]), (0x40, [0x41, 0x7f]), (0x7f, [0x40, 0x41])] {
        let (count, values) =
            all(&call, eeprom(place), |history| (history.eeprom[place], others.map(|other| history.eeprom[other])));
        let due: BTreeSet<(u8, [u8; 2])> = (0x00..=0xff).flat_map(|value| [(value, [0x00; 2]), (value, [0xff; 2])]).collect();
        assert_eq!((count, values), (512, due));
    }
    let borders = all(&call, eeprom(0x41), |history| (history.eeprom[0x3f], history.eeprom[0x80]));
    assert_eq!(borders.1, BTreeSet::from([(0x3f, 0x80)]));
}

/// Cycles that end leave no choice.
#[test]
fn whole_cycles_do_as_their_rule_says() {
    let ended =
        |call: Call| Call { text: String::from_utf8(call.text).unwrap().replace("L\toff", "F\tend").into_bytes(), ..call };
    let programmed = all(&ended(cut_program(Start::Counting, "3f")), flash(0x10), |history| history.flash[0x10]);
    assert_eq!(programmed, (1, BTreeSet::from([0x10])));
    let over_half =
        all(&ended(cut_program(Start::Half, "3c")), Focus { flash: whole(0x10), eeprom: NONE }, |history| history.flash[0x10]);
    // ????0101 under 0011 1100.
    assert_eq!(over_half.1, BTreeSet::from([0x04, 0x14, 0x24, 0x34]));
}

#[test]
fn what_was_recorded_excludes_no_history() {
    let read = |so: &str| {
        let frame = "4 L on | 5 F sel | 5 F x 03 ff | 5 F x 00 ff | 5 F x 00 ff | 5 F x 10 ff";
        let cut = String::from_utf8(cut_program(Start::Erased, "0f").text).unwrap();
        let lines = format!("{} | 5 F x 00 {} | 5 F des", frame, so).replace(" | ", "\n").replace(' ', "\t");
        Start::Erased.call(format!("{}{}\n", cut, lines).into_bytes())
    };
    let replies = |so: &str| all(&read(so), flash(0x10), |history| (history.flash[0x10], history.replies[17].bytes(ANY)[1]));
    let due: BTreeSet<(u8, u8)> = (0x0..=0xf).map(|high| (high << 4 | 0x0f, high << 4 | 0x0f)).collect();
    assert_eq!(replies("ff"), (16, due.clone()));
    assert_eq!(replies("00"), (16, due));
}

/// No history is below the one extreme or above the other.
#[test]
fn extremes_are_extremes() {
    let mut random = Random::seeded(31);
    for number in 0..SCENE_COUNT {
        let (call, focus) = small_doubts(&mut random, number);
        let mut after = call.clone();
        let answer = after.run(Orders::EachBusWithLines);
        let shown = Shown::of(&call, answer, &after.result).unwrap();
        let bytes = |history: &History| [history.flash.clone(), history.eeprom.clone()].concat();
        let (low, high) = (bytes(&extreme(&shown, false)), bytes(&extreme(&shown, true)));
        let within =
            |bytes: &[u8]| (0..bytes.len()).all(|place| low[place] & !bytes[place] == 0 && bytes[place] & !high[place] == 0);
        each(&shown, focus, |history| assert!(within(&bytes(history))));
    }
}

/// Random histories by themselves show nearly every doubtful bit with both values, so that a mark that is missing is seen.
#[test]
fn random_histories_differ() {
    let call = cut_program(Start::Doubtful, "0f");
    let shown = Shown::of(&call, 0, &[]).unwrap();
    let mut random = Random::seeded(32);
    let mut seen = Seen::default();
    (0..RANDOM_HISTORIES).for_each(|_| seen.add(&at_random(&shown, &mut random)));
    assert!(seen.marked().0 > 2 * KEPT * 8 * 95 / 100, "{:?}", seen.marked());
}

/// The cases of the request are met by the traces whose histories are sampled, too.
#[test]
fn generated_traces_meet_every_case() {
    let mut random = Random::seeded(33);
    let mut found = Met::new();
    let generated: [(usize, Kind); 4] = [(250, write_cycles), (60, cut_pages), (150, kinds::session), (150, kinds::tied_session)];
    for (count, kind) in generated {
        for number in 0..count {
            let call = kind(&mut random, number);
            let mut after = call.clone();
            let answer = after.run(Orders::EachBusWithLines);
            found.extend(met::met(&Shown::of(&call, answer, &after.result).unwrap(), answer));
        }
    }
    let missing: Vec<&str> = met::ALL.into_iter().filter(|case| !found.contains(case)).collect();
    assert!(missing.is_empty(), "{:?}", missing);
}
