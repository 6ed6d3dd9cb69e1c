//! The model by itself: hand-written outcomes, the listing, and the two ways to try orders against each other.

use super::call::Call;
use super::eeprom::Eeprom;
use super::kept::{rolled, Kept};
use super::listing::{listing, pages, Files, Listing};
use super::record::{Event, Record, Reply};
use super::replay::{replay, stamps, start, Ending};
use super::stamp::{judge, Board, Orders, Verdict};
use super::text::{read, Refusal, TEXT_MOST};
use super::written::event_fields;
use crate::fixed;
use crate::generate::cut_pages::cut_pages;
use crate::generate::damage::DAMAGES;
use crate::generate::kinds::{self, Kind};
use crate::generate::prepared::prepared;
use crate::generate::random::Random;
use crate::generate::reorder::reorder;
use crate::generate::samples;
use crate::generate::spoilt;

pub fn answered(call: &Call, orders: Orders) -> (u32, Call) {
    let mut after = call.clone();
    let answer = after.run(orders);
    (answer, after)
}

fn printed(listing: Listing, trace: Option<&str>) -> String {
    let trace = trace.map(|lines| lines.replace(' ', "\t").into_bytes());
    listing(&Files { trace, flash: None, eeprom: None }).replace('\t', " ")
}

fn listed(trace: Option<&str>) -> String {
    printed(listing, trace)
}

#[test]
fn hand_written_outcomes() {
    for case in fixed::all() {
        let (answer, after) = answered(&case.call, Orders::EachBusWithLines);
        assert_eq!(answer, case.answer, "{}", case.name);
        assert_eq!(after.result, case.after.result, "{}", case.name);
        assert!(after == case.after, "{}", case.name);
    }
}

#[test]
fn hand_written_outcomes_have_names_of_their_own() {
    let mut names: Vec<String> = fixed::all().into_iter().map(|case| case.name).collect();
    names.sort();
    for pair in names.windows(2) {
        assert_ne!(pair[0], pair[1]);
    }
}

#[test]
fn listing_in_full() {
    let trace = "board 00 1 0\n10 F sel\n10 F x 05 ff\n10 F x 00 00\n10 F des\n80 L off\n";
    let due = "line stamp reply match\n2 10 - .\n3 10 - .\n4 10 00/00 =\n5 10 - .\n6 80 - .\nsettled 0\n";
    assert_eq!(listed(Some(trace)), due);
}

#[test]
fn listings_of_each_ending() {
    assert_eq!(listed(None), "refused 3 1 1\n");
    assert_eq!(listed(Some("board 00 1 0\n")), "line stamp reply match\nsettled 0\n");
    assert_eq!(listed(Some("board 00 1 0\n5 L on\n4 L on\n")), "refused 4 3 0\n");
    assert_eq!(listed(Some("board 00 1 0\n5 F des\n")), "refused 5 2 0\n");
    assert_eq!(listed(Some("board 00 1 0\n5 F sel\n6 F x O5 ff\n")), "refused 3 3 4\n");
    let stop = "board 00 1 0\n5 E end\n7 L on\n7 L on\n7 L on\n";
    assert_eq!(listed(Some(stop)), "line stamp reply match\n2 5 idle .\nstop 6 7\n");
    let short = Files { trace: None, flash: Some(vec![0; 5]), eeprom: None };
    assert_eq!(listing(&short), "refused\t1\t0\t0\n");
    let long = Files { trace: Some(vec![b'x'; TEXT_MOST + 1]), flash: None, eeprom: None };
    assert_eq!(listing(&long), "refused\t2\t0\t0\n");
}

#[test]
fn listing_of_every_reply() {
    let trace = "board 00 1 0\n1 E sta\n2 E b a0 1\n3 E b 00 0\n4 E b 07 0\n5 E b 11 0\n6 E sto\n7 E sta\n8 E b a0 1\n9 E end\n\
                 10 E end\n11 E sta\n12 E b a1 0\n13 E b 00 0\n";
    let due = "line stamp reply match\n2 1 - .\n3 2 ack !\n4 3 ack =\n5 4 ack =\n6 5 ack =\n7 6 starts .\n8 7 - .\n9 8 no =\n\
               10 9 ends .\n11 10 idle .\n12 11 - .\n13 12 ack =\n14 13 00/ff .\nsettled 1\n";
    assert_eq!(listed(Some(trace)), due);
}

#[test]
fn pages_of_each_ending() {
    let heading = "chip page stamp\n";
    let writes = "board 00 1 0\n0 E sta\n0 E b a0 0\n0 E b 7f 0\n0 E b ff 0\n0 E b 11 0\n0 E sto\n0 E end\n\
                  5 F sel\n5 F x 06 ff\n5 F des\n6 F sel\n6 F x 02 ff\n6 F x 00 ff\n6 F x 7f ff\n6 F x 00 ff\n6 F x 22 ff\n\
                  6 F des\n6 E sta\n6 E b a0 1\n6 E b 00 0\n6 E b 3f 0\n6 E b 11 0\n6 E sto\n4294967295 L off\n";
    let written = "flash 127 4294967295\neeprom 0 4294967295\neeprom 511 0\n";
    assert_eq!(printed(pages, Some(writes)), format!("{}{}settled 1\n", heading, written));
    assert_eq!(printed(pages, Some("board 00 1 0\n")), format!("{}settled 0\n", heading));
    let tied = writes.replace("4294967295 L off", "7 E end\n7 L off");
    assert_eq!(printed(pages, Some(&tied)), format!("{}eeprom 511 0\nstop 7 7\n", heading));
    assert_eq!(printed(pages, None), "refused 3 1 1\n");
    assert_eq!(printed(pages, Some(&writes.replace("off", "of"))), "refused 3 25 3\n");
    let long = Files { trace: None, flash: None, eeprom: Some(vec![0; 32_769]) };
    assert_eq!(pages(&long), "refused\t1\t0\t0\n");
}

/// On random small stamps the two ways to try orders must give the same in everything.
#[test]
fn two_channels_at_a_time_are_as_good_as_three() {
    let mut random = Random::seeded(20);
    let mut seen = [0; 9];
    for number in 0..240 {
        let call = if number % 3 == 0 { kinds::small_stamps(&mut random, number) } else { prepared(&mut random, number / 3) };
        let two = answered(&call, Orders::EachBusWithLines);
        let three = answered(&call, Orders::AllChannels);
        assert!(two == three, "{}", String::from_utf8_lossy(&call.text));
        seen[two.0 as usize] += 1;
    }
    assert!(seen[0] > 20 && seen[7] > 20, "{:?}", seen);
}

#[test]
fn another_allowed_order_changes_nothing() {
    let mut random = Random::seeded(21);
    for number in 0..120 {
        let call = kinds::probe(&mut random, number);
        let trace = read(&call.text).unwrap();
        let other = reorder(&mut random, &call.text, &trace);
        let (answer, before) = answered(&call, Orders::EachBusWithLines);
        let (answer_after, after) = answered(&Call { text: other.text.clone(), ..call.clone() }, Orders::EachBusWithLines);
        assert_eq!((answer, &before.result), (answer_after, &after.result));
        assert!((&before.flash, &before.flash_mask) == (&after.flash, &after.flash_mask));
        assert!((&before.eeprom, &before.eeprom_mask) == (&after.eeprom, &after.eeprom_mask));
        assert!(before.times == after.times);
        for (place, origin) in other.origins.iter().enumerate() {
            assert_eq!(after.replies[4 * place..4 * place + 4], before.replies[4 * origin..4 * origin + 4]);
        }
    }
}

/// No value ever has a bit that its mask doubts.
#[test]
fn a_doubtful_bit_stays_0_in_the_value() {
    let mut random = Random::seeded(22);
    for number in 0..120 {
        let (_, after) = answered(&kinds::session(&mut random, number), Orders::EachBusWithLines);
        assert!(after.flash.iter().zip(&after.flash_mask).all(|(value, mask)| value & mask == 0));
        assert!(after.eeprom.iter().zip(&after.eeprom_mask).all(|(value, mask)| value & mask == 0));
    }
}

#[test]
fn refused_texts_leave_all_but_the_result() {
    let mut random = Random::seeded(23);
    let kinds: [Kind; 3] = [kinds::damaged, kinds::mutated, kinds::spoiled_buffers];
    for number in 0..300 {
        let call = kinds[number % 3](&mut random, number);
        let (answer, after) = answered(&call, Orders::EachBusWithLines);
        if let 1..=5 = answer {
            assert!(Call { result: call.result.clone(), ..after } == call);
        }
    }
}

/// Whether a byte that the running cycle was not sent had a sure bit before a stamp and has none after it.
fn doubts_unsent(before: &Eeprom, after: &Eeprom) -> bool {
    let doubted = |place: usize| before.kept.mask[place] != 0xff && after.kept.mask[place] == 0xff;
    before.cycle.iter().any(|cycle| {
        let places = usize::from(cycle.page) * 64..;
        cycle.data.iter().zip(places).any(|(sent, place)| sent.is_none() && doubted(place))
    })
}

/// Each stamp up to a stop: the board before it, its records, and where it settles the board after it and the replies.
pub fn each_stamp(call: &Call, mut see: impl FnMut(&Board, &[Record], Option<(&Board, &[Reply])>)) {
    let trace = read(&call.text).unwrap();
    let flash = Kept { value: call.flash.clone(), mask: call.flash_mask.clone() };
    let eeprom = Kept { value: call.eeprom.clone(), mask: call.eeprom_mask.clone() };
    let mut board = start(trace.board, flash, eeprom);
    for records in stamps(&trace.records) {
        match judge(&board, records, Orders::EachBusWithLines) {
            Verdict::Settled(after, replies) => {
                see(&board, records, Some((&after, &replies)));
                board = *after;
            }
            _ => return see(&board, records, None),
        }
    }
}

/// Whether an `off` that is played cuts a write in a page with sure bytes that were not sent.
fn cuts_sure_bytes(call: &Call) -> bool {
    let mut cuts = false;
    each_stamp(call, |before, _, settled| {
        cuts |= settled.map_or(false, |(after, _)| doubts_unsent(&before.eeprom, &after.eeprom))
    });
    cuts
}

/// The rule of request 3/12 is met often enough for a wrong one to be seen.
#[test]
fn generated_writes_are_cut() {
    let mut random = Random::seeded(25);
    let cut = (0..100).filter(|&number| cuts_sure_bytes(&cut_pages(&mut random, number))).count();
    assert!(cut > 50, "{}", cut);
}

/// Each field is the first bad one often enough for a wrong number to be seen (request 2/12).
#[test]
fn generated_damage_reaches_every_field() {
    let mut random = Random::seeded(26);
    let mut seen = [0; 7];
    for number in 0..12 * DAMAGES.len() {
        if let Err(Refusal { number: 3, field, .. }) = read(&kinds::damaged(&mut random, number).text) {
            seen[field as usize] += 1;
        }
    }
    assert!(seen[1..].iter().all(|&count| count > 10), "{:?}", seen);
}

#[test]
fn the_trace_that_is_spoilt_has_every_kind_of_line() {
    let trace = read(spoilt::EVERY_LINE).unwrap();
    let word = |record: &Record| event_fields(record.event).split('\t').take(2).collect::<Vec<_>>().join(" ");
    let mut words: Vec<String> = trace.records.iter().map(word).collect();
    words.sort();
    words.dedup();
    assert_eq!(words.len(), 14, "{:?}", words);
}

fn replayed(text: &[u8]) -> Ending {
    replay(&read(text).unwrap(), Kept::doubtful(), Kept::doubtful(), Orders::EachBusWithLines)
}

fn channel(record: &Record) -> u8 {
    match record.event {
        Event::F(_) => 0,
        Event::E(_) => 1,
        Event::L(_) => 2,
    }
}

fn is_tied(records: &&[Record]) -> bool {
    records.iter().any(|record| channel(record) != channel(&records[0]))
}

#[test]
fn measured_traces_are_what_their_group_says() {
    assert_eq!(samples::ALL.iter().filter(|sample| sample.tied).count(), 8);
    for sample in &samples::ALL {
        let trace = read(&sample.text()).unwrap();
        let stamps = stamps(&trace.records);
        let tied = stamps.iter().filter(|&records| is_tied(records)).count();
        if sample.tied {
            assert_eq!(tied, stamps.len(), "{}", sample.name);
        } else {
            assert!(tied * 20 < stamps.len(), "{}", sample.name);
        }
    }
}

#[test]
fn measured_traces_settle_but_one() {
    for sample in &samples::ALL {
        let text = sample.text();
        let ending = replayed(&text);
        let due = if sample.name == "stop-late" { (7, read(&text).unwrap().records.last().unwrap().stamp) } else { (0, 0) };
        assert_eq!((ending.answer, ending.stamp, ending.count()), (due.0, due.1, 0), "{}", sample.name);
        let short = sample.name.starts_with("short");
        assert!(text.len() <= TEXT_MOST && (text.len() + 400 > TEXT_MOST) == !short, "{}: {}", sample.name, text.len());
    }
}

#[test]
fn the_fully_tied_trace_is_full() {
    let full = read(&samples::ALL[0].text()).unwrap();
    assert!(stamps(&full.records).iter().all(|records| records.len() == 18));
    for (sample, count) in samples::GROWTH[3..].iter().zip(1..) {
        let trace = read(&sample.text()).unwrap();
        assert!(stamps(&trace.records).iter().all(|records| records.len() == 2 * count + 2), "{}", sample.name);
    }
}

/// The figures in docs/SPEED.md are of these very traces: a generator that makes others has to say so here.
const KEPT_TRACES: [(&str, u64); 16] = [
    ("full-tied", 0x122b_674b_7e86_3178),
    ("few-tied", 0xf63d_006a_0059_a57b),
    ("many-no-lines", 0x7ef9_1814_dab0_6fcf),
    ("program-tied", 0xdb7a_2133_0598_36f9),
    ("erase-tied", 0x87ef_dada_98ab_a38e),
    ("wrsr-tied", 0xe0b2_7d61_c6e9_f2cb),
    ("eeprom-tied", 0x6331_3a66_b82d_a900),
    ("stop-late", 0x3615_7b26_edbb_50cf),
    ("long-untied", 0x84c7_8c6e_4074_5c1f),
    ("reads", 0x7840_4f47_3186_931f),
    ("programs", 0xa914_123e_9dc4_b39d),
    ("polling", 0x318a_6b76_26d8_c940),
    ("eeprom-only", 0xb915_9112_e922_03c4),
    ("nearly-untied", 0x5c39_5cac_b3b4_de2b),
    ("short", 0xce8f_ea2a_0263_8d98),
    ("shortest", 0x2072_ff13_bf65_a0bd),
];

/// FNV-1a.
fn sum(text: &[u8]) -> u64 {
    text.iter().fold(0xcbf2_9ce4_8422_2325, |sum, &byte| (sum ^ u64::from(byte)).wrapping_mul(0x100_0000_01b3))
}

#[test]
fn measured_traces_stay() {
    for (sample, kept) in samples::ALL.iter().zip(KEPT_TRACES) {
        assert_eq!((sample.name, sum(&sample.text())), kept);
    }
}

#[test]
fn lengths_grow_as_named() {
    let lengths: Vec<usize> = samples::GROWTH[..3].iter().map(|sample| sample.text().len()).collect();
    for (length, part) in lengths.iter().zip([4, 2, 1]) {
        assert!(*length <= TEXT_MOST / part && length + 20 > TEXT_MOST / part, "{:?}", lengths);
    }
}

#[test]
fn texts_are_brought_to_an_exact_length() {
    let mut random = Random::seeded(24);
    let lengths: Vec<usize> = (0..5).map(|number| kinds::long(&mut random, number).text.len()).collect();
    assert_eq!(lengths, [TEXT_MOST, TEXT_MOST + 1, TEXT_MOST - 1, 40_000, TEXT_MOST]);
}

#[test]
fn pages_roll() {
    assert_eq!(rolled(3, &[1, 2], 4), [Some(2), None, None, Some(1)]);
    assert_eq!(rolled(1, &[1, 2, 3, 4, 5], 4), [Some(4), Some(5), Some(2), Some(3)]);
    assert_eq!(rolled(0, &[], 2), [None, None]);
}

#[test]
fn the_longest_stamp_and_one_more() {
    assert!(read(b"board\t00\t1\t0\n4294967295\tL\ton\n").is_ok());
    let refusal = Refusal { number: 3, line: 2, field: 1 };
    assert_eq!(read(b"board\t00\t1\t0\n4294967296\tL\ton\n"), Err(refusal));
}
