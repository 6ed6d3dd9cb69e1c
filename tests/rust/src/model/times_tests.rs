//! What must hold of the pages' times (request 1/12), whatever the model's way to them.

use super::call::Call;
use super::record::{Event, LineEvent, Record, Reply};
use super::stamp::{outcomes, Board, Channels, Orders, Outcome};
use super::tests::{answered, each_stamp};
use super::times::{ENTRY, FLASH_PAGES};
use crate::generate::kinds;
use crate::generate::prepared::prepared;
use crate::generate::random::Random;
use crate::generate::write_cycles::write_cycles;

/// Values and masks of each page, in the table's order.
fn pages(call: &Call) -> Vec<(&[u8], &[u8])> {
    let flash = call.flash.chunks(256).zip(call.flash_mask.chunks(256));
    flash.chain(call.eeprom.chunks(64).zip(call.eeprom_mask.chunks(64))).collect()
}

/// A page that was never written has the bytes and the doubt that it had; one that was written may have them too.
#[test]
fn pages_never_written_are_as_they_were() {
    let mut random = Random::seeded(30);
    let mut seen = [0; 2];
    for number in 0..150 {
        let call = write_cycles(&mut random, number);
        let (_, after) = answered(&call, Orders::EachBusWithLines);
        let both = pages(&call).into_iter().zip(pages(&after));
        for ((before, now), entry) in both.zip(after.times.chunks(ENTRY)) {
            match (entry[0], before == now) {
                (1, same) => seen[usize::from(same)] += 1,
                (_, same) => assert!(same, "{}", String::from_utf8_lossy(&call.text)),
            }
        }
    }
    assert!(seen[0] > 1000 && seen[1] > 100, "{:?}", seen);
}

fn times(board: &Board) -> Vec<Option<u32>> {
    [board.flash.times.as_slice(), board.eeprom.times.as_slice()].concat()
}

/// A stamp gives pages no other stamp than its own, and none at all where no cycle ends and the supply does not fall.
#[test]
fn a_stamp_writes_itself() {
    let mut random = Random::seeded(31);
    let mut seen = [0; 2];
    for number in 0..150 {
        each_stamp(&write_cycles(&mut random, number), |before, records, after| {
            let (after, replies) = match after {
                Some(settled) => settled,
                None => return,
            };
            let is_over = replies.contains(&Reply::Ends) || records.iter().any(|record| record.event == Event::L(LineEvent::Off));
            let (before, after) = (times(before), times(after));
            for (old, new) in before.iter().zip(&after) {
                assert!(old == new || *new == Some(records[0].stamp));
            }
            assert!(is_over || before == after);
            seen[usize::from(before != after)] += 1;
        });
    }
    assert!(seen[0] > 1000 && seen[1] > 200, "{:?}", seen);
}

fn without_times(outcome: &Outcome) -> Outcome {
    let mut outcome = outcome.clone();
    outcome.board.flash.times.clear();
    outcome.board.eeprom.times.clear();
    outcome
}

/// Orders of one stamp that agree in all else agree in the times: the table adds no difference of its own. Whether two orders
/// had other times is given back.
fn times_follow(before: &Board, records: &[Record]) -> bool {
    let mut distinct: Vec<(Outcome, Vec<Option<u32>>)> = Vec::new();
    for outcome in outcomes(before, &Channels::of(records)) {
        let rest = without_times(&outcome);
        let times = times(&outcome.board);
        match distinct.iter().find(|known| known.0 == rest) {
            Some(known) => assert!(known.1 == times, "{:?}", records),
            None => distinct.push((rest, times)),
        }
    }
    distinct.iter().any(|known| known.1 != distinct[0].1)
}

/// The records with the supply's fall at their stamp, and with its return.
fn tied_to_supply(records: &[Record]) -> [Vec<Record>; 2] {
    let line = |event: LineEvent| Record { event: Event::L(event), ..records[0] };
    [[records, &[line(LineEvent::Off)]].concat(), [records, &[line(LineEvent::Off), line(LineEvent::On)]].concat()]
}

const MOST_TRIED: usize = 5;

#[test]
fn times_make_no_difference_of_their_own() {
    let mut random = Random::seeded(32);
    let mut seen = [0; 2];
    for number in 0..60 {
        let call = match number % 3 {
            0 => kinds::small_stamps(&mut random, number),
            1 => prepared(&mut random, number / 3),
            _ => write_cycles(&mut random, number),
        };
        each_stamp(&call, |before, records, _| {
            let tied = tied_to_supply(records).into_iter().chain([records.to_vec()]);
            for records in tied.filter(|records| records.len() <= MOST_TRIED) {
                seen[usize::from(times_follow(before, &records))] += 1;
            }
        });
    }
    assert!(seen[0] > 1000 && seen[1] > 100, "{:?}", seen);
}

/// The rules of request 1/12 are met often enough for a wrong one to be seen.
#[test]
fn generated_cycles_write_pages() {
    let mut random = Random::seeded(33);
    let (mut some_flash, mut whole_flash, mut eeprom, mut stopped) = (0, 0, 0, 0);
    for number in 0..200 {
        let (answer, after) = answered(&write_cycles(&mut random, number), Orders::EachBusWithLines);
        let marks: Vec<u8> = after.times.chunks(ENTRY).map(|entry| entry[0]).collect();
        let written = marks[..FLASH_PAGES].iter().filter(|&&mark| mark == 1).count();
        some_flash += usize::from(written > 0 && written < FLASH_PAGES);
        whole_flash += usize::from(written == FLASH_PAGES);
        eeprom += usize::from(marks[FLASH_PAGES..].contains(&1));
        stopped += usize::from(answer >= 6 && marks.contains(&1));
    }
    let seen = [some_flash, whole_flash, eeprom, stopped];
    assert!(seen.iter().all(|&count| count > 20), "{:?}", seen);
}
