//! The sixteen traces on which the replay is measured, half of them tied at every stamp, and those that show how its time
//! grows. Each is made anew from a fixed seed and stays (`measured_traces_stay`). All settle but `stop-late`, whose last stamp
//! does not.

use super::author::{Author, Channel, Style, UNTIED};
use super::damage::Sheet;
use super::dumps::Dumps;
use super::eeprom_frames::{self, EepromFrames};
use super::flash_frames::{self, FlashFrames};
use super::random::Random;
use super::topics;
use crate::model::flash::Cycle;
use crate::model::kept::Kept;
use crate::model::lines::Lines;
use crate::model::record::{BoardLine, Event, LineEvent, Record};
use crate::model::stamp::{judge, Orders, Verdict};
use crate::model::text::TEXT_MOST;

pub struct Sample {
    pub name: &'static str,
    /// Whether every stamp has records of more than one channel.
    pub tied: bool,
    write: fn() -> Vec<u8>,
}

impl Sample {
    pub fn text(&self) -> Vec<u8> {
        (self.write)()
    }
}

const fn tied_sample(name: &'static str, write: fn() -> Vec<u8>) -> Sample {
    Sample { name, tied: true, write }
}

const fn untied_sample(name: &'static str, write: fn() -> Vec<u8>) -> Sample {
    Sample { name, tied: false, write }
}

pub const ALL: [Sample; 16] = [
    tied_sample("full-tied", || tied(1, FULL, TEXT_MOST)),
    tied_sample("few-tied", || tied(2, FEW, TEXT_MOST)),
    tied_sample("many-no-lines", || tied(3, NO_LINES, TEXT_MOST)),
    tied_sample("program-tied", || tied(4, PROGRAMS, TEXT_MOST)),
    tied_sample("erase-tied", || tied(5, ERASES, TEXT_MOST)),
    tied_sample("wrsr-tied", || tied(6, STATUS_WRITES, TEXT_MOST)),
    tied_sample("eeprom-tied", || tied(7, PAGE_WRITES, TEXT_MOST)),
    tied_sample("stop-late", || stopping_late(8)),
    untied_sample("long-untied", || untied(1, Untied { lines: true, ..MIXED })),
    untied_sample("reads", || untied(9, Untied { flash: topics::flash_reads, eeprom: topics::eeprom_reads, ..MIXED })),
    untied_sample("programs", || untied(10, Untied { flash: topics::programs, channels: &[Channel::F], ..MIXED })),
    untied_sample("polling", || untied(11, Untied { flash: topics::status_polls, eeprom: topics::address_polls, ..MIXED })),
    untied_sample("eeprom-only", || untied(12, Untied { channels: &[Channel::E], ..MIXED })),
    untied_sample("nearly-untied", || nearly_untied(13)),
    untied_sample("short", || untied(14, Untied { flash: topics::erases, channels: &[Channel::F], records: 20, ..MIXED })),
    untied_sample("shortest", || untied(15, Untied { records: 1, channels: &[Channel::F], ..MIXED })),
];

/// The fully tied kind at a part of its length, and with so many records of each bus at a stamp.
pub const GROWTH: [Sample; 11] = [
    tied_sample("length-quarter", || tied(1, FULL, TEXT_MOST / 4)),
    tied_sample("length-half", || tied(1, FULL, TEXT_MOST / 2)),
    tied_sample("length-whole", || tied(1, FULL, TEXT_MOST)),
    tied_sample("records-1", || tied(1, Ties::of_each(1), TEXT_MOST)),
    tied_sample("records-2", || tied(1, Ties::of_each(2), TEXT_MOST)),
    tied_sample("records-3", || tied(1, Ties::of_each(3), TEXT_MOST)),
    tied_sample("records-4", || tied(1, Ties::of_each(4), TEXT_MOST)),
    tied_sample("records-5", || tied(1, Ties::of_each(5), TEXT_MOST)),
    tied_sample("records-6", || tied(1, Ties::of_each(6), TEXT_MOST)),
    tied_sample("records-7", || tied(1, Ties::of_each(7), TEXT_MOST)),
    tied_sample("records-8", || tied(1, FULL, TEXT_MOST)),
];

const BOARD: BoardLine = BoardLine { status: 0x00, watched: 1, address: 0 };
const SAMPLE: Style = Style { jumps: 0, wrong: 0, lines: 1, ..UNTIED };

fn doubtful() -> Dumps {
    Dumps { flash: Kept::doubtful(), eeprom: Kept::doubtful() }
}

/// A trace without ties.
struct Untied {
    flash: FlashFrames,
    eeprom: EepromFrames,
    channels: &'static [Channel],
    /// Whether a line record comes now and then.
    lines: bool,
    /// The most records; the longest text ends it too.
    records: usize,
}

const MIXED: Untied = Untied {
    flash: flash_frames::next_frame,
    eeprom: eeprom_frames::next_frame,
    channels: &[Channel::F, Channel::E],
    lines: false,
    records: usize::MAX,
};

fn untied(seed: u64, kind: Untied) -> Vec<u8> {
    let mut random = Random::seeded(seed);
    let mut author = Author::new(&mut random, BOARD, &doubtful(), SAMPLE);
    author.start_at(0);
    author.send(kind.flash, kind.eeprom);
    for _ in 0..kind.records {
        let before = author.text.len();
        let channel = untied_channel(&mut author, &kind);
        author.take(channel);
        author.following_stamp();
        if author.text.len() > TEXT_MOST {
            author.text.truncate(before);
            break;
        }
    }
    author.text
}

/// A line record is due now and then, but not where `off` would lose the status.
fn untied_channel(author: &mut Author, kind: &Untied) -> Channel {
    let risky = matches!(author.board.flash.cycle, Some(Cycle::WriteStatus { .. }));
    if kind.lines && !risky && author.random.percent(SAMPLE.lines) {
        return Channel::L;
    }
    author.random.pick(kind.channels)
}

/// What every stamp of a tied trace has.
#[derive(Clone, Copy)]
struct Ties {
    flash: usize,
    eeprom: usize,
    lines: usize,
    /// The line records that are wanted at a stamp, where it settles with them.
    wanted: fn(&mut Random, Lines) -> &'static [LineEvent],
    flash_frames: FlashFrames,
    eeprom_frames: EepromFrames,
}

const FULL: Ties = Ties {
    flash: 8,
    eeprom: 8,
    lines: 2,
    wanted: any_pair,
    flash_frames: flash_frames::next_frame,
    eeprom_frames: eeprom_frames::next_frame,
};

const FEW: Ties = Ties { flash: 1, eeprom: 1, lines: 0, ..FULL };
const NO_LINES: Ties = Ties { lines: 0, ..FULL };
const PROGRAMS: Ties = Ties { flash: 8, eeprom: 0, lines: 1, wanted: other_lock, flash_frames: topics::programs, ..FULL };
const ERASES: Ties = Ties { flash: 3, eeprom: 1, flash_frames: topics::erases, ..FULL };
const STATUS_WRITES: Ties = Ties { flash: 4, eeprom: 0, flash_frames: topics::status_writes, ..FULL };
const PAGE_WRITES: Ties = Ties { flash: 0, eeprom: 8, eeprom_frames: topics::page_writes, ..FULL };
const STOPPING: Ties = Ties { flash: 5, eeprom: 5, lines: 1, wanted: any_line, ..FULL };

/// Pairs that change the lines and pairs that repeat what is.
fn any_pair(random: &mut Random, _lines: Lines) -> &'static [LineEvent] {
    random.pick(&[
        &[LineEvent::Lock, LineEvent::Free],
        &[LineEvent::Free, LineEvent::Lock],
        &[LineEvent::Off, LineEvent::On],
        &[LineEvent::Lock, LineEvent::Lock],
        &[LineEvent::Free, LineEvent::Free],
    ])
}

fn any_line(random: &mut Random, _lines: Lines) -> &'static [LineEvent] {
    random.pick(&[&[LineEvent::Lock], &[LineEvent::Free], &[LineEvent::On]])
}

/// Always a change.
fn other_lock(_random: &mut Random, lines: Lines) -> &'static [LineEvent] {
    if lines.lock {
        &[LineEvent::Free]
    } else {
        &[LineEvent::Lock]
    }
}

impl Ties {
    fn of_each(count: usize) -> Ties {
        Ties { flash: count, eeprom: count, ..FULL }
    }

    fn records(&self) -> usize {
        self.flash + self.eeprom + self.lines
    }
}

fn tied(seed: u64, ties: Ties, most: usize) -> Vec<u8> {
    let mut random = Random::seeded(seed);
    let mut author = tied_author(&mut random, ties);
    loop {
        let mark = author.mark();
        settled_stamp(&mut author, ties);
        if author.text.len() > most {
            author.back_to(&mark);
            return widened(&author.text, ties.records(), most);
        }
        author.following_stamp();
    }
}

fn tied_author(random: &mut Random, ties: Ties) -> Author<'_> {
    let mut author = Author::new(random, BOARD, &doubtful(), SAMPLE);
    author.start_at(0);
    author.send(ties.flash_frames, ties.eeprom_frames);
    author
}

/// A stamp with the line records that are wanted, or where it does not settle with them with a repeated `on`, which always
/// does.
fn settled_stamp(author: &mut Author, ties: Ties) {
    if ties.lines == 0 {
        tied_records(author, ties, &[]);
        return;
    }
    let mark = author.mark();
    let wanted = (ties.wanted)(author.random, mark.board.lines);
    for lines in [wanted, &[LineEvent::On; 2][..ties.lines]] {
        let records = tied_records(author, ties, lines);
        if let Verdict::Settled(..) = judge(&mark.board, &records, Orders::EachBusWithLines) {
            return;
        }
        author.back_to(&mark);
    }
    panic!("a repeated `on` did not settle");
}

fn tied_records(author: &mut Author, ties: Ties, lines: &[LineEvent]) -> Vec<Record> {
    let mut lines = lines.iter();
    let mut records = Vec::new();
    for channel in author.mixed(ties.flash, ties.eeprom, lines.len()) {
        let event = match channel {
            Channel::L => lines.next().map(|&event| author.add(Event::L(event))),
            _ => Some(author.take(channel)),
        };
        records.extend(event.map(|event| Record { line: 0, stamp: 0, event }));
    }
    records
}

/// Tied stamps that settle, and near the longest text one with `off` that does not.
fn stopping_late(seed: u64) -> Vec<u8> {
    let mut random = Random::seeded(seed);
    let mut author = tied_author(&mut random, STOPPING);
    loop {
        let mark = author.mark();
        if author.text.len() + 400 > TEXT_MOST {
            let records = tied_records(&mut author, STOPPING, &[LineEvent::Off]);
            if let Verdict::OrdersDiffer = judge(&mark.board, &records, Orders::EachBusWithLines) {
                return author.text;
            }
            author.back_to(&mark);
        }
        settled_stamp(&mut author, STOPPING);
        author.following_stamp();
    }
}

/// Mostly a record a stamp, now and then a few of them together.
fn nearly_untied(seed: u64) -> Vec<u8> {
    let mut random = Random::seeded(seed);
    let mut author = tied_author(&mut random, FULL);
    loop {
        let mark = author.mark();
        if author.random.percent(5) {
            let flash = author.random.between(0, 3);
            let eeprom = author.random.between(1, 3);
            let lines = author.random.below(2);
            settled_stamp(&mut author, Ties { flash, eeprom, lines, wanted: any_line, ..FULL });
        } else {
            let channel = author.random.pick(MIXED.channels);
            author.take(channel);
        }
        if author.text.len() > TEXT_MOST {
            author.back_to(&mark);
            return author.text;
        }
        author.following_stamp();
    }
}

/// Gives the last two stamps more digits, to come nearer to the most that is wanted.
fn widened(text: &[u8], records: usize, most: usize) -> Vec<u8> {
    let mut sheet = Sheet::of(text);
    let count = sheet.lines.len();
    let mut digits_after = 10;
    for first in [count - records, count - 2 * records] {
        let spare = most - sheet.text().len();
        let digits = stamp_of(&sheet.lines[first]).len();
        let wanted = (digits + spare / records).min(digits_after);
        digits_after = wanted;
        for line in &mut sheet.lines[first..first + records] {
            widen(line, wanted);
        }
    }
    sheet.text()
}

fn stamp_of(line: &[u8]) -> &[u8] {
    line.split(|&byte| byte == b'\t').next().unwrap_or(&[])
}

/// Writes a 1 and zeros before the digits: the order of two stamps so widened to one width stays.
fn widen(line: &mut Vec<u8>, wanted: usize) {
    let digits = stamp_of(line).len();
    if wanted > digits {
        let mut before = vec![b'0'; wanted - digits];
        before[0] = b'1';
        line.splice(0..0, before);
    }
}
