//! One history of the records that a call shows.

use super::bytes::Bytes;
use super::choices::{Chip, Choices};
use crate::check::numbers;
use crate::model::call::Call;
use crate::model::record::{BoardLine, Event, Record, Reply};
use crate::model::replay::{stamps, start};
use crate::model::stamp::Board;
use crate::model::text::read;
use std::collections::VecDeque;

/// The records up to where a replay stops, and the buffers as they were lent.
pub struct Shown<'a> {
    pub board: BoardLine,
    pub records: Vec<Record>,
    pub lent: &'a Call,
}

impl Shown<'_> {
    /// Of a call with its answer and result: every record where it is settled, on a stop those before its stamp. A refusal
    /// shows none.
    pub fn of<'a>(lent: &'a Call, answer: u32, result: &[u8]) -> Option<Shown<'a>> {
        let mut trace = read(&lent.text).ok()?;
        match answer {
            0 => (),
            6..=8 => trace.records.retain(|record| record.stamp < numbers(result)[1]),
            _ => return None,
        }
        Some(Shown { board: trace.board, records: trace.records, lent })
    }
}

/// How a history ends, and its replies in the order of the file. Each of its bytes is sure.
pub struct History {
    pub flash: Vec<u8>,
    pub eeprom: Vec<u8>,
    pub replies: Vec<Reply>,
}

pub fn history(shown: &Shown, choices: &Choices) -> History {
    let flash = Bytes::at_start(Chip::Flash, &shown.lent.flash, &shown.lent.flash_mask, choices);
    let eeprom = Bytes::at_start(Chip::Eeprom, &shown.lent.eeprom, &shown.lent.eeprom_mask, choices);
    let mut board = start(shown.board, flash, eeprom);
    let mut replies = vec![Reply::Silent; shown.records.len()];
    for records in stamps(&shown.records) {
        play_stamp(&mut board, records, choices, &mut replies);
    }
    // What was recorded was asked nowhere: "Recorded replies don't exclude a history."
    History { flash: board.flash.kept.values, eeprom: board.eeprom.kept.values, replies }
}

/// Any order in which each channel keeps its own.
fn play_stamp(board: &mut Board<Bytes>, records: &[Record], choices: &Choices, replies: &mut [Reply]) {
    let mut channels = vec![VecDeque::new(); 3];
    for record in records {
        channels[channel(record)].push_back(*record);
    }
    channels.retain(|left| !left.is_empty());
    while !channels.is_empty() {
        let one = if channels.len() > 1 { choices.borrow_mut().channel(channels.len()) } else { 0 };
        if let Some(record) = channels[one].pop_front() {
            replies[record.line as usize - 2] = board.play(record.event, record.stamp);
        }
        channels.retain(|left| !left.is_empty());
    }
}

pub fn channel(record: &Record) -> usize {
    match record.event {
        Event::F(_) => 0,
        Event::E(_) => 1,
        Event::L(_) => 2,
    }
}
