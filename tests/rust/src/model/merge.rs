//! A capture and the logger's trace written out as one trace (request 4/12).

use super::decode::{eeprom_records, flash_records};
use super::levels::read_levels;
use super::record::{BoardLine, EepromEvent, Event, FlashEvent, Record};
use super::text::{read, Refusal, Trace, TEXT_MOST};
use super::written::{board_line_of, line_of};

/// "Line records and cycle ends come from the logger's trace; its other records are passed over."
pub fn is_taken(event: Event) -> bool {
    matches!(event, Event::L(_) | Event::F(FlashEvent::End) | Event::E(EepromEvent::End))
}

/// The merged trace, or the refusal: the logger's trace whole, the level text's length, its first bad line.
pub fn merged(levels: &[u8], trace: &[u8]) -> Result<Trace, Refusal> {
    let logger = read(trace)?;
    if levels.len() > TEXT_MOST {
        return Err(Refusal { number: 2, line: 0, field: 0 });
    }
    let taken: Vec<Record> = logger.records.iter().copied().filter(|record| is_taken(record.event)).collect();
    let lines = read_levels(levels, &taken)?;
    let flash = flash_records(&lines).into_iter().map(|(stamp, event)| (stamp, Event::F(event)));
    let eeprom = eeprom_records(&lines).into_iter().map(|(stamp, event)| (stamp, Event::E(event)));
    let taken = taken.into_iter().map(|record| (record.stamp, record.event));
    let mut all: Vec<(u32, Event)> = flash.chain(eeprom).chain(taken).collect();
    // Sorting keeps the order of what is equal, and none of a channel's stamps is in both the capture and what was taken.
    all.sort_by_key(|&(stamp, event)| (stamp, place_at_stamp(event)));
    let records = (2..).zip(all).map(|(line, (stamp, event))| Record { line, stamp, event }).collect();
    Ok(Trace { board: logger.board, records })
}

/// "By stamp, and at one stamp F, E, L."
fn place_at_stamp(event: Event) -> u8 {
    match event {
        Event::F(_) => 0,
        Event::E(_) => 1,
        Event::L(_) => 2,
    }
}

/// A trace under its board line.
pub fn text_of(board: BoardLine, records: &[Record]) -> Vec<u8> {
    let lines: String = records.iter().map(|record| line_of(u64::from(record.stamp), record.event)).collect();
    (board_line_of(board) + &lines).into_bytes()
}
