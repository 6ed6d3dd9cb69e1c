//! A whole trace, stamp by stamp.

use super::cells::Cells;
use super::eeprom::Eeprom;
use super::flash::Flash;
use super::kept::Kept;
use super::lines::Lines;
use super::record::{BoardLine, Record, DISAGREES};
use super::stamp::{judge, Board, Orders, Verdict};
use super::text::Trace;

/// How a replay ended: the board and the replies before the stop, or at the end.
#[derive(Clone, Debug, PartialEq, Eq)]
pub struct Ending {
    pub answer: u32,
    /// The stamp of a stop; 0 where all is settled.
    pub stamp: u32,
    pub board: Board,
    pub replies: Vec<[u8; 4]>,
}

impl Ending {
    pub fn count(&self) -> u32 {
        self.replies.iter().filter(|reply| reply[3] == DISAGREES).count() as u32
    }
}

pub fn start<C: Cells>(board: BoardLine, flash: C, eeprom: C) -> Board<C> {
    Board {
        lines: Lines::at_start(),
        flash: Flash::at_start(board.status, board.watched, flash),
        eeprom: Eeprom::at_start(board.address, eeprom),
    }
}

pub fn replay(trace: &Trace, flash: Kept, eeprom: Kept, orders: Orders) -> Ending {
    let mut ending = Ending { answer: 0, stamp: 0, board: start(trace.board, flash, eeprom), replies: Vec::new() };
    for records in stamps(&trace.records) {
        let answer = match judge(&ending.board, records, orders) {
            Verdict::Crowded => 6,
            Verdict::OrdersDiffer => 7,
            Verdict::StatusLost => 8,
            Verdict::Settled(board, replies) => {
                ending.board = *board;
                let played = records.iter().zip(replies);
                ending.replies.extend(played.map(|(record, reply)| reply.bytes(record.event)));
                continue;
            }
        };
        return Ending { answer, stamp: records[0].stamp, ..ending };
    }
    ending
}

/// The records parted by stamp; stamps never fall, so equal ones stand together.
pub fn stamps(records: &[Record]) -> Vec<&[Record]> {
    let mut parts = Vec::new();
    let mut rest = records;
    while let Some(first) = rest.first() {
        let length = rest.iter().take_while(|record| record.stamp == first.stamp).count();
        let (part, others) = rest.split_at(length);
        parts.push(part);
        rest = others;
    }
    parts
}
