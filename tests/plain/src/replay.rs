//! The replay, stamp by stamp ("Replies and stopping").

use crate::eeprom::Eeprom;
use crate::flash::Flash;
use crate::image::{has_bit_in_both, KEPT};
use crate::orders::{Replies, Tied, Trial, MOST_BUS, MOST_LINES};
use crate::record::{Board, EepromEvent, Event, FlashEvent, LineEvent, Lines, Record, Reply, DISAGREES};
use crate::text::read;
use crate::times::{give, TABLE};
use std::mem::swap;

const REPLIES: usize = 40_000;
const RESULT: usize = 16;

/// What the caller lends beside the text.
pub struct Buffers<'a> {
    pub flash: &'a mut [u8],
    pub flash_mask: &'a mut [u8],
    pub eeprom: &'a mut [u8],
    pub eeprom_mask: &'a mut [u8],
    pub times: &'a mut [u8],
    pub replies: &'a mut [u8],
    pub result: &'a mut [u8],
}

pub fn replay(text: &[u8], buffers: &mut Buffers) -> u32 {
    let numbers = if !buffers.fit() {
        [1, 0, 0, 0]
    } else {
        match read(text) {
            Err(refusal) => [refusal.number, refusal.line, 0, refusal.field],
            Ok((board, records)) => buffers.play(board, &records),
        }
    };
    if buffers.result.len() == RESULT {
        for (place, number) in buffers.result.chunks_exact_mut(4).zip(numbers) {
            place.copy_from_slice(&number.to_le_bytes());
        }
    }
    numbers[0]
}

impl Buffers<'_> {
    fn fit(&self) -> bool {
        self.flash.len() == KEPT
            && self.flash_mask.len() == KEPT
            && self.eeprom.len() == KEPT
            && self.eeprom_mask.len() == KEPT
            && self.times.len() == TABLE
            && self.replies.len() == REPLIES
            && self.result.len() == RESULT
            && !has_bit_in_both(self.flash, self.flash_mask)
            && !has_bit_in_both(self.eeprom, self.eeprom_mask)
    }

    /// All stamps; the answer, the stamp of a stop, the count, and no field.
    fn play(&mut self, board: Board, records: &[Record]) -> [u32; 4] {
        let mut flash = [Flash::at_start(board.status, board.watched); 3];
        let mut eeprom = [Eeprom::at_start(board.address); 3];
        flash[0].image.take(self.flash, self.flash_mask);
        eeprom[0].image.take(self.eeprom, self.eeprom_mask);
        let mut desk = Desk {
            lines: Lines::AT_START,
            flash: Trial::on(&mut flash),
            eeprom: Trial::on(&mut eeprom),
            channels: Channels::default(),
        };
        self.replies.fill(0);
        let (answer, stamp, count) = desk.stamps(records, self.replies);
        desk.flash.now.image.give(self.flash, self.flash_mask);
        desk.eeprom.now.image.give(self.eeprom, self.eeprom_mask);
        give(&desk.flash.now.times, &desk.eeprom.now.times, self.times);
        [answer, stamp, count, 0]
    }
}

/// The records of one stamp, each channel in its own order.
#[derive(Default)]
struct Channels {
    flash: Vec<FlashEvent>,
    eeprom: Vec<EepromEvent>,
    lines: Vec<LineEvent>,
}

impl Channels {
    fn take(&mut self, records: &[Record]) {
        self.flash.clear();
        self.eeprom.clear();
        self.lines.clear();
        for record in records {
            match record.event {
                Event::Flash(event) => self.flash.push(event),
                Event::Eeprom(event) => self.eeprom.push(event),
                Event::Line(event) => self.lines.push(event),
            }
        }
    }

    fn crowded(&self) -> bool {
        self.flash.len() > MOST_BUS || self.eeprom.len() > MOST_BUS || self.lines.len() > MOST_LINES
    }
}

struct Desk<'a> {
    lines: Lines,
    flash: Trial<'a, Flash>,
    eeprom: Trial<'a, Eeprom>,
    channels: Channels,
}

impl Desk<'_> {
    fn stamps(&mut self, records: &[Record], replies: &mut [u8]) -> (u32, u32, u32) {
        let mut count = 0;
        let mut at = 0;
        while at < records.len() {
            let stamp = records[at].stamp;
            let length = records[at..].iter().take_while(|record| record.stamp == stamp).count();
            let tied = &records[at..at + length];
            match self.stamp(stamp, tied) {
                Err(stop) => return (stop, stamp, count),
                Ok(told) => count += put_replies(tied, told, &mut replies[4 * at..4 * (at + length)]),
            }
            at += length;
        }
        (0, 0, count)
    }

    /// Plays one stamp where all orders agree; the number of the stop where it can't be played.
    fn stamp(&mut self, stamp: u32, records: &[Record]) -> Result<(Replies, Replies), u32> {
        self.channels.take(records);
        if self.channels.crowded() {
            return Err(6);
        }
        let Channels { flash, eeprom, lines } = &self.channels;
        // A chip that no record of the stamp is for stays as it is.
        let plays_flash = !flash.is_empty() || !lines.is_empty();
        let plays_eeprom = !eeprom.is_empty() || !lines.is_empty();
        let mut told = ([Reply::Silent; MOST_BUS], [Reply::Silent; MOST_BUS]);
        if plays_flash {
            told.0 = self.flash.agreed(Tied { stamp, bus: flash, lines, before: self.lines }).ok_or(7_u32)?;
        }
        if plays_eeprom {
            told.1 = self.eeprom.agreed(Tied { stamp, bus: eeprom, lines, before: self.lines }).ok_or(7_u32)?;
        }
        if plays_flash && self.flash.first.is_lost() {
            return Err(8);
        }
        if plays_flash {
            swap(&mut self.flash.now, &mut self.flash.first);
        }
        if plays_eeprom {
            swap(&mut self.eeprom.now, &mut self.eeprom.first);
        }
        self.lines = lines.iter().fold(self.lines, |lines, &event| lines.after(event));
        Ok(told)
    }
}

/// Puts the replies of one stamp at their records' places; how many disagree.
fn put_replies(records: &[Record], told: (Replies, Replies), places: &mut [u8]) -> u32 {
    let mut flash = told.0.iter();
    let mut eeprom = told.1.iter();
    let mut count = 0;
    for (record, place) in records.iter().zip(places.chunks_exact_mut(4)) {
        let reply = match record.event {
            Event::Flash(_) => flash.next(),
            Event::Eeprom(_) => eeprom.next(),
            Event::Line(_) => None,
        };
        let bytes = reply.copied().unwrap_or(Reply::Silent).bytes(record.event);
        place.copy_from_slice(&bytes);
        count += u32::from(bytes[3] == DISAGREES);
    }
    count
}
