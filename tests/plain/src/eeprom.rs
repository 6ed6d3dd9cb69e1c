//! The EEPROM ("EEPROM rules", "Supply" with request 3/12, its pages' times by request 1/12).

use crate::image::{Image, KEPT};
use crate::orders::Chip;
use crate::record::{EepromEvent, LineEvent, Lines, Reply};
use crate::times::{Time, EEPROM_PAGES};
use std::ops::Range;

const PAGE: u16 = 64;
const PLACES: u16 = KEPT as u16;

/// Data for one page: the bytes, and a bit for each place that was sent.
#[derive(Clone, Copy, PartialEq, Eq)]
struct Data {
    bytes: [u8; PAGE as usize],
    sent: u64,
}

#[derive(Clone, Copy, PartialEq, Eq)]
enum Frame {
    Idle,
    Void,
    /// The address byte is still to come; whether the `sta` came in a cycle.
    Started {
        in_cycle: bool,
    },
    /// Addressed for a write; no place yet, or its high byte alone.
    Writing,
    WritingFrom {
        high: u8,
    },
    /// The place is known; `next` is where the next byte goes.
    Filling {
        next: u16,
        data: Data,
    },
    Reading,
}

#[derive(Clone, Copy, PartialEq, Eq)]
struct Cycle {
    page: u16,
    data: Data,
}

#[derive(Clone, Copy, PartialEq, Eq)]
pub struct Eeprom {
    address: u8,
    frame: Frame,
    cycle: Option<Cycle>,
    /// None where it is lost.
    counter: Option<u16>,
    pub image: Image,
    pub times: [Time; EEPROM_PAGES],
}

impl Cycle {
    /// The places of its page in the image.
    fn places(&self) -> Range<usize> {
        let first = usize::from(self.page * PAGE);
        first..first + usize::from(PAGE)
    }
}

impl Chip for Eeprom {
    type Event = EepromEvent;

    fn bus(&mut self, event: EepromEvent, lines: Lines, stamp: u32) -> Reply {
        match event {
            EepromEvent::Sta if lines.supply => self.frame = Frame::Started { in_cycle: self.cycle.is_some() },
            EepromEvent::Sta | EepromEvent::Cut => self.frame = Frame::Void,
            EepromEvent::B { byte, nak } => return self.byte(byte, nak),
            EepromEvent::Sto => return self.stop(lines),
            EepromEvent::End => return self.end(stamp),
        }
        Reply::Silent
    }

    fn line(&mut self, event: LineEvent, before: Lines, stamp: u32) {
        if before.falls(event) {
            self.lose_supply(stamp);
        }
    }
}

impl Eeprom {
    pub fn at_start(address: u8) -> Eeprom {
        Eeprom { address, frame: Frame::Idle, cycle: None, counter: None, image: Image::BLANK, times: [None; EEPROM_PAGES] }
    }

    fn byte(&mut self, byte: u8, nak: bool) -> Reply {
        match &mut self.frame {
            Frame::Idle | Frame::Void => return Reply::Silent,
            Frame::Started { in_cycle } => {
                let in_cycle = *in_cycle;
                return self.addressed(byte, in_cycle);
            }
            Frame::Writing => self.frame = Frame::WritingFrom { high: byte },
            Frame::WritingFrom { high } => {
                let place = u16::from_be_bytes([*high, byte]) % PLACES;
                self.frame = Frame::Filling { next: place, data: Data { bytes: [0; PAGE as usize], sent: 0 } };
                self.counter = Some(place);
            }
            Frame::Filling { next, data } => {
                data.bytes[usize::from(*next % PAGE)] = byte;
                data.sent |= 1 << (*next % PAGE);
                *next = *next / PAGE * PAGE + (*next + 1) % PAGE;
                self.counter = Some(*next);
            }
            Frame::Reading => return self.read(nak),
        }
        Reply::Ack
    }

    fn addressed(&mut self, byte: u8, in_cycle: bool) -> Reply {
        let own = byte >> 1 == 0b101_0000 | self.address;
        let (frame, reply) = match (own, in_cycle, byte & 1) {
            (false, _, _) => (Frame::Void, Reply::Silent),
            (true, true, _) => (Frame::Void, Reply::NoAck),
            (true, false, 0) => (Frame::Writing, Reply::Ack),
            (true, false, _) => (Frame::Reading, Reply::Ack),
        };
        self.frame = frame;
        reply
    }

    fn read(&mut self, nak: bool) -> Reply {
        if nak {
            self.frame = Frame::Void;
        }
        match self.counter {
            None => Reply::Silent,
            Some(counter) => {
                self.counter = Some((counter + 1) % PLACES);
                let place = usize::from(counter);
                Reply::Byte { value: self.image.values[place], mask: self.image.masks[place] }
            }
        }
    }

    fn stop(&mut self, lines: Lines) -> Reply {
        let mut reply = Reply::Silent;
        if let Frame::Filling { next, data } = self.frame {
            if data.sent != 0 && !lines.lock {
                self.cycle = Some(Cycle { page: next / PAGE, data });
                reply = Reply::Starts;
            }
        }
        self.frame = Frame::Idle;
        reply
    }

    fn end(&mut self, stamp: u32) -> Reply {
        match self.finished(stamp) {
            None => Reply::NoCycle,
            Some(cycle) => {
                self.store(&cycle);
                Reply::Ends
            }
        }
    }

    fn lose_supply(&mut self, stamp: u32) {
        if let Some(cycle) = self.finished(stamp) {
            // The whole page, whatever was sent of it (request 3/12).
            let page = cycle.places();
            self.image.values[page.clone()].fill(0x00);
            self.image.masks[page].fill(0xff);
        }
        self.counter = None;
        if self.frame != Frame::Idle {
            self.frame = Frame::Void;
        }
    }

    /// The cycle, where one runs, over in one way or the other: its page has this time.
    fn finished(&mut self, stamp: u32) -> Option<Cycle> {
        let cycle = self.cycle.take()?;
        self.times[usize::from(cycle.page)] = Some(stamp);
        Some(cycle)
    }

    /// The bytes sent, and no others.
    fn store(&mut self, cycle: &Cycle) {
        for (offset, place) in cycle.places().enumerate() {
            if cycle.data.sent >> offset & 1 == 1 {
                self.image.values[place] = cycle.data.bytes[offset];
                self.image.masks[place] = 0x00;
            }
        }
    }
}
