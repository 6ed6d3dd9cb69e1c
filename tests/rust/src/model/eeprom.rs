//! The EEPROM ("EEPROM rules", "Supply" with request 3/12; its pages' times are request 1/12's).

use super::cells::{sent_from, Cells};
use super::kept::{rolled, Kept};
use super::lines::Lines;
use super::record::{EepromEvent, LineEvent, Reply};
use super::times::{Times, EEPROM_PAGES};

const PAGE: u16 = 64;
const PLACES: u16 = 0x8000;

#[derive(Clone, Debug, PartialEq, Eq)]
pub enum Frame {
    Idle,
    Void,
    /// The address byte is still to come; whether the `sta` came in a cycle.
    Addressing {
        sta_in_cycle: bool,
    },
    /// The bytes after the address byte: two of the place, then data.
    Writing {
        sent: Vec<u8>,
    },
    Reading,
}

#[derive(Clone, Debug, PartialEq, Eq)]
pub struct Cycle {
    pub page: u16,
    pub data: Vec<Option<u8>>,
}

#[derive(Clone, Debug, PartialEq, Eq)]
pub struct Eeprom<C = Kept> {
    pub wired: u8,
    pub frame: Frame,
    pub cycle: Option<Cycle>,
    /// None is a lost counter.
    pub counter: Option<u16>,
    pub kept: C,
    pub times: Times,
}

fn place_sent(sent: &[u8]) -> u16 {
    (u16::from(sent[0]) << 8 | u16::from(sent[1])) % PLACES
}

impl<C: Cells> Eeprom<C> {
    pub fn at_start(wired: u8, kept: C) -> Eeprom<C> {
        Eeprom { wired, frame: Frame::Idle, cycle: None, counter: None, kept, times: vec![None; EEPROM_PAGES] }
    }

    pub fn bus(&mut self, event: EepromEvent, lines: Lines, stamp: u32) -> Reply {
        match event {
            EepromEvent::Sta => self.start_frame(lines),
            EepromEvent::B { byte, not_acknowledged } => self.byte(byte, not_acknowledged),
            EepromEvent::Cut => self.cut(),
            EepromEvent::Sto => self.stop(lines),
            EepromEvent::End => self.end(stamp),
        }
    }

    /// A line record; `before` are the lines as it finds them. The lock is asked for at `sto` alone.
    pub fn line(&mut self, event: LineEvent, before: Lines, stamp: u32) {
        if event == LineEvent::Off && before.supply {
            self.lose_supply(stamp);
        }
    }

    fn start_frame(&mut self, lines: Lines) -> Reply {
        self.frame = if lines.supply { Frame::Addressing { sta_in_cycle: self.cycle.is_some() } } else { Frame::Void };
        Reply::Silent
    }

    fn byte(&mut self, byte: u8, not_acknowledged: bool) -> Reply {
        match self.frame {
            Frame::Idle | Frame::Void => Reply::Silent,
            Frame::Addressing { sta_in_cycle } => self.address_byte(byte, sta_in_cycle),
            Frame::Writing { .. } => self.write_byte(byte),
            Frame::Reading => self.read_byte(not_acknowledged),
        }
    }

    fn address_byte(&mut self, byte: u8, sta_in_cycle: bool) -> Reply {
        if byte & 0b1111_1110 != 0b1010_0000 | self.wired << 1 {
            self.frame = Frame::Void;
            return Reply::Silent;
        }
        if sta_in_cycle {
            self.frame = Frame::Void;
            return Reply::NoAck;
        }
        self.frame = if byte & 1 == 1 { Frame::Reading } else { Frame::Writing { sent: Vec::new() } };
        Reply::Ack
    }

    fn write_byte(&mut self, byte: u8) -> Reply {
        if let Frame::Writing { sent } = &mut self.frame {
            sent.push(byte);
            if sent.len() >= 2 {
                let place = place_sent(sent);
                let taken = (sent.len() - 2) as u16;
                self.counter = Some(place / PAGE * PAGE + (place % PAGE + taken) % PAGE);
            }
        }
        Reply::Ack
    }

    fn read_byte(&mut self, not_acknowledged: bool) -> Reply {
        if not_acknowledged {
            self.frame = Frame::Void;
        }
        match self.counter {
            Some(counter) => {
                self.counter = Some((counter + 1) % PLACES);
                self.kept.read(usize::from(counter))
            }
            None => Reply::Silent,
        }
    }

    fn cut(&mut self) -> Reply {
        self.frame = Frame::Void;
        Reply::Silent
    }

    fn stop(&mut self, lines: Lines) -> Reply {
        let frame = std::mem::replace(&mut self.frame, Frame::Idle);
        match frame {
            Frame::Writing { sent } if sent.len() > 2 && !lines.lock => {
                let place = place_sent(&sent);
                let data = rolled(usize::from(place % PAGE), &sent[2..], usize::from(PAGE));
                self.cycle = Some(Cycle { page: place / PAGE, data });
                Reply::Starts
            }
            _ => Reply::Silent,
        }
    }

    fn end(&mut self, stamp: u32) -> Reply {
        match self.cycle.take() {
            Some(cycle) => {
                self.kept.store(&sent_from(usize::from(cycle.page * PAGE), &cycle.data));
                self.times[usize::from(cycle.page)] = Some(stamp);
                Reply::Ends
            }
            None => Reply::NoCycle,
        }
    }

    fn lose_supply(&mut self, stamp: u32) {
        if let Some(cycle) = self.cycle.take() {
            let first = usize::from(cycle.page * PAGE);
            self.kept.cut_page(first..first + usize::from(PAGE));
            self.times[usize::from(cycle.page)] = Some(stamp);
        }
        self.counter = None;
        if self.frame != Frame::Idle {
            self.frame = Frame::Void;
        }
    }
}
