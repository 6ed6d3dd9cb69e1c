//! The flash ("Flash rules", "Supply"; its pages' times are request 1/12's).

use super::cells::{sent_from, Cells, Sent};
use super::kept::{rolled, Kept, KEPT};
use super::lines::Lines;
use super::record::{FlashEvent, LineEvent, Reply};
use super::times::{Times, FLASH_PAGES};

const PAGE: usize = 256;
const ADDRESSES: usize = 0x2_0000;

#[derive(Clone, Debug, PartialEq, Eq)]
pub enum Frame {
    Idle,
    Void,
    Open {
        /// Every byte sent since `sel`, the op-code first.
        sent: Vec<u8>,
        /// The lock fact: has the lock been on in this frame so far. None in frames begun with WPEN 0 or in a cycle.
        lock_seen: Option<bool>,
    },
}

#[derive(Clone, Debug, PartialEq, Eq)]
pub enum Cycle {
    Program { page: usize, data: Vec<Option<u8>> },
    SectorErase { sector: u8 },
    ChipErase,
    WriteStatus { byte: u8 },
}

#[derive(Clone, Copy, Debug, PartialEq, Eq)]
pub enum Status {
    Known { wpen: bool, bp1: bool, bp0: bool, write_enable: bool },
    Lost,
}

#[derive(Clone, Copy, Debug, PartialEq, Eq)]
pub enum Instruction {
    Wren,
    Wrdi,
    Rdsr,
    Wrsr,
    Read,
    Program,
    SectorErase,
    ChipErase,
    Rdid,
}

#[derive(Clone, Debug, PartialEq, Eq)]
pub struct Flash<C = Kept> {
    pub watched: u8,
    pub frame: Frame,
    pub cycle: Option<Cycle>,
    pub status: Status,
    pub kept: C,
    /// Of the watched sector's pages.
    pub times: Times,
}

impl Status {
    pub fn of_byte(byte: u8, write_enable: bool) -> Status {
        let bit = |number: u8| byte >> number & 1 == 1;
        Status::Known { wpen: bit(7), bp1: bit(3), bp0: bit(2), write_enable }
    }

    fn byte(self) -> Option<u8> {
        match self {
            Status::Known { wpen, bp1, bp0, write_enable } => {
                Some(u8::from(wpen) << 7 | u8::from(bp1) << 3 | u8::from(bp0) << 2 | u8::from(write_enable) << 1)
            }
            Status::Lost => None,
        }
    }

    fn with_write_enable(self, write_enable: bool) -> Status {
        match self {
            Status::Known { wpen, bp1, bp0, .. } => Status::Known { wpen, bp1, bp0, write_enable },
            Status::Lost => Status::Lost,
        }
    }

    fn wpen(self) -> bool {
        matches!(self, Status::Known { wpen: true, .. })
    }

    pub fn write_enabled(self) -> bool {
        matches!(self, Status::Known { write_enable: true, .. })
    }

    pub fn locks_out(self, sector: u8) -> bool {
        match self {
            Status::Known { bp1: false, bp0: false, .. } => false,
            Status::Known { bp1: false, bp0: true, .. } => sector == 4,
            Status::Known { bp1: true, bp0: false, .. } => sector >= 3,
            Status::Known { bp1: true, bp0: true, .. } => true,
            Status::Lost => true,
        }
    }
}

fn instruction(op_code: u8) -> Option<Instruction> {
    match op_code & 0b1111_0111 {
        0b0000_0110 => Some(Instruction::Wren),
        0b0000_0100 => Some(Instruction::Wrdi),
        0b0000_0101 => Some(Instruction::Rdsr),
        0b0000_0001 => Some(Instruction::Wrsr),
        0b0000_0011 => Some(Instruction::Read),
        0b0000_0010 => Some(Instruction::Program),
        0b0101_0010 => Some(Instruction::SectorErase),
        0b0110_0010 => Some(Instruction::ChipErase),
        0b0001_0101 => Some(Instruction::Rdid),
        _ => None,
    }
}

/// The address that a frame's second to fourth byte give; the bits above A16 do not count.
fn address(sent: &[u8]) -> usize {
    (usize::from(sent[1]) << 16 | usize::from(sent[2]) << 8 | usize::from(sent[3])) % ADDRESSES
}

fn sector_of(address: usize) -> u8 {
    (address / KEPT) as u8 + 1
}

impl<C: Cells> Flash<C> {
    pub fn at_start(status: u8, watched: u8, kept: C) -> Flash<C> {
        let times = vec![None; FLASH_PAGES];
        Flash { watched, frame: Frame::Idle, cycle: None, status: Status::of_byte(status, false), kept, times }
    }

    pub fn bus(&mut self, event: FlashEvent, lines: Lines, stamp: u32) -> Reply {
        match event {
            FlashEvent::Sel => self.select(lines),
            FlashEvent::X { si, .. } => self.exchange(si),
            FlashEvent::Cut => self.cut(),
            FlashEvent::Des => self.deselect(),
            FlashEvent::End => self.end(stamp),
        }
    }

    /// A line record; `before` are the lines as it finds them.
    pub fn line(&mut self, event: LineEvent, before: Lines, stamp: u32) {
        match event {
            LineEvent::Off if before.supply => self.lose_supply(stamp),
            LineEvent::Lock if !before.lock => self.see_lock(),
            _ => (),
        }
    }

    fn select(&mut self, lines: Lines) -> Reply {
        self.frame = if lines.supply {
            let has_fact = self.status.wpen() && self.cycle.is_none();
            let lock_seen = if has_fact { Some(lines.lock) } else { None };
            Frame::Open { sent: Vec::new(), lock_seen }
        } else {
            Frame::Void
        };
        Reply::Silent
    }

    fn exchange(&mut self, si: u8) -> Reply {
        let is_op_code = match &mut self.frame {
            Frame::Open { sent, .. } => {
                sent.push(si);
                sent.len() == 1
            }
            Frame::Idle | Frame::Void => return Reply::Silent,
        };
        if is_op_code {
            self.judge_op_code(si);
            return Reply::Silent;
        }
        self.reply_in_frame()
    }

    /// A frame is void from an unknown op-code on, and in a cycle from any but RDSR's.
    fn judge_op_code(&mut self, op_code: u8) {
        let served = match instruction(op_code) {
            Some(Instruction::Rdsr) => true,
            Some(_) => self.cycle.is_none(),
            None => false,
        };
        if !served {
            self.frame = Frame::Void;
        }
    }

    /// The reply to the last byte of an open frame that has gone past its op-code.
    fn reply_in_frame(&self) -> Reply {
        let sent = match &self.frame {
            Frame::Open { sent, .. } => sent,
            Frame::Idle | Frame::Void => return Reply::Silent,
        };
        match instruction(sent[0]) {
            Some(Instruction::Rdsr) => self.status_reply(),
            Some(Instruction::Rdid) => id_reply(sent.len()),
            Some(Instruction::Read) if sent.len() > 4 => self.kept_reply((address(sent) + sent.len() - 5) % ADDRESSES),
            _ => Reply::Silent,
        }
    }

    fn status_reply(&self) -> Reply {
        match (&self.cycle, self.status.byte()) {
            (Some(_), _) => Reply::Byte { value: 0xff, mask: 0 },
            (None, Some(value)) => Reply::Byte { value, mask: 0 },
            (None, None) => Reply::Silent,
        }
    }

    fn kept_reply(&self, address: usize) -> Reply {
        if sector_of(address) != self.watched {
            return Reply::Silent;
        }
        self.kept.read(address % KEPT)
    }

    fn cut(&mut self) -> Reply {
        self.frame = Frame::Void;
        Reply::Silent
    }

    fn deselect(&mut self) -> Reply {
        let frame = std::mem::replace(&mut self.frame, Frame::Idle);
        let (sent, lock_seen) = match frame {
            Frame::Open { sent, lock_seen } => (sent, lock_seen),
            Frame::Idle | Frame::Void => return Reply::Silent,
        };
        let instruction = match sent.first() {
            Some(&op_code) => instruction(op_code),
            None => None,
        };
        match (instruction, sent.len()) {
            (Some(Instruction::Wren), 1) => self.status = self.status.with_write_enable(true),
            (Some(Instruction::Wrdi), 1) => self.status = self.status.with_write_enable(false),
            (Some(instruction), _) => return self.start(self.asked_cycle(instruction, &sent, lock_seen)),
            (None, _) => (),
        }
        Reply::Silent
    }

    fn start(&mut self, cycle: Option<Cycle>) -> Reply {
        if cycle.is_none() || !self.status.write_enabled() {
            return Reply::Silent;
        }
        self.cycle = cycle;
        Reply::Starts
    }

    /// The cycle a whole frame asks for, where length and locks allow it.
    fn asked_cycle(&self, instruction: Instruction, sent: &[u8], lock_seen: Option<bool>) -> Option<Cycle> {
        match (instruction, sent.len()) {
            (Instruction::Wrsr, 2) => self.asked_write_status(sent[1], lock_seen),
            (Instruction::ChipErase, 1) => self.asked_chip_erase(),
            (Instruction::SectorErase, 4) => self.asked_sector_erase(address(sent)),
            (Instruction::Program, length) if length >= 5 => self.asked_program(address(sent), &sent[4..]),
            _ => None,
        }
    }

    fn asked_write_status(&self, byte: u8, lock_seen: Option<bool>) -> Option<Cycle> {
        if self.status.wpen() && lock_seen != Some(false) {
            return None;
        }
        Some(Cycle::WriteStatus { byte })
    }

    fn asked_chip_erase(&self) -> Option<Cycle> {
        if (1..=4).all(|sector| self.status.locks_out(sector)) {
            return None;
        }
        Some(Cycle::ChipErase)
    }

    fn asked_sector_erase(&self, address: usize) -> Option<Cycle> {
        let sector = sector_of(address);
        if self.status.locks_out(sector) {
            return None;
        }
        Some(Cycle::SectorErase { sector })
    }

    fn asked_program(&self, address: usize, data: &[u8]) -> Option<Cycle> {
        if self.status.locks_out(sector_of(address)) {
            return None;
        }
        Some(Cycle::Program { page: address / PAGE, data: rolled(address % PAGE, data, PAGE) })
    }

    fn end(&mut self, stamp: u32) -> Reply {
        let cycle = match self.cycle.take() {
            Some(cycle) => cycle,
            None => return Reply::NoCycle,
        };
        self.touch(&cycle, stamp);
        match cycle {
            Cycle::Program { page, data } => self.kept.program(&self.sent_to_watched(page, &data)),
            Cycle::SectorErase { .. } | Cycle::ChipErase => {
                if self.erases_watched(&cycle) {
                    self.kept.erase();
                }
            }
            Cycle::WriteStatus { byte } => self.status = Status::of_byte(byte, false),
        }
        self.status = self.status.with_write_enable(false);
        Reply::Ends
    }

    /// The supply goes: a cycle is cut, and all that lives outside the cells is gone.
    fn lose_supply(&mut self, stamp: u32) {
        if let Some(cycle) = self.cycle.take() {
            self.touch(&cycle, stamp);
            self.cut_cycle(cycle);
        }
        self.status = self.status.with_write_enable(false);
        if self.frame != Frame::Idle {
            self.frame = Frame::Void;
        }
    }

    fn cut_cycle(&mut self, cycle: Cycle) {
        match cycle {
            Cycle::Program { page, data } => self.kept.cut_program(&self.sent_to_watched(page, &data)),
            Cycle::SectorErase { .. } | Cycle::ChipErase => {
                if self.erases_watched(&cycle) {
                    self.kept.cut_erase();
                }
            }
            Cycle::WriteStatus { .. } => self.status = Status::Lost,
        }
    }

    fn erases_watched(&self, cycle: &Cycle) -> bool {
        match cycle {
            Cycle::SectorErase { sector } => *sector == self.watched,
            Cycle::ChipErase => !self.status.locks_out(self.watched),
            Cycle::Program { .. } | Cycle::WriteStatus { .. } => false,
        }
    }

    /// The watched sector's pages that a cycle writes: a program its own, even if no bit changes, an erase every one.
    fn touch(&mut self, cycle: &Cycle, stamp: u32) {
        match cycle {
            Cycle::Program { page, .. } => {
                if sector_of(page * PAGE) == self.watched {
                    self.times[page % FLASH_PAGES] = Some(stamp);
                }
            }
            Cycle::SectorErase { .. } | Cycle::ChipErase => {
                if self.erases_watched(cycle) {
                    self.times = vec![Some(stamp); FLASH_PAGES];
                }
            }
            Cycle::WriteStatus { .. } => (),
        }
    }

    /// What a program sends to bytes that are kept: none outside the watched sector.
    fn sent_to_watched(&self, page: usize, data: &[Option<u8>]) -> Vec<Sent> {
        let first = page * PAGE;
        if sector_of(first) != self.watched {
            return Vec::new();
        }
        sent_from(first % KEPT, data)
    }

    fn see_lock(&mut self) {
        if let Frame::Open { lock_seen: Some(seen), .. } = &mut self.frame {
            *seen = true;
        }
    }
}

fn id_reply(length: usize) -> Reply {
    match length {
        2 => Reply::Byte { value: 0x1f, mask: 0 },
        3 => Reply::Byte { value: 0x60, mask: 0 },
        _ => Reply::Silent,
    }
}
