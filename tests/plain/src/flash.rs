//! The flash ("Flash rules", "Supply", its pages' times by request 1/12).

use crate::image::{Image, KEPT};
use crate::orders::Chip;
use crate::record::{FlashEvent, LineEvent, Lines, Reply};
use crate::times::{Time, FLASH_PAGES};
use std::mem::replace;

const PAGE: usize = 256;
const ADDRESSES: u32 = 0x2_0000;

const WPEN: u8 = 0x80;
const BP1: u8 = 0x08;
const BP0: u8 = 0x04;
const WRITE_ENABLE: u8 = 0x02;
const WRITTEN: u8 = WPEN | BP1 | BP0;

/// A page's bytes sent so far; ff, which programs nothing, where none was sent.
type Page = [u8; PAGE];

#[derive(Clone, Copy, PartialEq, Eq)]
enum Instruction {
    Wren,
    Wrdi,
    Rdsr,
    Wrsr,
    Read,
    Program,
    SectorErase,
    ChipErase,
    Rdid,
}

/// Whether the lock was on since `sel`; no fact where `sel` found WPEN 0 or a cycle.
#[derive(Clone, Copy, PartialEq, Eq)]
enum LockFact {
    Unknown,
    Free,
    Seen,
}

#[derive(Clone, Copy, PartialEq, Eq)]
enum Frame {
    Idle,
    Void,
    /// Selected, no byte yet.
    Selected(LockFact),
    Open(Open),
}

#[derive(Clone, Copy, PartialEq, Eq)]
struct Open {
    instruction: Instruction,
    lock: LockFact,
    /// How many bytes came, the op-code among them.
    sent: u32,
    address: u32,
    /// The second byte, for WRSR.
    status: u8,
    page: Page,
}

#[derive(Clone, Copy, PartialEq, Eq)]
enum Cycle {
    Program { address: u32, page: Page },
    SectorErase { sector: u8 },
    ChipErase,
    WriteStatus(u8),
}

#[derive(Clone, Copy, PartialEq, Eq)]
enum Status {
    Known(u8),
    Lost,
}

#[derive(Clone, Copy, PartialEq, Eq)]
pub struct Flash {
    watched: u8,
    status: Status,
    frame: Frame,
    cycle: Option<Cycle>,
    pub image: Image,
    pub times: [Time; FLASH_PAGES],
}

impl Chip for Flash {
    type Event = FlashEvent;

    fn bus(&mut self, event: FlashEvent, lines: Lines, stamp: u32) -> Reply {
        match event {
            FlashEvent::Sel => self.select(lines),
            FlashEvent::X { si, .. } => return self.exchange(si),
            FlashEvent::Cut => self.frame = Frame::Void,
            FlashEvent::Des => return self.deselect(),
            FlashEvent::End => return self.end(stamp),
        }
        Reply::Silent
    }

    fn line(&mut self, event: LineEvent, before: Lines, stamp: u32) {
        if before.falls(event) {
            self.lose_supply(stamp);
        }
        if event == LineEvent::Lock {
            self.see_lock();
        }
    }
}

impl Flash {
    pub fn at_start(status: u8, watched: u8) -> Flash {
        let status = Status::Known(status);
        Flash { watched, status, frame: Frame::Idle, cycle: None, image: Image::BLANK, times: [None; FLASH_PAGES] }
    }

    pub fn is_lost(&self) -> bool {
        self.status == Status::Lost
    }

    fn select(&mut self, lines: Lines) {
        let has_fact = self.has(WPEN) && self.cycle.is_none();
        self.frame = match (lines.supply, has_fact, lines.lock) {
            (false, _, _) => Frame::Void,
            (true, false, _) => Frame::Selected(LockFact::Unknown),
            (true, true, false) => Frame::Selected(LockFact::Free),
            (true, true, true) => Frame::Selected(LockFact::Seen),
        };
    }

    fn see_lock(&mut self) {
        match &mut self.frame {
            Frame::Selected(lock) | Frame::Open(Open { lock, .. }) if *lock == LockFact::Free => *lock = LockFact::Seen,
            _ => (),
        }
    }

    fn exchange(&mut self, si: u8) -> Reply {
        let in_cycle = self.cycle.is_some();
        match &mut self.frame {
            Frame::Idle | Frame::Void => Reply::Silent,
            Frame::Selected(lock) => {
                self.frame = opened(si, *lock, in_cycle);
                Reply::Silent
            }
            Frame::Open(open) => {
                open.take(si);
                match (open.instruction, open.sent) {
                    (Instruction::Rdsr, _) => self.status_reply(),
                    (Instruction::Rdid, 2) => Reply::Byte { value: 0x1f, mask: 0 },
                    (Instruction::Rdid, 3) => Reply::Byte { value: 0x60, mask: 0 },
                    (Instruction::Read, sent) if sent >= 5 => {
                        let address = (open.address + (sent - 5)) % ADDRESSES;
                        self.kept_reply(address)
                    }
                    _ => Reply::Silent,
                }
            }
        }
    }

    fn status_reply(&self) -> Reply {
        match (self.cycle.is_some(), self.status) {
            (true, _) => Reply::Byte { value: 0xff, mask: 0 },
            (false, Status::Known(value)) => Reply::Byte { value, mask: 0 },
            (false, Status::Lost) => Reply::Silent,
        }
    }

    fn kept_reply(&self, address: u32) -> Reply {
        if sector_of(address) != self.watched {
            return Reply::Silent;
        }
        let place = address as usize % KEPT;
        Reply::Byte { value: self.image.values[place], mask: self.image.masks[place] }
    }

    fn deselect(&mut self) -> Reply {
        let open = match replace(&mut self.frame, Frame::Idle) {
            Frame::Open(open) => open,
            _ => return Reply::Silent,
        };
        match (open.instruction, open.sent) {
            (Instruction::Wren, 1) => self.set_write_enable(true),
            (Instruction::Wrdi, 1) => self.set_write_enable(false),
            _ => {
                if let Some(cycle) = self.asked_cycle(&open) {
                    self.cycle = Some(cycle);
                    return Reply::Starts;
                }
            }
        }
        Reply::Silent
    }

    /// The cycle that a whole frame starts, where length, write enable and locks allow one.
    fn asked_cycle(&self, open: &Open) -> Option<Cycle> {
        if !self.has(WRITE_ENABLE) {
            return None;
        }
        let sector = sector_of(open.address);
        match (open.instruction, open.sent) {
            (Instruction::Wrsr, 2) if !self.has(WPEN) || open.lock == LockFact::Free => Some(Cycle::WriteStatus(open.status)),
            (Instruction::ChipErase, 1) if !self.locks_out(1) => Some(Cycle::ChipErase),
            (Instruction::SectorErase, 4) if !self.locks_out(sector) => Some(Cycle::SectorErase { sector }),
            (Instruction::Program, 5..) if !self.locks_out(sector) => {
                Some(Cycle::Program { address: open.address - open.address % PAGE as u32, page: open.page })
            }
            _ => None,
        }
    }

    fn end(&mut self, stamp: u32) -> Reply {
        match self.cycle.take() {
            None => return Reply::NoCycle,
            Some(Cycle::Program { address, page }) => {
                self.change_page(address, &page, stamp, |value, mask, sent| (value & sent, mask & sent))
            }
            Some(Cycle::SectorErase { sector }) => self.erase(sector == self.watched, stamp, (0xff, 0x00)),
            Some(Cycle::ChipErase) => self.erase(!self.locks_out(self.watched), stamp, (0xff, 0x00)),
            Some(Cycle::WriteStatus(byte)) => self.status = Status::Known(byte & WRITTEN),
        }
        self.set_write_enable(false);
        Reply::Ends
    }

    fn lose_supply(&mut self, stamp: u32) {
        match self.cycle.take() {
            None => (),
            Some(Cycle::Program { address, page }) => {
                self.change_page(address, &page, stamp, |value, mask, sent| (value & sent, mask | (value & !sent)))
            }
            Some(Cycle::SectorErase { sector }) => self.erase(sector == self.watched, stamp, (0x00, 0xff)),
            Some(Cycle::ChipErase) => self.erase(!self.locks_out(self.watched), stamp, (0x00, 0xff)),
            Some(Cycle::WriteStatus(_)) => self.status = Status::Lost,
        }
        self.set_write_enable(false);
        if self.frame != Frame::Idle {
            self.frame = Frame::Void;
        }
    }

    /// A program, whole or cut, where its page is watched.
    fn change_page(&mut self, address: u32, page: &Page, stamp: u32, change: impl Fn(u8, u8, u8) -> (u8, u8)) {
        if sector_of(address) != self.watched {
            return;
        }
        let first = address as usize % KEPT;
        let values = &mut self.image.values[first..first + PAGE];
        let masks = &mut self.image.masks[first..first + PAGE];
        for ((value, mask), sent) in values.iter_mut().zip(masks).zip(page) {
            let (new_value, new_mask) = change(*value, *mask, *sent);
            *value = new_value;
            *mask = new_mask;
        }
        self.times[first / PAGE] = Some(stamp);
    }

    /// An erase, whole or cut, where it reaches the watched sector.
    fn erase(&mut self, reached: bool, stamp: u32, (value, mask): (u8, u8)) {
        if reached {
            self.image.fill(value, mask);
            self.times.fill(Some(stamp));
        }
    }

    fn has(&self, bit: u8) -> bool {
        matches!(self.status, Status::Known(status) if status & bit != 0)
    }

    fn set_write_enable(&mut self, on: bool) {
        if let Status::Known(status) = &mut self.status {
            *status = *status & WRITTEN | if on { WRITE_ENABLE } else { 0 };
        }
    }

    fn locks_out(&self, sector: u8) -> bool {
        match (self.has(BP1), self.has(BP0)) {
            (false, false) => false,
            (false, true) => sector == 4,
            (true, false) => sector >= 3,
            (true, true) => true,
        }
    }
}

impl Open {
    /// One more byte after the op-code.
    fn take(&mut self, byte: u8) {
        match (self.instruction, self.sent) {
            (Instruction::Wrsr, 1) => self.status = byte,
            (Instruction::Read | Instruction::Program | Instruction::SectorErase, 1..=3) => {
                self.address = (self.address << 8 | u32::from(byte)) % ADDRESSES;
            }
            (Instruction::Program, sent) => {
                let place = (self.address + (sent - 4)) as usize % PAGE;
                self.page[place] = byte;
            }
            _ => (),
        }
        self.sent += 1;
    }
}

/// The frame after its first byte: in a cycle only RDSR is served.
fn opened(op_code: u8, lock: LockFact, in_cycle: bool) -> Frame {
    match instruction(op_code) {
        Some(instruction) if !in_cycle || instruction == Instruction::Rdsr => {
            Frame::Open(Open { instruction, lock, sent: 1, address: 0, status: 0, page: [0xff; PAGE] })
        }
        _ => Frame::Void,
    }
}

fn instruction(op_code: u8) -> Option<Instruction> {
    match op_code & 0b1111_0111 {
        0b0000_0110 => Some(Instruction::Wren),
        0b0000_0100 => Some(Instruction::Wrdi),
        0b0000_0101 => Some(Instruction::Rdsr),
        0b0000_0001 => Some(Instruction::Wrsr),
        0b0000_0011 => Some(Instruction::Read),
        0b0000_0010 => Some(Instruction::Program),
        0b0001_0101 => Some(Instruction::Rdid),
        0b0101_0010 => Some(Instruction::SectorErase),
        0b0110_0010 => Some(Instruction::ChipErase),
        _ => None,
    }
}

fn sector_of(address: u32) -> u8 {
    (address as usize / KEPT) as u8 + 1
}
