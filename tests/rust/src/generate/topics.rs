//! Frames for traces that are about one thing each: programs, erases, status writes, reads, polling.

use super::eeprom_frames::{opened_write, sent};
use super::flash_frames::{address_bytes, frame_of, Places};
use super::random::Random;
use crate::model::eeprom::Eeprom;
use crate::model::flash::Flash;
use crate::model::record::{EepromEvent, FlashEvent};

const RDSR: u8 = 0x05;
pub const WREN: u8 = 0x06;
pub const WRSR: u8 = 0x01;
pub const READ: u8 = 0x03;
pub const PROGRAM: u8 = 0x02;
pub const SECTOR_ERASE: u8 = 0x52;
pub const CHIP_ERASE: u8 = 0x62;

/// WREN, then the instruction, then RDSR in the cycle (so many of a hundred times) or its end.
fn written(
    random: &mut Random,
    flash: &Flash,
    polls: usize,
    instruction: impl FnOnce(&mut Random) -> Vec<u8>,
) -> Vec<FlashEvent> {
    if flash.cycle.is_some() {
        return if random.percent(polls) { polled(random) } else { vec![FlashEvent::End] };
    }
    if !flash.status.write_enabled() {
        return frame_of(&[WREN]);
    }
    frame_of(&instruction(random))
}

/// RDSR with some bytes of status.
fn polled(random: &mut Random) -> Vec<FlashEvent> {
    let mut sent = vec![RDSR];
    sent.resize(random.between(2, 12), 0);
    frame_of(&sent)
}

fn with_address(random: &mut Random, places: &Places, op_code: u8, data: usize) -> Vec<u8> {
    let mut sent = vec![op_code];
    sent.extend(address_bytes(random, places));
    sent.extend(random.bytes(data));
    sent
}

fn read(random: &mut Random, places: &Places) -> Vec<FlashEvent> {
    let length = random.between(1, 40);
    let sent = with_address(random, places, READ, length);
    frame_of(&sent)
}

/// Whole pages now and then, some a little longer than a page.
fn program(random: &mut Random, places: &Places) -> Vec<u8> {
    let length = random.pick(&[4, 16, 64, 256, 260]);
    with_address(random, places, PROGRAM, length)
}

pub fn flash_reads(random: &mut Random, flash: &Flash, places: &Places) -> Vec<FlashEvent> {
    if flash.cycle.is_none() && random.percent(90) {
        return read(random, places);
    }
    written(random, flash, 0, |random| with_address(random, places, PROGRAM, 8))
}

pub fn programs(random: &mut Random, flash: &Flash, places: &Places) -> Vec<FlashEvent> {
    if flash.cycle.is_none() && random.percent(10) {
        return read(random, places);
    }
    written(random, flash, 20, |random| program(random, places))
}

/// Erases of sectors and of the chip, with a PROGRAM and a READ between them.
pub fn erases(random: &mut Random, flash: &Flash, places: &Places) -> Vec<FlashEvent> {
    if flash.cycle.is_none() && random.percent(10) {
        return read(random, places);
    }
    written(random, flash, 20, |random| match random.below(10) {
        0..=5 => with_address(random, places, SECTOR_ERASE, 0),
        6 | 7 => vec![CHIP_ERASE],
        _ => with_address(random, places, PROGRAM, 4),
    })
}

pub fn status_writes(random: &mut Random, flash: &Flash, _places: &Places) -> Vec<FlashEvent> {
    if flash.cycle.is_none() && random.percent(20) {
        return polled(random);
    }
    written(random, flash, 20, |random| vec![WRSR, random.pick(&[0x00, 0x00, 0x04, 0x08, 0x0c, 0x80])])
}

pub fn status_polls(random: &mut Random, flash: &Flash, places: &Places) -> Vec<FlashEvent> {
    written(random, flash, 95, |random| with_address(random, places, PROGRAM, 4))
}

fn own_address(eeprom: &Eeprom) -> u8 {
    0xa0 | eeprom.wired << 1
}

/// A read from a place, to the master's not-acknowledge.
fn read_from(random: &mut Random, eeprom: &Eeprom, places: &Places) -> Vec<EepromEvent> {
    let own = own_address(eeprom);
    let mut frame = opened_write(random, own, places);
    frame.extend([EepromEvent::Sta, sent(own | 1)]);
    frame.extend(vec![sent(0); random.between(0, 40)]);
    frame.extend([EepromEvent::B { byte: 0, not_acknowledged: true }, EepromEvent::Sto]);
    frame
}

fn page_write(random: &mut Random, eeprom: &Eeprom, places: &Places) -> Vec<EepromEvent> {
    let mut frame = opened_write(random, own_address(eeprom), places);
    let length = random.pick(&[1, 4, 16, 64, 66]);
    frame.extend(random.bytes(length).into_iter().map(sent));
    frame.push(EepromEvent::Sto);
    frame
}

pub fn eeprom_reads(random: &mut Random, eeprom: &Eeprom, places: &Places) -> Vec<EepromEvent> {
    if eeprom.cycle.is_some() {
        return vec![EepromEvent::End];
    }
    if random.percent(90) {
        return read_from(random, eeprom, places);
    }
    page_write(random, eeprom, places)
}

pub fn page_writes(random: &mut Random, eeprom: &Eeprom, places: &Places) -> Vec<EepromEvent> {
    if eeprom.cycle.is_some() {
        return vec![EepromEvent::End];
    }
    if random.percent(20) {
        return read_from(random, eeprom, places);
    }
    page_write(random, eeprom, places)
}

/// A write, then the chip's address again and again till it is acknowledged.
pub fn address_polls(random: &mut Random, eeprom: &Eeprom, places: &Places) -> Vec<EepromEvent> {
    if eeprom.cycle.is_none() {
        return page_write(random, eeprom, places);
    }
    if random.percent(95) {
        return vec![EepromEvent::Sta, sent(own_address(eeprom)), EepromEvent::Sto];
    }
    vec![EepromEvent::End]
}
