//! EEPROM frames: reads, page writes, acknowledge polling, and what goes wrong on a bus.

use super::flash_frames::{data_length, Places};
use super::random::Random;
use crate::model::eeprom::Eeprom;
use crate::model::record::EepromEvent;

#[derive(Clone, Copy)]
enum Kind {
    RandomRead,
    CurrentRead,
    PageWrite,
    Poll,
    OtherAddress,
    PartAddress,
    DroppedWrite,
    ReadPastNak,
    StaSto,
    End,
    EndAfterSta,
    Cut,
}

const IN_CYCLE: [(usize, Kind); 8] = [
    (42, Kind::End),
    (28, Kind::Poll),
    (12, Kind::EndAfterSta),
    (6, Kind::CurrentRead),
    (4, Kind::OtherAddress),
    (4, Kind::PageWrite),
    (2, Kind::StaSto),
    (2, Kind::Cut),
];

const READY: [(usize, Kind); 11] = [
    (28, Kind::RandomRead),
    (14, Kind::CurrentRead),
    (36, Kind::PageWrite),
    (3, Kind::OtherAddress),
    (4, Kind::PartAddress),
    (4, Kind::DroppedWrite),
    (4, Kind::ReadPastNak),
    (2, Kind::StaSto),
    (2, Kind::End),
    (3, Kind::Cut),
    (1, Kind::Poll),
];

/// Makes the events that go over the bus next, by the chip's state.
pub type EepromFrames = fn(&mut Random, &Eeprom, &Places) -> Vec<EepromEvent>;

pub fn next_frame(random: &mut Random, eeprom: &Eeprom, places: &Places) -> Vec<EepromEvent> {
    let kind = if eeprom.cycle.is_some() { random.weighted(&IN_CYCLE) } else { random.weighted(&READY) };
    let own = 0xa0 | eeprom.wired << 1;
    match kind {
        Kind::End => vec![EepromEvent::End],
        Kind::RandomRead => random_read(random, own, places),
        Kind::CurrentRead => current_read(random, own),
        Kind::PageWrite => page_write(random, own, places),
        Kind::Poll => poll(random, own),
        Kind::OtherAddress => other_address(random, own),
        Kind::PartAddress => part_address(random, own, places),
        Kind::DroppedWrite => dropped_write(random, own, places),
        Kind::ReadPastNak => read_past_nak(random, own),
        Kind::StaSto => vec![EepromEvent::Sta, EepromEvent::Sto],
        Kind::EndAfterSta => end_after_sta(random, own),
        Kind::Cut => cut(random, own, places),
    }
}

pub fn sent(byte: u8) -> EepromEvent {
    EepromEvent::B { byte, not_acknowledged: false }
}

fn address_bytes(random: &mut Random, places: &Places) -> [u8; 2] {
    let near = random.below(4);
    let place = match random.below(10) {
        0..=5 => random.pick(&places.hot),
        6 => 0x3f - near,
        7 => 0x7fff - near,
        8 => random.below(512) * 64 + 63 - near,
        _ => random.below(0x8000),
    };
    let ignored = if random.percent(25) { 0x80 } else { 0 };
    [(place >> 8) as u8 | ignored, place as u8]
}

pub fn opened_write(random: &mut Random, own: u8, places: &Places) -> Vec<EepromEvent> {
    let mut frame = vec![EepromEvent::Sta, sent(own)];
    frame.extend(address_bytes(random, places).map(sent));
    frame
}

/// Reads to the master's not-acknowledge, which now and then is left out.
fn reads(random: &mut Random) -> Vec<EepromEvent> {
    let length = random.between(1, 8);
    let mut bytes = vec![sent(0); length];
    if !random.percent(10) {
        bytes[length - 1] = EepromEvent::B { byte: 0, not_acknowledged: true };
    }
    bytes
}

fn current_read(random: &mut Random, own: u8) -> Vec<EepromEvent> {
    let mut frame = vec![EepromEvent::Sta, sent(own | 1)];
    frame.extend(reads(random));
    frame.push(EepromEvent::Sto);
    frame
}

fn random_read(random: &mut Random, own: u8, places: &Places) -> Vec<EepromEvent> {
    let mut frame = opened_write(random, own, places);
    frame.extend(current_read(random, own));
    frame
}

fn data(random: &mut Random, places: &Places) -> Vec<EepromEvent> {
    let length = data_length(random, places.long_pages, 64);
    random.bytes(length).into_iter().map(sent).collect()
}

fn page_write(random: &mut Random, own: u8, places: &Places) -> Vec<EepromEvent> {
    let mut frame = opened_write(random, own, places);
    frame.extend(data(random, places));
    frame.push(EepromEvent::Sto);
    frame
}

fn poll(random: &mut Random, own: u8) -> Vec<EepromEvent> {
    let mut frame = vec![EepromEvent::Sta, sent(own | random.pick(&[0, 0, 1]))];
    if random.percent(20) {
        frame.push(sent(random.byte()));
    }
    if random.percent(60) {
        frame.push(EepromEvent::Sto);
    }
    frame
}

fn other_address(random: &mut Random, own: u8) -> Vec<EepromEvent> {
    let other = random.pick(&[own ^ 0x02, own ^ 0x08, own ^ 0x10, own ^ 0x80, 0x00, 0xff]);
    let mut frame = vec![EepromEvent::Sta, sent(other)];
    frame.extend(random.bytes(3).into_iter().map(sent));
    frame.push(EepromEvent::Sto);
    frame
}

/// Fewer than two address bytes, or no data: nothing may start.
fn part_address(random: &mut Random, own: u8, places: &Places) -> Vec<EepromEvent> {
    let mut frame = opened_write(random, own, places);
    frame.truncate(random.between(1, 4));
    if random.percent(50) {
        frame.push(EepromEvent::Sto);
    } else {
        frame.extend(current_read(random, own));
    }
    frame
}

fn dropped_write(random: &mut Random, own: u8, places: &Places) -> Vec<EepromEvent> {
    let mut frame = opened_write(random, own, places);
    frame.extend(data(random, places));
    frame.extend(current_read(random, own));
    frame
}

fn read_past_nak(random: &mut Random, own: u8) -> Vec<EepromEvent> {
    let mut frame = vec![EepromEvent::Sta, sent(own | 1)];
    let nak = EepromEvent::B { byte: 0, not_acknowledged: true };
    frame.extend([sent(0), nak, sent(random.byte()), sent(random.byte())]);
    if random.percent(70) {
        frame.push(EepromEvent::Sto);
    }
    frame
}

fn end_after_sta(random: &mut Random, own: u8) -> Vec<EepromEvent> {
    let mut frame = poll(random, own);
    frame.insert(random.between(1, frame.len()), EepromEvent::End);
    frame
}

fn cut(random: &mut Random, own: u8, places: &Places) -> Vec<EepromEvent> {
    let mut frame = page_write(random, own, places);
    frame.truncate(random.between(1, frame.len() - 1));
    frame.push(EepromEvent::Cut);
    if random.percent(30) {
        frame.push(EepromEvent::End);
    }
    if random.percent(60) {
        frame.push(EepromEvent::Sto);
    }
    frame
}
