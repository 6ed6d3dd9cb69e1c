//! Flash frames as a programmer would send them, and some that no one should.

use super::random::Random;
use crate::model::flash::Flash;
use crate::model::record::FlashEvent;

#[derive(Clone, Copy)]
enum Kind {
    Wren,
    Wrdi,
    Rdsr,
    Wrsr,
    Read,
    Program,
    SectorErase,
    ChipErase,
    Rdid,
    OtherOpCode,
    Empty,
    End,
    EndAfterSel,
}

const IN_CYCLE: [(usize, Kind); 8] = [
    (40, Kind::End),
    (28, Kind::Rdsr),
    (10, Kind::EndAfterSel),
    (8, Kind::Read),
    (4, Kind::Wren),
    (4, Kind::Program),
    (3, Kind::Rdid),
    (3, Kind::Empty),
];

const ENABLED: [(usize, Kind); 10] = [
    (46, Kind::Program),
    (10, Kind::SectorErase),
    (5, Kind::ChipErase),
    (17, Kind::Wrsr),
    (8, Kind::Rdsr),
    (4, Kind::Wrdi),
    (5, Kind::Read),
    (2, Kind::OtherOpCode),
    (2, Kind::End),
    (1, Kind::Wren),
];

const READY: [(usize, Kind); 12] = [
    (48, Kind::Wren),
    (22, Kind::Read),
    (9, Kind::Rdsr),
    (5, Kind::Rdid),
    (3, Kind::Program),
    (2, Kind::Wrsr),
    (2, Kind::SectorErase),
    (1, Kind::ChipErase),
    (3, Kind::OtherOpCode),
    (2, Kind::Empty),
    (2, Kind::End),
    (1, Kind::Wrdi),
];

const ERASED_STATUS: [u8; 8] = [0x00, 0x80, 0x04, 0x08, 0x0c, 0x84, 0x88, 0x8c];

/// The places a trace comes back to.
pub struct Places {
    pub watched: u8,
    pub hot: Vec<usize>,
    /// Whether a PROGRAM or a page write may be longer than its page.
    pub long_pages: bool,
}

/// Makes the events that go over the bus next, by the chip's state.
pub type FlashFrames = fn(&mut Random, &Flash, &Places) -> Vec<FlashEvent>;

pub fn next_frame(random: &mut Random, flash: &Flash, places: &Places) -> Vec<FlashEvent> {
    let kind = if flash.cycle.is_some() {
        random.weighted(&IN_CYCLE)
    } else if flash.status.write_enabled() {
        random.weighted(&ENABLED)
    } else {
        random.weighted(&READY)
    };
    match kind {
        Kind::End => vec![FlashEvent::End],
        Kind::EndAfterSel => ended_after_sel(random, places),
        Kind::Empty => vec![FlashEvent::Sel, FlashEvent::Des],
        _ => {
            let sent = bytes_of(random, kind, places);
            let frame = frame_of(&sent);
            spoiled(random, frame)
        }
    }
}

pub fn frame_of(sent: &[u8]) -> Vec<FlashEvent> {
    let mut frame = vec![FlashEvent::Sel];
    frame.extend(sent.iter().map(|&si| FlashEvent::X { si, so: 0 }));
    frame.push(FlashEvent::Des);
    frame
}

fn ended_after_sel(random: &mut Random, places: &Places) -> Vec<FlashEvent> {
    let kind = random.pick(&[Kind::Read, Kind::Rdsr, Kind::Rdid, Kind::Wren, Kind::Wrsr]);
    let sent = bytes_of(random, kind, places);
    let mut frame = frame_of(&sent);
    frame.insert(random.between(1, 2), FlashEvent::End);
    frame
}

fn bytes_of(random: &mut Random, kind: Kind, places: &Places) -> Vec<u8> {
    let mut sent = vec![op_code(random, kind)];
    if let Kind::Read | Kind::Program | Kind::SectorErase = kind {
        sent.extend(address_bytes(random, places));
    }
    let more = match kind {
        Kind::Rdsr | Kind::Rdid | Kind::OtherOpCode => random.below(5),
        Kind::Wrsr => 1,
        Kind::Read => random.between(1, 12),
        Kind::Program => data_length(random, places.long_pages, 256),
        _ => 0,
    };
    let mut data = random.bytes(more);
    if let Kind::Wrsr = kind {
        data = vec![status_byte(random)];
    }
    sent.extend(data);
    sent
}

fn op_code(random: &mut Random, kind: Kind) -> u8 {
    let op_code = match kind {
        Kind::Wren => 0x06,
        Kind::Wrdi => 0x04,
        Kind::Rdsr => 0x05,
        Kind::Wrsr => 0x01,
        Kind::Read => 0x03,
        Kind::Program => 0x02,
        Kind::SectorErase => 0x52,
        Kind::ChipErase => 0x62,
        Kind::Rdid => 0x15,
        // The two erases as the second-rank documents print them, near misses, and anything.
        _ => {
            let any = random.byte();
            return random.pick(&[0x56, 0x5e, 0x66, 0x6e, 0x00, 0x07, 0x86, 0x25, 0x72, any, any]);
        }
    };
    op_code | random.pick(&[0x00, 0x00, 0x08])
}

fn status_byte(random: &mut Random) -> u8 {
    if random.percent(15) {
        return random.byte();
    }
    random.pick(&ERASED_STATUS)
}

pub fn data_length(random: &mut Random, long_pages: bool, page: usize) -> usize {
    match random.below(100) {
        0..=59 => random.between(1, 4),
        60..=89 => random.between(5, 12),
        90..=96 => random.between(13, 40),
        _ if long_pages => random.between(page - 3, page + 20),
        _ => random.between(1, 3),
    }
}

pub fn address_bytes(random: &mut Random, places: &Places) -> [u8; 3] {
    let first = (usize::from(places.watched) - 1) * 0x8000;
    let near = random.below(6);
    let address = match random.below(10) {
        0..=5 => first + random.pick(&places.hot),
        6 => first + 0x7fff - near,
        7 => first + 0x2_0000 - 1 - near,
        8 => 0x1_ffff - near,
        _ => random.below(0x2_0000),
    };
    let ignored = if random.percent(20) { random.below(128) * 0x2_0000 } else { 0 };
    let address = address % 0x2_0000 + ignored;
    [(address >> 16) as u8, (address >> 8) as u8, address as u8]
}

/// Now and then a frame of a wrong length, with a `cut`, or with an `end` inside.
fn spoiled(random: &mut Random, mut frame: Vec<FlashEvent>) -> Vec<FlashEvent> {
    let inside = random.between(1, frame.len() - 1);
    match random.below(100) {
        0..=2 => {
            frame.truncate(inside);
            frame.extend([FlashEvent::Cut, FlashEvent::Des]);
        }
        3..=5 => {
            frame.truncate(inside);
            frame.push(FlashEvent::Des);
        }
        6..=10 => frame.insert(frame.len() - 1, FlashEvent::X { si: random.byte(), so: 0 }),
        11..=12 => frame.insert(inside, FlashEvent::End),
        13 => {
            frame.truncate(inside);
            frame.extend([FlashEvent::Cut, FlashEvent::End, FlashEvent::Des]);
        }
        _ => (),
    }
    frame
}
