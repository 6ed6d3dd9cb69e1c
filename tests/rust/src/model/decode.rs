//! Level lines turned into the records of the two buses (request 4/12). A record bears the stamp of its last edge: of the one
//! that completes it, and for a `cut` of the one that ends the part.

use super::levels::{LevelLine, Levels};
use super::record::{EepromEvent, FlashEvent};

/// Two lines that stand below each other, and the lower one's stamp.
struct Edge {
    before: Levels,
    now: Levels,
    stamp: u32,
}

fn edges(lines: &[LevelLine]) -> impl Iterator<Item = Edge> + '_ {
    lines.windows(2).map(|pair| Edge { before: pair[0].levels, now: pair[1].levels, stamp: pair[1].stamp })
}

/// How a line goes from one level line to the next.
#[derive(Clone, Copy, PartialEq, Eq)]
enum Move {
    Falls,
    Rises,
    StaysLow,
    StaysHigh,
}

impl Edge {
    fn of(&self, line: fn(&Levels) -> bool) -> Move {
        match (line(&self.before), line(&self.now)) {
            (true, false) => Move::Falls,
            (false, true) => Move::Rises,
            (false, false) => Move::StaysLow,
            (true, true) => Move::StaysHigh,
        }
    }

    /// "Flash bits on the rising clock in mode 0, clocks ignored while HOLD is low"; SI and SO as they are on that line.
    fn flash_bit(&self) -> Option<(bool, bool)> {
        if self.of(|levels| levels.sck) == Move::Rises && !self.now.cs && self.now.hold {
            Some((self.now.si, self.now.so))
        } else {
            None
        }
    }
}

/// Bits with the most significant first.
fn byte_of(bits: impl Iterator<Item = bool>) -> u8 {
    bits.fold(0, |byte, bit| byte << 1 | u8::from(bit))
}

/// `sel` at CS's fall, `des` at its rise, `x` at each eighth bit between them. A part of a byte at CS's rise gives `cut`, with
/// the rise's stamp, whatever HOLD is; one left at the end of the capture is dropped.
pub fn flash_records(lines: &[LevelLine]) -> Vec<(u32, FlashEvent)> {
    let mut records = Vec::new();
    let mut bits: Vec<(bool, bool)> = Vec::new();
    for edge in edges(lines) {
        bits.extend(edge.flash_bit());
        if bits.len() == 8 {
            let si = byte_of(bits.iter().map(|bit| bit.0));
            let so = byte_of(bits.iter().map(|bit| bit.1));
            records.push((edge.stamp, FlashEvent::X { si, so }));
            bits.clear();
        }
        match edge.of(|levels| levels.cs) {
            Move::Falls => records.push((edge.stamp, FlashEvent::Sel)),
            Move::Rises => {
                if !bits.is_empty() {
                    records.push((edge.stamp, FlashEvent::Cut));
                    bits.clear();
                }
                records.push((edge.stamp, FlashEvent::Des));
            }
            Move::StaysLow | Move::StaysHigh => (),
        }
    }
    records
}

/// What an edge is for the two-wire bus.
#[derive(Clone, Copy, Debug, PartialEq, Eq)]
enum Moment {
    Start,
    Stop,
    Bit(bool),
}

/// "Start and stop where SDA moves with SCL high; a two-wire bit has the level of the clock's rise and counts at its fall, so a
/// clock in whose high time a start or stop comes is no bit."
fn moments(lines: &[LevelLine]) -> Vec<(u32, Moment)> {
    let mut moments = Vec::new();
    let mut clock: Option<bool> = None;
    for edge in edges(lines) {
        let moment = match (edge.of(|levels| levels.scl), edge.of(|levels| levels.sda)) {
            (Move::StaysHigh, Move::Falls) => {
                clock = None;
                Some(Moment::Start)
            }
            (Move::StaysHigh, Move::Rises) => {
                clock = None;
                Some(Moment::Stop)
            }
            (Move::Rises, _) => {
                clock = Some(edge.now.sda);
                None
            }
            (Move::Falls, _) => clock.take().map(Moment::Bit),
            _ => None,
        };
        moments.extend(moment.map(|moment| (edge.stamp, moment)));
    }
    moments
}

/// `sta` and `sto` at start and stop, `b` at each ninth bit, "the ninth clock is the acknowledge". A start or stop after one to
/// eight bits gives `cut` before it, with its stamp; "clocks and stops with no start open are passed over".
pub fn eeprom_records(lines: &[LevelLine]) -> Vec<(u32, EepromEvent)> {
    let mut records = Vec::new();
    let mut open = false;
    let mut bits: Vec<bool> = Vec::new();
    for (stamp, moment) in moments(lines) {
        if let Moment::Bit(level) = moment {
            if open {
                bits.push(level);
            }
            if bits.len() == 9 {
                let byte = byte_of(bits[..8].iter().copied());
                records.push((stamp, EepromEvent::B { byte, not_acknowledged: bits[8] }));
                bits.clear();
            }
            continue;
        }
        if !bits.is_empty() {
            records.push((stamp, EepromEvent::Cut));
            bits.clear();
        }
        match moment {
            Moment::Start => records.push((stamp, EepromEvent::Sta)),
            Moment::Stop if open => records.push((stamp, EepromEvent::Sto)),
            _ => (),
        }
        open = moment == Moment::Start;
    }
    records
}
