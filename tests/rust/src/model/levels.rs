//! Reading a level text (request 4/12), with refusals 12 and 13.

use super::fields::{fields, stamp};
use super::record::Record;
use super::text::{split_lines, Refusal};

/// What the analyser saw on its seven lines; true is 1.
#[derive(Clone, Copy, Debug, PartialEq, Eq)]
pub struct Levels {
    pub cs: bool,
    pub sck: bool,
    pub si: bool,
    pub so: bool,
    pub hold: bool,
    pub scl: bool,
    pub sda: bool,
}

#[derive(Clone, Copy, Debug, PartialEq, Eq)]
pub struct LevelLine {
    pub stamp: u32,
    pub levels: Levels,
}

impl Levels {
    /// "The first line must show CS, HOLD, SCL and SDA at 1 and SCK at 0."
    pub fn may_come_first(&self) -> bool {
        self.cs && self.hold && self.scl && self.sda && !self.sck
    }

    /// Refusal 13 is due "where SCK changes together with CS, SI or HOLD, or SCL with SDA", whatever else is so.
    pub fn change_together(&self, before: &Levels) -> bool {
        let sck = self.sck != before.sck;
        let beside_sck = self.cs != before.cs || self.si != before.si || self.hold != before.hold;
        sck && beside_sck || self.scl != before.scl && self.sda != before.sda
    }
}

/// The level lines, or the first bad one. `taken` are the records taken from the logger.
pub fn read_levels(text: &[u8], taken: &[Record]) -> Result<Vec<LevelLine>, Refusal> {
    let lines = split_lines(text);
    if lines.is_empty() {
        return Err(Refusal { number: 12, line: 1, field: 0 });
    }
    let mut read: Vec<LevelLine> = Vec::new();
    for (number, line) in (1..).zip(lines) {
        let refused = |refusal: u32| Err(Refusal { number: refusal, line: number, field: 0 });
        // 12 first on one line.
        let found = match line.read_by(level_line) {
            Some(found) if may_follow(&read, &found) && !has_stamp_of(taken, &found) => found,
            _ => return refused(12),
        };
        if read.last().map_or(false, |before| found.levels.change_together(&before.levels)) {
            return refused(13);
        }
        read.push(found);
    }
    Ok(read)
}

/// Exactly eight fields: the stamp as in a trace, then CS, SCK, SI, SO, HOLD, SCL, SDA.
fn level_line(line: &[u8]) -> Option<LevelLine> {
    match fields(line).as_slice() {
        [digits, cs, sck, si, so, hold, scl, sda] => {
            let (cs, sck, si, so) = (level(cs)?, level(sck)?, level(si)?, level(so)?);
            let levels = Levels { cs, sck, si, so, hold: level(hold)?, scl: level(scl)?, sda: level(sda)? };
            Some(LevelLine { stamp: stamp(digits)?, levels })
        }
        _ => None,
    }
}

fn level(field: &[u8]) -> Option<bool> {
    match field {
        b"0" => Some(false),
        b"1" => Some(true),
        _ => None,
    }
}

/// Below the good lines `read`: the first shows the levels at rest, and no stamp is below the one before. Stamps may be equal.
fn may_follow(read: &[LevelLine], line: &LevelLine) -> bool {
    match read.last() {
        None => line.levels.may_come_first(),
        Some(before) => line.stamp >= before.stamp,
    }
}

fn has_stamp_of(taken: &[Record], line: &LevelLine) -> bool {
    taken.iter().any(|record| record.stamp == line.stamp)
}
