//! A short way to write a capture down. A level line is its stamp, CS SCK SI SO HOLD, and SCL SDA: `10 10001 11` is all at
//! rest. Blanks stand for tabs in the logger's trace and in what is merged, `|` parts lines. What is merged is written without
//! its board line, which is the logger's.

use crate::fixed::script::{Changed, Start};
use crate::model::call::result_bytes;
use crate::model::capture_calls::{MergeCall, PlayCall};

/// A call, what it must answer, and all buffers as they must be afterwards.
pub struct FixedCall<C> {
    pub name: String,
    pub call: C,
    pub answer: u32,
    pub after: C,
}

/// A capture, and what both calls must make of it.
pub struct FixedCapture {
    sketch: Sketch,
    /// The merged text, or number, line and field of a refusal.
    due: Result<Vec<u8>, [u32; 3]>,
    flash: Vec<Changed>,
    eeprom: Vec<Changed>,
}

#[derive(Clone)]
pub struct Sketch {
    name: String,
    start: Start,
    levels: Vec<u8>,
    trace: Vec<u8>,
    /// The last line's levels: CS SCK SI SO HOLD SCL SDA.
    last: Vec<u8>,
}

/// Lines with blanks for tabs and `|` between them.
pub fn lines(text: &str) -> Vec<u8> {
    text.split('|').map(|line| format!("{}\n", line.trim().replace(' ', "\t"))).collect::<String>().into_bytes()
}

pub fn sketch(name: &str) -> Sketch {
    let trace = lines("board 00 1 0");
    Sketch { name: String::from(name), start: Start::Erased, levels: Vec::new(), trace, last: b"1000111".to_vec() }
}

/// The places of levels in a line.
const CS: usize = 0;
const SCK: usize = 1;
const SI: usize = 2;
const SO: usize = 3;
const SCL: usize = 5;
const SDA: usize = 6;

impl Sketch {
    pub fn starting(mut self, start: Start) -> Sketch {
        self.start = start;
        self
    }

    pub fn named(mut self, name: &str) -> Sketch {
        self.name = String::from(name);
        self
    }

    /// The logger's whole trace as it stands, with tabs.
    pub fn heard(mut self, trace: &[u8]) -> Sketch {
        self.trace = trace.to_vec();
        self
    }

    /// The logger's whole trace.
    pub fn logger(mut self, text: &str) -> Sketch {
        self.trace = lines(text);
        self
    }

    pub fn lines(mut self, text: &str) -> Sketch {
        for line in text.split('|') {
            let mut words = line.split_whitespace();
            let stamp = words.next().unwrap_or("");
            self.last = words.collect::<String>().into_bytes();
            assert_eq!(self.last.len(), 7, "{:?} in {}", line, self.name);
            self.put(stamp);
        }
        self
    }

    /// Level lines as they stand, with tabs.
    pub fn raw(mut self, text: &[u8]) -> Sketch {
        self.levels.extend(text);
        self
    }

    fn put(&mut self, stamp: &str) {
        let fields: String = self.last.iter().map(|&level| format!("\t{}", level as char)).collect();
        self.levels.extend(format!("{}{}\n", stamp, fields).into_bytes());
    }

    fn set(&mut self, stamp: u32, changes: &[(usize, u8)]) {
        changes.iter().for_each(|&(place, level)| self.last[place] = level);
        self.put(&stamp.to_string());
    }

    /// Clocks of SCK, all at one stamp, with these levels of SI; SO shows the contrary. SCK is low before and after.
    pub fn clocks(mut self, stamp: u32, si: &str) -> Sketch {
        for level in si.bytes().filter(|&level| level != b' ') {
            self.set(stamp, &[(SI, level), (SO, level ^ 1)]);
            self.set(stamp, &[(SCK, b'1')]);
            self.set(stamp, &[(SCK, b'0')]);
        }
        self
    }

    /// Whole bytes of SI, SO the contrary of each.
    pub fn bytes(self, stamp: u32, sent: &str) -> Sketch {
        sent.split_whitespace().fold(self, |sketch, byte| sketch.clocks(stamp, &bits(byte)))
    }

    /// CS's fall, whole bytes, CS's rise, all at one stamp.
    pub fn frame(mut self, stamp: u32, sent: &str) -> Sketch {
        self.set(stamp, &[(CS, b'0')]);
        self = self.bytes(stamp, sent);
        self.set(stamp, &[(CS, b'1')]);
        self
    }

    /// SDA's fall with SCL high, from both high.
    pub fn start(mut self, stamp: u32) -> Sketch {
        self.set(stamp, &[(SDA, b'0')]);
        self
    }

    /// Clocks of SCL, all at one stamp, with these levels of SDA. SCL is low after each.
    pub fn bits(mut self, stamp: u32, sda: &str) -> Sketch {
        for level in sda.bytes().filter(|&level| level != b' ') {
            if self.last[SCL] == b'1' {
                self.set(stamp, &[(SCL, b'0')]);
            }
            self.set(stamp, &[(SDA, level)]);
            self.set(stamp, &[(SCL, b'1')]);
            self.set(stamp, &[(SCL, b'0')]);
        }
        self
    }

    /// Whole bytes, each acknowledged.
    pub fn sends(self, stamp: u32, sent: &str) -> Sketch {
        sent.split_whitespace().fold(self, |sketch, byte| sketch.bits(stamp, &(bits(byte) + "0")))
    }

    /// From SCL low: SDA low, SCL's rise, SDA's rise.
    pub fn stop(mut self, stamp: u32) -> Sketch {
        self.set(stamp, &[(SDA, b'0')]);
        self.set(stamp, &[(SCL, b'1')]);
        self.set(stamp, &[(SDA, b'1')]);
        self
    }

    /// From SCL low: SDA high, SCL's rise, SDA's fall.
    pub fn start_again(mut self, stamp: u32) -> Sketch {
        self.set(stamp, &[(SDA, b'1')]);
        self.set(stamp, &[(SCL, b'1')]);
        self.set(stamp, &[(SDA, b'0')]);
        self
    }

    /// An EEPROM frame, all at one stamp.
    pub fn eeprom_frame(self, stamp: u32, sent: &str) -> Sketch {
        self.start(stamp).sends(stamp, sent).stop(stamp)
    }

    /// Merged as written here; no image changes.
    pub fn merges(self, records: &str) -> FixedCapture {
        let board = self.trace.split(|&byte| byte == b'\n').next().unwrap_or(&[]).to_vec();
        let records = if records.is_empty() { Vec::new() } else { lines(records) };
        let due = [&board[..], b"\n", &records].concat();
        FixedCapture { sketch: self, due: Ok(due), flash: Vec::new(), eeprom: Vec::new() }
    }

    pub fn refused(self, told: [u32; 3]) -> FixedCapture {
        FixedCapture { sketch: self, due: Err(told), flash: Vec::new(), eeprom: Vec::new() }
    }
}

fn bits(byte: &str) -> String {
    let value = u8::from_str_radix(byte, 16).unwrap_or_else(|_| panic!("no hex byte {:?}", byte));
    format!("{:08b}", value)
}

/// What is lent behind a merged text by default.
const SPARE: usize = 40;

/// What an output holds before the call.
pub fn before(length: usize) -> Vec<u8> {
    (0..length).map(|place| (place % 253) as u8 ^ 0x80).collect()
}

impl FixedCapture {
    pub fn flash_is(mut self, changed: &[Changed]) -> FixedCapture {
        self.flash.extend(changed);
        self
    }

    pub fn eeprom_is(mut self, changed: &[Changed]) -> FixedCapture {
        self.eeprom.extend(changed);
        self
    }

    pub fn merge(&self) -> FixedCall<MergeCall> {
        let length = self.due.as_ref().map_or(1000, |due| due.len() + SPARE);
        self.merge_into(length)
    }

    /// The merge with an output of this length: refusal 10 where it is too short.
    pub fn merge_into(&self, length: usize) -> FixedCall<MergeCall> {
        let Sketch { name, levels, trace, .. } = self.sketch.clone();
        let call = MergeCall { levels, trace, output: before(length), result: vec![0xa5; 16] };
        let mut after = call.clone();
        let told = match &self.due {
            Ok(due) if due.len() > length => [10, 0, 0, 0],
            Ok(due) => {
                after.output[..due.len()].copy_from_slice(due);
                [0, 0, due.len() as u32, 0]
            }
            Err([number, line, field]) => [*number, *line, 0, *field],
        };
        after.result = result_bytes(told);
        FixedCall { name: format!("{}, output of {} bytes", name, length), call, answer: told[0], after }
    }

    pub fn play(&self) -> FixedCall<PlayCall> {
        let Sketch { name, start, levels, trace, .. } = self.sketch.clone();
        let images = start.call(Vec::new());
        let call = PlayCall {
            levels,
            trace,
            flash: images.flash,
            flash_mask: images.flash_mask,
            eeprom: images.eeprom,
            eeprom_mask: images.eeprom_mask,
            result: images.result,
        };
        let mut after = call.clone();
        for &(place, value, mask) in &self.flash {
            after.flash[place] = value;
            after.flash_mask[place] = mask;
        }
        for &(place, value, mask) in &self.eeprom {
            after.eeprom[place] = value;
            after.eeprom_mask[place] = mask;
        }
        let told = self.due.as_ref().map_or_else(|told| *told, |_| [0, 0, 0]);
        after.result = result_bytes([told[0], told[1], 0, told[2]]);
        FixedCall { name, call, answer: told[0], after }
    }
}
