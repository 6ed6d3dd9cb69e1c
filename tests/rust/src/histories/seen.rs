//! The values that occurred in the histories of one trace, held to what a replay shows.

use super::history::History;
use crate::model::call::Call;
use crate::model::record::Reply;

const BYTE: u8 = 2;

/// Bits that were 1 in some history, and bits that were 0 in some.
#[derive(Clone, Default)]
struct Bits {
    ones: Vec<u8>,
    zeros: Vec<u8>,
}

impl Bits {
    fn add(&mut self, bytes: &[u8]) {
        self.ones.resize(bytes.len(), 0x00);
        self.zeros.resize(bytes.len(), 0x00);
        self.ones.iter_mut().zip(bytes).for_each(|(ones, byte)| *ones |= byte);
        self.zeros.iter_mut().zip(bytes).for_each(|(zeros, byte)| *zeros |= !byte);
    }

    fn marked(&self) -> usize {
        self.ones.iter().zip(&self.zeros).map(|(ones, zeros)| (ones & zeros).count_ones() as usize).sum()
    }

    /// The first place where value and mask are not those of the bits that occurred.
    fn difference(&self, value: &[u8], mask: &[u8]) -> Option<(usize, String)> {
        let as_due = |place: usize| {
            let (ones, zeros) = (self.ones[place], self.zeros[place]);
            (value[place], mask[place]) == (ones & !zeros, ones & zeros)
        };
        let place = (0..self.ones.len()).find(|&place| !as_due(place))?;
        Some((place, told(value[place], mask[place], self.ones[place], self.zeros[place])))
    }
}

/// In which bit a value and a mask are wrong, and how.
fn told(value: u8, mask: u8, ones: u8, zeros: u8) -> String {
    let has = |byte: u8, bit: &u8| byte >> bit & 1 == 1;
    let wrong = |bit: &u8| match (has(mask, bit), has(value, bit)) {
        (true, true) => Some(String::from("marked, and 1 in the value")),
        (true, false) if !has(zeros, bit) => Some(String::from("marked, and 1 in every history")),
        (true, false) if !has(ones, bit) => Some(String::from("marked, and 0 in every history")),
        (false, true) if has(zeros, bit) => Some(String::from("shown as a sure 1, and 0 in a history")),
        (false, false) if has(ones, bit) => Some(String::from("shown as a sure 0, and 1 in a history")),
        _ => None,
    };
    let found = (0..8).find_map(|bit| Some(format!("bit {} is {}", bit, wrong(&bit)?)));
    format!("{} ({:02x}/{:02x} is shown)", found.unwrap_or_default(), value, mask)
}

/// What occurred in the histories of one trace: the images' bits at the end, and of each record's reply the kinds, as bits
/// by their number, and a byte's bits.
#[derive(Clone, Default)]
pub struct Seen {
    pub histories: usize,
    flash: Bits,
    eeprom: Bits,
    kinds: Vec<u8>,
    bytes: Bits,
}

impl Seen {
    pub fn add(&mut self, history: &History) {
        self.histories += 1;
        self.flash.add(&history.flash);
        self.eeprom.add(&history.eeprom);
        self.kinds.resize(history.replies.len(), 0);
        self.kinds.iter_mut().zip(&history.replies).for_each(|(kinds, reply)| *kinds |= 1 << reply.kind());
        let byte_of = |reply: &Reply| match *reply {
            Reply::Byte { value, .. } => value,
            _ => 0x00,
        };
        self.bytes.add(&history.replies.iter().map(byte_of).collect::<Vec<u8>>());
    }

    /// How many bits had both values: in the images at the end, and in the replies.
    pub fn marked(&self) -> (usize, usize) {
        (self.flash.marked() + self.eeprom.marked(), self.bytes.marked())
    }

    /// The first thing that a replay has left otherwise than the histories have it: a bit is marked where both values
    /// occurred and else has the one that did, in the images and in each byte that is read.
    pub fn difference(&self, after: &Call) -> Option<String> {
        let images = [
            ("flash", &self.flash, &after.flash, &after.flash_mask),
            ("EEPROM", &self.eeprom, &after.eeprom, &after.eeprom_mask),
        ];
        for (name, bits, value, mask) in images {
            if let Some((place, found)) = bits.difference(value, mask) {
                return Some(format!("{} at {:04x}: {}", name, place, found));
            }
        }
        self.difference_in_replies(&after.replies)
    }

    fn difference_in_replies(&self, replies: &[u8]) -> Option<String> {
        let part = |which: usize| replies.chunks(4).map(|reply| reply[which]).collect::<Vec<u8>>();
        let kinds = part(0);
        let as_due = |record: usize| Some(self.kinds[record]) == 1u8.checked_shl(u32::from(kinds[record]));
        if let Some(record) = (0..self.kinds.len()).find(|&record| !as_due(record)) {
            let found: Vec<u8> = (0..8).filter(|kind| self.kinds[record] >> kind & 1 == 1).collect();
            return Some(format!("line {}: kind {} is shown, and {:?} are in histories", record + 2, kinds[record], found));
        }
        if let Some(record) = (self.kinds.len()..kinds.len()).find(|&record| kinds[record] == BYTE) {
            return Some(format!("line {}: a byte is shown, and no history has that record", record + 2));
        }
        let (record, found) = self.bytes.difference(&part(1), &part(2))?;
        Some(format!("line {}: {}", record + 2, found))
    }
}
