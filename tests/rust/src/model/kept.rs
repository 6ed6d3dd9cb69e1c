//! Kept bytes ("Bytes and doubt") and the rolling of data inside a page.

use super::cells::{Cells, Sent};
use super::record::Reply;
use std::ops::Range;

pub const KEPT: usize = 32_768;

/// A chip's kept bytes: values, and masks of doubtful bits.
#[derive(Clone, Debug, PartialEq, Eq)]
pub struct Kept {
    pub value: Vec<u8>,
    pub mask: Vec<u8>,
}

impl Kept {
    /// What is kept without a dump.
    pub fn doubtful() -> Kept {
        Kept { value: vec![0; KEPT], mask: vec![0xff; KEPT] }
    }

    pub fn sure(value: Vec<u8>) -> Kept {
        let mask = vec![0; value.len()];
        Kept { value, mask }
    }

    fn set(&mut self, place: usize, value: u8, mask: u8) {
        self.value[place] = value;
        self.mask[place] = mask;
    }

    fn set_all(&mut self, value: u8, mask: u8) {
        for place in 0..KEPT {
            self.set(place, value, mask);
        }
    }
}

/// Doubt by the rules: of a whole cycle at `end` ("Flash rules", "EEPROM rules"), of a cut one at `off` ("Supply").
impl Cells for Kept {
    fn read(&self, place: usize) -> Reply {
        Reply::Byte { value: self.value[place], mask: self.mask[place] }
    }

    fn program(&mut self, sent: &[Sent]) {
        for &Sent { place, byte } in sent {
            self.set(place, self.value[place] & byte, self.mask[place] & byte);
        }
    }

    fn cut_program(&mut self, sent: &[Sent]) {
        for &Sent { place, byte } in sent {
            let (value, mask) = (self.value[place], self.mask[place]);
            self.set(place, value & byte, mask | (value & !byte));
        }
    }

    fn erase(&mut self) {
        self.set_all(0xff, 0x00);
    }

    fn cut_erase(&mut self) {
        self.set_all(0x00, 0xff);
    }

    fn store(&mut self, sent: &[Sent]) {
        for &Sent { place, byte } in sent {
            self.set(place, byte, 0x00);
        }
    }

    /// Bytes that were not sent too (request 3/12; "Supply" has the bytes sent alone).
    fn cut_page(&mut self, page: Range<usize>) {
        for place in page {
            self.set(place, 0x00, 0xff);
        }
    }
}

/// What a page gets when `data` is sent from `first` on: past its last place the first one follows, and the last byte sent
/// for a place is the one that counts.
pub fn rolled(first: usize, data: &[u8], page_size: usize) -> Vec<Option<u8>> {
    let mut page = vec![None; page_size];
    for (count, &byte) in data.iter().enumerate() {
        page[(first + count) % page_size] = Some(byte);
    }
    page
}
