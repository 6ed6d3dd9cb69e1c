//! A chip's bytes in one history: every bit has a value, chosen where the request lets a history choose.

use super::choices::{Chip, Choices};
use crate::model::cells::{Cells, Sent};
use crate::model::kept::KEPT;
use crate::model::record::Reply;
use std::ops::Range;

pub struct Bytes {
    pub values: Vec<u8>,
    chip: Chip,
    choices: Choices,
}

impl Bytes {
    /// "A history may choose any start value for a bit doubtful at the start."
    pub fn at_start(chip: Chip, image: &[u8], doubtful: &[u8], choices: &Choices) -> Bytes {
        let mut bytes = Bytes { values: image.to_vec(), chip, choices: choices.clone() };
        bytes.choose(doubtful);
        bytes
    }

    fn choose(&mut self, open: &[u8]) {
        let chosen = self.choices.borrow_mut().values(self.chip, open);
        for ((value, open), chosen) in self.values.iter_mut().zip(open).zip(chosen) {
            *value = (*value & !open) | chosen;
        }
    }
}

impl Cells for Bytes {
    fn read(&self, place: usize) -> Reply {
        Reply::Byte { value: self.values[place], mask: 0x00 }
    }

    fn program(&mut self, sent: &[Sent]) {
        for &Sent { place, byte } in sent {
            self.values[place] &= byte;
        }
    }

    /// "In a cut program it chooses, bit by bit, old or new": open is where these two are not the same.
    fn cut_program(&mut self, sent: &[Sent]) {
        let mut open = vec![0x00; KEPT];
        for &Sent { place, byte } in sent {
            let old = self.values[place];
            let new = old & byte;
            open[place] = old ^ new;
        }
        self.choose(&open);
    }

    fn erase(&mut self) {
        self.values.fill(0xff);
    }

    /// "In a cut erase or a cut EEPROM page, any value for each bit."
    fn cut_erase(&mut self) {
        self.choose(&[0xff; KEPT]);
    }

    fn store(&mut self, sent: &[Sent]) {
        for &Sent { place, byte } in sent {
            self.values[place] = byte;
        }
    }

    /// The page is the whole one (request 3/12).
    fn cut_page(&mut self, page: Range<usize>) {
        let mut open = vec![0x00; KEPT];
        open[page].fill(0xff);
        self.choose(&open);
    }
}
