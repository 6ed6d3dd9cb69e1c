//! Who makes a history's choices: whose record comes next at a stamp, and the value of each bit that is open, at the start
//! and at a cut.

use crate::generate::random::Random;
use crate::generate::small_doubts::{FewBits, Focus};
use std::cell::RefCell;
use std::rc::Rc;

#[derive(Clone, Copy, Debug, PartialEq, Eq)]
pub enum Chip {
    Flash,
    Eeprom,
}

pub trait Chooser {
    /// Which of so many channels goes on.
    fn channel(&mut self, count: usize) -> usize;
    /// Bytes with a value for each bit that is open in the chip's bytes, and 0 for the others.
    fn values(&mut self, chip: Chip, open: &[u8]) -> Vec<u8>;
}

/// The order and both chips of a history ask one chooser.
pub type Choices = Rc<RefCell<dyn Chooser>>;

/// Every open bit 0, or every one 1. No rule makes a lower bit of a 1 than of a 0, so that of all histories these two have
/// the lowest and the highest bits: where any two differ, these do.
pub struct Extreme {
    pub ones: bool,
}

impl Chooser for Extreme {
    fn channel(&mut self, count: usize) -> usize {
        if self.ones {
            count - 1
        } else {
            0
        }
    }

    fn values(&mut self, _chip: Chip, open: &[u8]) -> Vec<u8> {
        if self.ones {
            open.to_vec()
        } else {
            vec![0x00; open.len()]
        }
    }
}

pub struct Sampled {
    pub random: Random,
}

impl Chooser for Sampled {
    fn channel(&mut self, count: usize) -> usize {
        self.random.below(count)
    }

    fn values(&mut self, _chip: Chip, open: &[u8]) -> Vec<u8> {
        let any = self.random.bytes(open.len());
        any.iter().zip(open).map(|(value, bits)| value & bits).collect()
    }
}

/// One history after the other, till all have been. The bits in focus are chosen one by one; the others that are open at
/// the start or at one cut are all 0 or all 1.
pub struct EachInTurn {
    focus: Focus,
    /// The choices so far: which way, of how many.
    taken: Vec<(usize, usize)>,
    next: usize,
}

impl EachInTurn {
    pub fn new(focus: Focus) -> EachInTurn {
        EachInTurn { focus, taken: Vec::new(), next: 0 }
    }

    /// Goes on to the next history; false where there is none.
    pub fn advance(&mut self) -> bool {
        self.next = 0;
        while let Some((way, count)) = self.taken.pop() {
            if way + 1 < count {
                self.taken.push((way + 1, count));
                return true;
            }
        }
        false
    }

    fn choose(&mut self, count: usize) -> usize {
        if self.next == self.taken.len() {
            self.taken.push((0, count));
        }
        let (way, of) = self.taken[self.next];
        assert_eq!(of, count, "the same choices lead to the same place");
        self.next += 1;
        way
    }

    fn each_bit(&mut self, bits: u8) -> u8 {
        (0..8).filter(|bit| bits >> bit & 1 == 1).fold(0, |value, bit| value | (self.choose(2) as u8) << bit)
    }
}

impl Chooser for EachInTurn {
    fn channel(&mut self, count: usize) -> usize {
        self.choose(count)
    }

    fn values(&mut self, chip: Chip, open: &[u8]) -> Vec<u8> {
        let focus = match chip {
            Chip::Flash => self.focus.flash,
            Chip::Eeprom => self.focus.eeprom,
        };
        let mut others = open.to_vec();
        focus.iter().for_each(|&FewBits { place, bits }| others[place] &= !bits);
        let any_other = others.iter().fold(0x00, |all, bits| all | bits) != 0x00;
        let mut values = if any_other && self.choose(2) == 1 { others } else { vec![0x00; open.len()] };
        for FewBits { place, bits } in focus {
            values[place] |= self.each_bit(open[place] & bits);
        }
        values
    }
}
