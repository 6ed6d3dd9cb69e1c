//! The replay as the C call shows it: eight buffers of any length, the answer and what each buffer holds afterwards.

use super::kept::{Kept, KEPT};
use super::replay::replay;
use super::stamp::Orders;
use super::text::{read, Refusal};
use super::times::{table, EEPROM_PAGES, ENTRY, FLASH_PAGES};

pub const TIMES: usize = ENTRY * (FLASH_PAGES + EEPROM_PAGES);
pub const REPLIES: usize = 40_000;
pub const RESULT: usize = 16;
pub const BUFFERS: usize = 8;

#[derive(Clone, Debug, PartialEq, Eq)]
pub struct Call {
    pub text: Vec<u8>,
    pub flash: Vec<u8>,
    pub flash_mask: Vec<u8>,
    pub eeprom: Vec<u8>,
    pub eeprom_mask: Vec<u8>,
    pub times: Vec<u8>,
    pub replies: Vec<u8>,
    pub result: Vec<u8>,
}

impl Call {
    /// The buffers of the call in its order, the text first.
    pub fn buffers(&self) -> [&Vec<u8>; BUFFERS] {
        let Call { text, flash, flash_mask, eeprom, eeprom_mask, times, replies, result } = self;
        [text, flash, flash_mask, eeprom, eeprom_mask, times, replies, result]
    }

    /// The same without the text, which is only read.
    pub fn lent_buffers_mut(&mut self) -> [&mut Vec<u8>; BUFFERS - 1] {
        let Call { flash, flash_mask, eeprom, eeprom_mask, times, replies, result, .. } = self;
        [flash, flash_mask, eeprom, eeprom_mask, times, replies, result]
    }

    /// Answers, and leaves each buffer as the call must.
    pub fn run(&mut self, orders: Orders) -> u32 {
        if self.has_wrong_buffer() {
            return self.refuse(Refusal { number: 1, line: 0, field: 0 });
        }
        let trace = match read(&self.text) {
            Ok(trace) => trace,
            Err(refusal) => return self.refuse(refusal),
        };
        let flash = Kept { value: self.flash.clone(), mask: self.flash_mask.clone() };
        let eeprom = Kept { value: self.eeprom.clone(), mask: self.eeprom_mask.clone() };
        let ending = replay(&trace, flash, eeprom, orders);
        self.write_result([ending.answer, ending.stamp, ending.count(), 0]);
        self.flash = ending.board.flash.kept.value;
        self.flash_mask = ending.board.flash.kept.mask;
        self.eeprom = ending.board.eeprom.kept.value;
        self.eeprom_mask = ending.board.eeprom.kept.mask;
        self.times = table(&ending.board.flash.times, &ending.board.eeprom.times);
        self.replies = vec![0; REPLIES];
        for (place, reply) in self.replies.chunks_exact_mut(4).zip(&ending.replies) {
            place.copy_from_slice(reply);
        }
        ending.answer
    }

    fn has_wrong_buffer(&self) -> bool {
        let kept = [&self.flash, &self.flash_mask, &self.eeprom, &self.eeprom_mask];
        kept.iter().any(|buffer| buffer.len() != KEPT)
            || self.times.len() != TIMES
            || self.replies.len() != REPLIES
            || self.result.len() != RESULT
            || has_bit_in_both(&self.flash, &self.flash_mask)
            || has_bit_in_both(&self.eeprom, &self.eeprom_mask)
    }

    fn refuse(&mut self, refusal: Refusal) -> u32 {
        self.write_result([refusal.number, refusal.line, 0, refusal.field]);
        refusal.number
    }

    fn write_result(&mut self, numbers: [u32; 4]) {
        if self.result.len() == RESULT {
            self.result = result_bytes(numbers);
        }
    }
}

/// The result: answer, line or stamp, count, field.
pub fn result_bytes(numbers: [u32; 4]) -> Vec<u8> {
    numbers.iter().flat_map(|number| number.to_le_bytes()).collect()
}

pub fn has_bit_in_both(image: &[u8], mask: &[u8]) -> bool {
    image.iter().zip(mask).any(|(value, doubt)| value & doubt != 0)
}
