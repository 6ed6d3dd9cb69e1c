//! The merge and the second engine as the C calls show them: buffers of any length, the answer and what each buffer holds
//! afterwards (request 4/12).

use super::call::{has_bit_in_both, result_bytes, RESULT};
use super::kept::{Kept, KEPT};
use super::merge::{merged, text_of};
use super::replay::start;
use super::text::{Refusal, Trace};

const WRONG_BUFFER: Refusal = Refusal { number: 1, line: 0, field: 0 };
const NO_ROOM: Refusal = Refusal { number: 10, line: 0, field: 0 };

#[derive(Clone, Debug, PartialEq, Eq)]
pub struct MergeCall {
    pub levels: Vec<u8>,
    pub trace: Vec<u8>,
    pub output: Vec<u8>,
    pub result: Vec<u8>,
}

impl MergeCall {
    /// Answers, and leaves output and result as the call must. What is behind the merged text stays.
    pub fn run(&mut self) -> u32 {
        let (numbers, text) = match self.written() {
            Ok(text) => ([0, 0, text.len() as u32, 0], text),
            Err(refusal) => ([refusal.number, refusal.line, 0, refusal.field], Vec::new()),
        };
        self.output[..text.len()].copy_from_slice(&text);
        write_result(&mut self.result, numbers);
        numbers[0]
    }

    /// The only wrong length is the result's. 10 comes last.
    fn written(&self) -> Result<Vec<u8>, Refusal> {
        if self.result.len() != RESULT {
            return Err(WRONG_BUFFER);
        }
        let Trace { board, records } = merged(&self.levels, &self.trace)?;
        let text = text_of(board, &records);
        if text.len() > self.output.len() {
            return Err(NO_ROOM);
        }
        Ok(text)
    }
}

#[derive(Clone, Debug, PartialEq, Eq)]
pub struct PlayCall {
    pub levels: Vec<u8>,
    pub trace: Vec<u8>,
    pub flash: Vec<u8>,
    pub flash_mask: Vec<u8>,
    pub eeprom: Vec<u8>,
    pub eeprom_mask: Vec<u8>,
    pub result: Vec<u8>,
}

impl PlayCall {
    /// Answers, and leaves images, masks and result as the call must. The result's third number is 0.
    pub fn run(&mut self) -> u32 {
        let numbers = match self.played() {
            Ok(()) => [0; 4],
            Err(refusal) => [refusal.number, refusal.line, 0, refusal.field],
        };
        write_result(&mut self.result, numbers);
        numbers[0]
    }

    /// The merged records in the order in which they are written, one after the other, whatever shares a stamp.
    fn played(&mut self) -> Result<(), Refusal> {
        if self.has_wrong_buffer() {
            return Err(WRONG_BUFFER);
        }
        let Trace { board, records } = merged(&self.levels, &self.trace)?;
        let flash = Kept { value: self.flash.clone(), mask: self.flash_mask.clone() };
        let eeprom = Kept { value: self.eeprom.clone(), mask: self.eeprom_mask.clone() };
        let mut board = start(board, flash, eeprom);
        for record in records {
            board.play(record.event, record.stamp);
        }
        self.flash = board.flash.kept.value;
        self.flash_mask = board.flash.kept.mask;
        self.eeprom = board.eeprom.kept.value;
        self.eeprom_mask = board.eeprom.kept.mask;
        Ok(())
    }

    /// The replay's refusal 1, as far as its buffers are here.
    fn has_wrong_buffer(&self) -> bool {
        let kept = [&self.flash, &self.flash_mask, &self.eeprom, &self.eeprom_mask];
        kept.iter().any(|buffer| buffer.len() != KEPT)
            || self.result.len() != RESULT
            || has_bit_in_both(&self.flash, &self.flash_mask)
            || has_bit_in_both(&self.eeprom, &self.eeprom_mask)
    }
}

fn write_result(result: &mut Vec<u8>, numbers: [u32; 4]) {
    if result.len() == RESULT {
        *result = result_bytes(numbers);
    }
}
