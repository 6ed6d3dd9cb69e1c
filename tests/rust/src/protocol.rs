//! How a driver is asked. A request: the lengths of the call's buffers, each as four bytes with the low one first, then the
//! bytes of each. An answer: the call's answer in four bytes, then the buffers that are not only read, as long as they were.
//! Lengths that are all zero, or the end of the input, end the talk.

use crate::model::call::{Call, BUFFERS};
use crate::model::capture_calls::{MergeCall, PlayCall};
use crate::model::plan::PlanCall;
use std::io::{self, Read, Write};
use std::slice;

/// A call as a driver is asked: its buffers in their order, first those that are only read.
pub trait Asked: Clone + Send + Sync {
    const BUFFERS: usize;
    const ONLY_READ: usize;

    fn asked(&self) -> Vec<&[u8]>;
    /// Those behind the ones that are only read.
    fn lent_mut(&mut self) -> Vec<&mut Vec<u8>>;
    /// None where a number that goes as a buffer has another length.
    fn of_buffers(buffers: Vec<Vec<u8>>) -> Option<Self>;
}

impl Asked for Call {
    const BUFFERS: usize = BUFFERS;
    const ONLY_READ: usize = 1;

    fn asked(&self) -> Vec<&[u8]> {
        self.buffers().iter().map(|buffer| buffer.as_slice()).collect()
    }

    fn lent_mut(&mut self) -> Vec<&mut Vec<u8>> {
        self.lent_buffers_mut().into_iter().collect()
    }

    fn of_buffers(buffers: Vec<Vec<u8>>) -> Option<Call> {
        let mut buffers = buffers.into_iter();
        Some(Call {
            text: buffers.next()?,
            flash: buffers.next()?,
            flash_mask: buffers.next()?,
            eeprom: buffers.next()?,
            eeprom_mask: buffers.next()?,
            times: buffers.next()?,
            replies: buffers.next()?,
            result: buffers.next()?,
        })
    }
}

/// The status goes as a buffer of one byte.
impl Asked for PlanCall {
    const BUFFERS: usize = 5;
    const ONLY_READ: usize = 3;

    fn asked(&self) -> Vec<&[u8]> {
        vec![&self.present, &self.wanted, slice::from_ref(&self.status), &self.list, &self.result]
    }

    fn lent_mut(&mut self) -> Vec<&mut Vec<u8>> {
        vec![&mut self.list, &mut self.result]
    }

    fn of_buffers(buffers: Vec<Vec<u8>>) -> Option<PlanCall> {
        let mut buffers = buffers.into_iter();
        let (present, wanted) = (buffers.next()?, buffers.next()?);
        let status = match buffers.next()?.as_slice() {
            [status] => *status,
            _ => return None,
        };
        Some(PlanCall { present, wanted, status, list: buffers.next()?, result: buffers.next()? })
    }
}

impl Asked for MergeCall {
    const BUFFERS: usize = 4;
    const ONLY_READ: usize = 2;

    fn asked(&self) -> Vec<&[u8]> {
        vec![&self.levels, &self.trace, &self.output, &self.result]
    }

    fn lent_mut(&mut self) -> Vec<&mut Vec<u8>> {
        vec![&mut self.output, &mut self.result]
    }

    fn of_buffers(buffers: Vec<Vec<u8>>) -> Option<MergeCall> {
        let mut buffers = buffers.into_iter();
        let (levels, trace) = (buffers.next()?, buffers.next()?);
        Some(MergeCall { levels, trace, output: buffers.next()?, result: buffers.next()? })
    }
}

impl Asked for PlayCall {
    const BUFFERS: usize = 7;
    const ONLY_READ: usize = 2;

    fn asked(&self) -> Vec<&[u8]> {
        let PlayCall { levels, trace, flash, flash_mask, eeprom, eeprom_mask, result } = self;
        vec![levels, trace, flash, flash_mask, eeprom, eeprom_mask, result]
    }

    fn lent_mut(&mut self) -> Vec<&mut Vec<u8>> {
        let PlayCall { flash, flash_mask, eeprom, eeprom_mask, result, .. } = self;
        vec![flash, flash_mask, eeprom, eeprom_mask, result]
    }

    fn of_buffers(buffers: Vec<Vec<u8>>) -> Option<PlayCall> {
        let mut buffers = buffers.into_iter();
        Some(PlayCall {
            levels: buffers.next()?,
            trace: buffers.next()?,
            flash: buffers.next()?,
            flash_mask: buffers.next()?,
            eeprom: buffers.next()?,
            eeprom_mask: buffers.next()?,
            result: buffers.next()?,
        })
    }
}

pub fn write_request(output: &mut impl Write, call: &impl Asked) -> io::Result<()> {
    for buffer in call.asked() {
        output.write_all(&(buffer.len() as u32).to_le_bytes())?;
    }
    for buffer in call.asked() {
        output.write_all(buffer)?;
    }
    Ok(())
}

pub fn read_request<C: Asked>(input: &mut impl Read) -> io::Result<Option<C>> {
    let mut lengths = Vec::new();
    for _ in 0..C::BUFFERS {
        match read_number(input) {
            Ok(number) => lengths.push(number as usize),
            Err(error) if error.kind() == io::ErrorKind::UnexpectedEof => return Ok(None),
            Err(error) => return Err(error),
        }
    }
    if lengths.iter().all(|&length| length == 0) {
        return Ok(None);
    }
    let mut buffers = Vec::new();
    for length in lengths {
        buffers.push(read_bytes(input, length)?);
    }
    C::of_buffers(buffers).map(Some).ok_or_else(|| io::Error::from(io::ErrorKind::InvalidData))
}

pub fn write_answer<C: Asked>(output: &mut impl Write, answer: u32, call: &C) -> io::Result<()> {
    output.write_all(&answer.to_le_bytes())?;
    for buffer in &call.asked()[C::ONLY_READ..] {
        output.write_all(buffer)?;
    }
    output.flush()
}

/// The answer to a call, and the call with its buffers as they came back.
pub fn read_answer<C: Asked>(input: &mut impl Read, asked: &C) -> io::Result<(u32, C)> {
    let answer = read_number(input)?;
    let mut call = asked.clone();
    for buffer in call.lent_mut() {
        input.read_exact(buffer)?;
    }
    Ok((answer, call))
}

fn read_number(input: &mut impl Read) -> io::Result<u32> {
    let mut bytes = [0; 4];
    input.read_exact(&mut bytes)?;
    Ok(u32::from_le_bytes(bytes))
}

fn read_bytes(input: &mut impl Read, length: usize) -> io::Result<Vec<u8>> {
    let mut bytes = vec![0; length];
    input.read_exact(&mut bytes)?;
    Ok(bytes)
}
