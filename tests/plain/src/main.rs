//! The plain replay over pipes, as tests/c/driver.c serves the proved one. A request: the lengths of the eight buffers, each
//! as four bytes with the low one first, then the bytes of each. The answer: the call's answer in four bytes, then the seven
//! lent buffers. Eight zero lengths, or the end of the input, end the program.

use hazelcrook_plain::{replay, Buffers};
use std::io::{self, Read, Write};

const BUFFERS: usize = 8;

fn main() -> io::Result<()> {
    let mut input = io::BufReader::new(io::stdin());
    let mut output = io::BufWriter::new(io::stdout());
    while let Some(request) = request(&mut input)? {
        let (answer, lent) = answered(request);
        output.write_all(&answer.to_le_bytes())?;
        for buffer in &lent {
            output.write_all(buffer)?;
        }
        output.flush()?;
    }
    Ok(())
}

fn request(input: &mut impl Read) -> io::Result<Option<[Vec<u8>; BUFFERS]>> {
    let mut lengths = [0; 4 * BUFFERS];
    match input.read_exact(&mut lengths) {
        Err(error) if error.kind() == io::ErrorKind::UnexpectedEof => return Ok(None),
        other => other?,
    }
    if lengths == [0; 4 * BUFFERS] {
        return Ok(None);
    }
    let mut buffers: [Vec<u8>; BUFFERS] = Default::default();
    for (buffer, length) in buffers.iter_mut().zip(lengths.chunks_exact(4)) {
        buffer.resize(u32::from_le_bytes([length[0], length[1], length[2], length[3]]) as usize, 0);
        input.read_exact(buffer)?;
    }
    Ok(Some(buffers))
}

fn answered(request: [Vec<u8>; BUFFERS]) -> (u32, [Vec<u8>; BUFFERS - 1]) {
    let [text, mut flash, mut flash_mask, mut eeprom, mut eeprom_mask, mut times, mut replies, mut result] = request;
    let mut buffers = Buffers {
        flash: &mut flash,
        flash_mask: &mut flash_mask,
        eeprom: &mut eeprom,
        eeprom_mask: &mut eeprom_mask,
        times: &mut times,
        replies: &mut replies,
        result: &mut result,
    };
    let answer = replay(&text, &mut buffers);
    (answer, [flash, flash_mask, eeprom, eeprom_mask, times, replies, result])
}
