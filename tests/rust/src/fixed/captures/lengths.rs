//! The lengths of what is lent to the two calls: refusals 1 and 10, and which comes before which.

use super::sketch::{before, sketch, FixedCall, FixedCapture};
use crate::model::call::result_bytes;
use crate::model::capture_calls::{MergeCall, PlayCall};

/// `board 00 1 0`, `11 F sel` and `12 L on` with their LFs have 13, 9 and 8 bytes.
fn thirty_bytes() -> FixedCapture {
    sketch("merged to 30 bytes").logger("board 00 1 0 | 12 L on").lines("10 10001 11 | 11 00001 11").merges("11 F sel | 12 L on")
}

fn bad_line() -> FixedCapture {
    sketch("12").lines("10 10001 11 | 9 00001 11").refused([12, 2, 0])
}

fn moved_together() -> FixedCapture {
    sketch("13").lines("10 10001 11 | 11 01001 11").refused([13, 2, 0])
}

fn bad_trace() -> FixedCapture {
    sketch("3").logger("board 00 1 0 | 20 F sle").lines("10 10001 11").refused([3, 2, 3])
}

fn too_long() -> FixedCapture {
    sketch("2").raw(&[b'\n'; 65_537]).refused([2, 0, 0])
}

pub fn merges() -> Vec<FixedCall<MergeCall>> {
    let mut cases: Vec<FixedCall<MergeCall>> = [0, 1, 12, 13, 22, 29, 30, 31, 61, 65_536, 540_552, 540_553, 540_554]
        .iter()
        .map(|&length| thirty_bytes().merge_into(length))
        .collect();
    // Only a text that is merged asks for room.
    for case in [bad_line(), moved_together(), bad_trace(), too_long()] {
        cases.extend([0, 1, 30].iter().map(|&length| case.merge_into(length)));
    }
    for length in [0, 1, 4, 12, 15, 17, 20, 32, 32_768] {
        for case in [thirty_bytes(), bad_line(), bad_trace(), too_long()] {
            cases.push(with_result(case.merge_into(100), length));
        }
        cases.push(with_result(thirty_bytes().merge_into(29), length));
    }
    cases.push(no_text_at_all());
    cases
}

/// A result of another length than 16: 1, and nothing is written at all.
fn with_result(case: FixedCall<MergeCall>, length: usize) -> FixedCall<MergeCall> {
    let call = MergeCall { result: before(length), ..case.call };
    FixedCall { name: format!("{}, result of {} bytes", case.name, length), after: call.clone(), call, answer: 1 }
}

/// No texts and no room: the logger's trace is judged first.
fn no_text_at_all() -> FixedCall<MergeCall> {
    let call = MergeCall { levels: Vec::new(), trace: Vec::new(), output: Vec::new(), result: vec![0xa5; 16] };
    let after = MergeCall { result: result_bytes([3, 1, 0, 1]), ..call.clone() };
    FixedCall { name: String::from("no texts and no room"), call, answer: 3, after }
}

const BUFFERS: [&str; 5] = ["flash image", "flash mask", "EEPROM image", "EEPROM mask", "result"];

fn buffer(call: &mut PlayCall, which: usize) -> &mut Vec<u8> {
    match which {
        0 => &mut call.flash,
        1 => &mut call.flash_mask,
        2 => &mut call.eeprom,
        3 => &mut call.eeprom_mask,
        _ => &mut call.result,
    }
}

pub fn plays() -> Vec<FixedCall<PlayCall>> {
    let mut cases = Vec::new();
    for which in 0..BUFFERS.len() {
        let right = if which < 4 { 32_768 } else { 16 };
        for length in [0, 1, 12, right - 1, right + 1, 2 * right, 3_200] {
            cases.push(with_length(thirty_bytes().play(), which, length));
        }
        // Above each text that would be refused.
        for case in [bad_line(), moved_together(), bad_trace(), too_long()] {
            cases.push(with_length(case.play(), which, right - 1));
        }
    }
    for place in [0, 77, 32_767] {
        for case in [thirty_bytes(), bad_line(), bad_trace(), too_long()] {
            cases.push(with_bit_in_both(case.play(), place, 0x01, |call| (&mut call.flash, &mut call.flash_mask)));
            cases.push(with_bit_in_both(case.play(), place, 0x80, |call| (&mut call.eeprom, &mut call.eeprom_mask)));
        }
    }
    cases.extend([both_grounds(), apart()]);
    cases
}

/// Refusal 1: the result tells it where it has 16 bytes, and nothing else is written.
fn refused(name: String, call: PlayCall) -> FixedCall<PlayCall> {
    let mut after = call.clone();
    if after.result.len() == 16 {
        after.result = result_bytes([1, 0, 0, 0]);
    }
    FixedCall { name, call, answer: 1, after }
}

fn with_length(case: FixedCall<PlayCall>, which: usize, length: usize) -> FixedCall<PlayCall> {
    let mut call = case.call;
    buffer(&mut call, which).resize(length, 0x00);
    refused(format!("{}, {} of {} bytes", case.name, BUFFERS[which], length), call)
}

type Chip = fn(&mut PlayCall) -> (&mut Vec<u8>, &mut Vec<u8>);

fn with_bit_in_both(case: FixedCall<PlayCall>, place: usize, bit: u8, chip: Chip) -> FixedCall<PlayCall> {
    let mut call = case.call;
    let (image, mask) = chip(&mut call);
    image[place] |= bit;
    mask[place] |= bit;
    refused(format!("{}, bit {:02x} in image and mask at {}", case.name, bit, place), call)
}

fn both_grounds() -> FixedCall<PlayCall> {
    let mut call = thirty_bytes().play().call;
    call.flash_mask[9] = 0x10;
    call.result.clear();
    refused(String::from("a bit in both and no result"), call)
}

/// Value and mask share each byte but no bit: nothing to refuse.
fn apart() -> FixedCall<PlayCall> {
    let FixedCall { mut call, mut after, .. } = thirty_bytes().play();
    for images in [&mut call, &mut after] {
        images.flash = vec![0x5a; 32_768];
        images.flash_mask = vec![0xa5; 32_768];
        images.eeprom = vec![0x0f; 32_768];
        images.eeprom_mask = vec![0xf0; 32_768];
    }
    FixedCall { name: String::from("value and mask full but apart"), call, answer: 0, after }
}
