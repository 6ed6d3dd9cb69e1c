//! Buffers that the call must refuse, and what it may write then.

use super::script::Start;
use super::Fixed;
use crate::model::call::{result_bytes, Call, BUFFERS};
use crate::model::kept::KEPT;
use crate::model::text::TEXT_MOST;

const NAMES: [&str; BUFFERS - 1] =
    ["flash image", "flash mask", "EEPROM image", "EEPROM mask", "page times", "replies", "result"];
const TIMES_PLACE: usize = 4;
const RESULT_PLACE: usize = 6;

pub fn cases() -> Vec<Fixed> {
    let mut cases = Vec::new();
    for place in 0..NAMES.len() {
        cases.extend(wrong_lengths(place));
    }
    cases.extend([0, 77, KEPT - 1].iter().flat_map(|&place| bits_in_both(place)));
    cases.push(before_the_text());
    cases.extend([0, 3_199, 3_201].iter().flat_map(|&length| times_before_the_text(length)));
    cases.extend([12, 15, 17].iter().map(|&length| result_before_the_text(length)));
    cases.push(before_too_long_a_text());
    cases.push(everything_empty_but_the_text());
    cases.push(full_bytes_apart());
    cases
}

fn trace() -> Vec<u8> {
    b"board\t00\t1\t0\n10\tF\tsel\n20\tF\tx\t05\tff\n30\tF\tx\t00\t01\n".to_vec()
}

/// Refusal 1: the result tells it where it can be written, the rest stays.
fn refused(name: String, call: Call) -> Fixed {
    let mut after = call.clone();
    if after.result.len() == 16 {
        after.result = result_bytes([1, 0, 0, 0]);
    }
    Fixed { name, call, answer: 1, after }
}

fn wrong_lengths(place: usize) -> Vec<Fixed> {
    let right = Start::Counting.call(trace()).buffers()[place + 1].len();
    let mut lengths = vec![0, 1, right - 1, right + 1, 2 * right];
    match place {
        // As many bytes as entries, entries without their marks, and another buffer's length.
        TIMES_PLACE => lengths.extend([640, 2_560, KEPT]),
        RESULT_PLACE => lengths.extend([4, 8, 12]),
        _ => (),
    }
    lengths.into_iter().map(|length| wrong_length(place, length)).collect()
}

fn wrong_length(place: usize, length: usize) -> Fixed {
    let mut call = Start::Counting.call(trace());
    call.lent_buffers_mut()[place].resize(length, 0);
    refused(format!("{} of {} bytes", NAMES[place], length), call)
}

fn bits_in_both(place: usize) -> Vec<Fixed> {
    let mut flash = Start::Doubtful.call(trace());
    flash.flash[place] = 0x10;
    let mut eeprom = Start::Erased.call(trace());
    eeprom.eeprom_mask[place] = 0x01;
    vec![refused(format!("flash bit in both at {}", place), flash), refused(format!("EEPROM bit in both at {}", place), eeprom)]
}

fn before_the_text() -> Fixed {
    let mut call = Start::Counting.call(b"rubbish".to_vec());
    call.replies.pop();
    refused(String::from("a wrong buffer comes before a wrong text"), call)
}

/// A table of a wrong length, above each text that would be refused, and with a result that can't tell it.
fn times_before_the_text(length: usize) -> Vec<Fixed> {
    let case = |before: &str, text: &[u8], result: usize| {
        let mut call = Start::Counting.call(text.to_vec());
        call.times.resize(length, 0x01);
        call.result.resize(result, 0xa5);
        refused(format!("page times of {} bytes come before {}", length, before), call)
    };
    vec![
        case("no text", b"", 16),
        case("too long a text", &[b'\n'; TEXT_MOST + 1], 16),
        case("a line of wrong form", b"board\t00\t1\t0\n10\tF\tsle\n", 16),
        case("a falling stamp", b"board\t00\t1\t0\n10\tL\ton\n9\tL\ton\n", 16),
        case("an impossible record", b"board\t00\t1\t0\n10\tF\tdes\n", 16),
        case("a stop", b"board\t00\t1\t0\n10\tL\ton\n10\tL\ton\n10\tL\ton\n", 16),
        case("nothing, with a result of 15 bytes", &trace(), 15),
    ]
}

/// No field of a bad line is told either.
fn result_before_the_text(length: usize) -> Fixed {
    let mut call = Start::Counting.call(b"board\t00\t1\t0\n10\tF\tsle\n".to_vec());
    call.result.resize(length, 0xa5);
    refused(format!("a result of {} bytes comes before a wrong text", length), call)
}

fn before_too_long_a_text() -> Fixed {
    let mut call = Start::Counting.call(vec![b'\n'; TEXT_MOST + 1]);
    call.flash_mask[9] = 0xff;
    call.flash[9] = 0x80;
    refused(String::from("a bit in both comes before too long a text"), call)
}

fn everything_empty_but_the_text() -> Fixed {
    let mut call = Start::Counting.call(trace());
    call.lent_buffers_mut().into_iter().for_each(|buffer| buffer.clear());
    refused(String::from("everything empty but the text"), call)
}

/// Value and mask share each byte but no bit: nothing to refuse.
fn full_bytes_apart() -> Fixed {
    let mut call = Start::Counting.call(trace());
    call.flash = vec![0x5a; KEPT];
    call.flash_mask = vec![0xa5; KEPT];
    call.eeprom = vec![0x0f; KEPT];
    call.eeprom_mask = vec![0xf0; KEPT];
    let mut after = call.clone();
    after.times = vec![0; 3_200];
    after.replies = vec![0; 40_000];
    after.replies[..12].copy_from_slice(&[1, 0, 0, 0, 1, 0, 0, 0, 2, 0, 0, 2]);
    after.result = result_bytes([0, 0, 1, 0]);
    Fixed { name: String::from("value and mask full but apart"), call, answer: 0, after }
}
