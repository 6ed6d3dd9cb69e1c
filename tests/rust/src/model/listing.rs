//! What the programs print: `replay` ("One listing in full"; the field of a refused line is request 2/12's), and `pages`, the
//! pages written (request 1/12).

use super::call::{Call, REPLIES, RESULT, TIMES};
use super::kept::Kept;
use super::stamp::Orders;
use super::text::read;
use super::times::{ENTRY, FLASH_PAGES};

/// The three files that a program reads, each None where it is absent.
pub struct Files {
    pub trace: Option<Vec<u8>>,
    pub flash: Option<Vec<u8>>,
    pub eeprom: Option<Vec<u8>>,
}

/// What a program prints of its files.
pub type Listing = fn(&Files) -> String;

/// The programs by name.
pub const PROGRAMS: [(&str, Listing); 2] = [("replay", listing), ("pages", pages)];

pub fn listing(files: &Files) -> String {
    printed(files, played_lines)
}

pub fn pages(files: &Files) -> String {
    printed(files, page_lines)
}

/// A heading with lines of the call as it comes back, and the answer; of a refused one the answer alone.
fn printed(files: &Files, lines: fn(&Call) -> String) -> String {
    let flash = kept_of(&files.flash);
    let eeprom = kept_of(&files.eeprom);
    let mut call = Call {
        text: files.trace.clone().unwrap_or_default(),
        flash: flash.value,
        flash_mask: flash.mask,
        eeprom: eeprom.value,
        eeprom_mask: eeprom.mask,
        times: vec![0; TIMES],
        replies: vec![0; REPLIES],
        result: vec![0; RESULT],
    };
    let answer = call.run(Orders::EachBusWithLines);
    let second = number_at(&call.result, 4);
    match answer {
        0 => format!("{}settled\t{}\n", lines(&call), number_at(&call.result, 8)),
        6..=8 => format!("{}stop\t{}\t{}\n", lines(&call), answer, second),
        _ => format!("refused\t{}\t{}\t{}\n", answer, second, number_at(&call.result, 12)),
    }
}

/// A dump leaves no doubt; without one nothing is known.
fn kept_of(dump: &Option<Vec<u8>>) -> Kept {
    match dump {
        Some(bytes) => Kept::sure(bytes.clone()),
        None => Kept::doubtful(),
    }
}

fn number_at(bytes: &[u8], place: usize) -> u32 {
    bytes[place..place + 4].iter().rev().fold(0, |number, &byte| number << 8 | u32::from(byte))
}

/// The heading and a line for each record that was played.
fn played_lines(call: &Call) -> String {
    let mut lines = String::from("line\tstamp\treply\tmatch\n");
    let records = read(&call.text).map_or(Vec::new(), |trace| trace.records);
    for (record, reply) in records.iter().zip(call.replies.chunks_exact(4)) {
        if reply[0] == 0 {
            break;
        }
        lines += &format!("{}\t{}\t{}\t{}\n", record.line, record.stamp, reply_word(reply), match_sign(reply[3]));
    }
    lines
}

/// The heading and a line for each page that was written.
fn page_lines(call: &Call) -> String {
    let mut lines = String::from("chip\tpage\tstamp\n");
    for (place, entry) in call.times.chunks_exact(ENTRY).enumerate() {
        let (chip, page) = if place < FLASH_PAGES { ("flash", place) } else { ("eeprom", place - FLASH_PAGES) };
        if entry[0] == 1 {
            lines += &format!("{}\t{}\t{}\n", chip, page, number_at(entry, 1));
        }
    }
    lines
}

pub fn reply_word(reply: &[u8]) -> String {
    match reply[0] {
        2 => format!("{:02x}/{:02x}", reply[1], reply[2]),
        3 => String::from("ack"),
        4 => String::from("no"),
        5 => String::from("starts"),
        6 => String::from("ends"),
        7 => String::from("idle"),
        _ => String::from("-"),
    }
}

pub fn match_sign(compared: u8) -> char {
    match compared {
        1 => '=',
        2 => '!',
        _ => '.',
    }
}
