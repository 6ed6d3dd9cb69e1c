//! The fields of a line ("The trace"), and of a line of wrong form the first bad one (request 2/12).

pub const STAMP_MOST: u64 = 4_294_967_295;
pub const STATUS_BITS: u8 = 0b1000_1100;

/// What tabs part.
pub fn fields(line: &[u8]) -> Vec<&[u8]> {
    line.split(|&byte| byte == b'\t').collect()
}

/// The number of the first bad field in line 1.
pub fn bad_board_field(line: &[u8]) -> u32 {
    first_bad(line, board_allows)
}

/// The number of the first bad field in any other line.
pub fn bad_record_field(line: &[u8]) -> u32 {
    first_bad(line, record_allows)
}

/// Whether a field may have this content behind the fields before it, all of them good.
type Allows = fn(before: &[&[u8]], field: &[u8]) -> bool;

/// Of a line of wrong form, up to its LF or the text's end: the number of the first field whose content its place does not
/// allow; where all that are there are good, one past the last there.
fn first_bad(line: &[u8], allows: Allows) -> u32 {
    let fields = fields(line);
    let bad = (0..fields.len()).find(|&place| !allows(&fields[..place], fields[place]));
    bad.unwrap_or(fields.len()) as u32 + 1
}

fn board_allows(before: &[&[u8]], field: &[u8]) -> bool {
    match before.len() {
        0 => field == b"board",
        1 => status(field).is_some(),
        2 => watched_sector(field).is_some(),
        3 => wired_address(field).is_some(),
        _ => false,
    }
}

fn record_allows(before: &[&[u8]], field: &[u8]) -> bool {
    match before {
        [] => stamp(field).is_some(),
        [_] => matches!(field, b"F" | b"E" | b"L"),
        [_, b"F"] => matches!(field, b"sel" | b"x" | b"cut" | b"des" | b"end"),
        [_, b"E"] => matches!(field, b"sta" | b"b" | b"cut" | b"sto" | b"end"),
        [_, b"L"] => matches!(field, b"on" | b"off" | b"lock" | b"free"),
        [_, b"F", b"x"] | [_, b"F", b"x", _] | [_, b"E", b"b"] => hex(field).is_some(),
        [_, b"E", b"b", _] => acknowledge(field).is_some(),
        _ => false,
    }
}

pub fn status(field: &[u8]) -> Option<u8> {
    hex(field).filter(|status| status & !STATUS_BITS == 0)
}

pub fn watched_sector(field: &[u8]) -> Option<u8> {
    decimal(field, 4).filter(|&sector| sector > 0).map(|sector| sector as u8)
}

pub fn wired_address(field: &[u8]) -> Option<u8> {
    decimal(field, 7).map(|address| address as u8)
}

pub fn stamp(field: &[u8]) -> Option<u32> {
    decimal(field, STAMP_MOST).map(|stamp| stamp as u32)
}

/// The acknowledge bit, as it was recorded.
pub fn acknowledge(field: &[u8]) -> Option<u8> {
    decimal(field, 1).map(|bit| bit as u8)
}

pub fn hex(field: &[u8]) -> Option<u8> {
    match field {
        [high, low] => Some(hex_digit(*high)? * 16 + hex_digit(*low)?),
        _ => None,
    }
}

fn hex_digit(digit: u8) -> Option<u8> {
    match digit {
        b'0'..=b'9' => Some(digit - b'0'),
        b'a'..=b'f' => Some(digit - b'a' + 10),
        _ => None,
    }
}

fn decimal(field: &[u8], most: u64) -> Option<u64> {
    if field.is_empty() || (field.len() > 1 && field[0] == b'0') {
        return None;
    }
    let mut value: u64 = 0;
    for &digit in field {
        if !digit.is_ascii_digit() {
            return None;
        }
        value = value * 10 + u64::from(digit - b'0');
        if value > most {
            return None;
        }
    }
    Some(value)
}
