//! CS, SCK, SI, SO and HOLD turned into records of F.

use super::sketch::{sketch, FixedCapture};

pub fn cases() -> Vec<FixedCapture> {
    let mut cases = Vec::new();
    cases.extend(frames());
    cases.extend(clock_counts());
    cases.extend(clocks_that_do_not_count());
    cases.extend(holds());
    cases.extend(parts_while_hold_is_low());
    cases.extend(parts());
    cases
}

fn frames() -> Vec<FixedCapture> {
    vec![
        sketch("a line at rest").lines("10 10001 11").merges(""),
        sketch("SI and SO may be 1 at first").lines("10 10111 11").merges(""),
        sketch("SI alone may be 1 at first").lines("0 10101 11").merges(""),
        sketch("nothing moves").lines("10 10001 11 | 11 10001 11 | 11 10001 11 | 900 10001 11").merges(""),
        sketch("CS falls and rises").lines("10 10001 11 | 11 00001 11 | 12 10001 11").merges("11 F sel | 12 F des"),
        sketch("CS falls and rises twice, at one stamp")
            .lines("10 10001 11 | 10 00001 11 | 10 10001 11 | 10 00001 11 | 10 10001 11")
            .merges("10 F sel | 10 F des | 10 F sel | 10 F des"),
        sketch("CS falls and stays low").lines("10 10001 11 | 4294967295 00001 11").merges("4294967295 F sel"),
        sketch("a byte line by line: its stamp is the eighth rise's")
            .lines("10 10001 11 | 11 00001 11 | 12 01011 11 | 13 00001 11 | 14 01011 11 | 15 00001 11 | 16 01011 11")
            .lines("17 00001 11 | 18 01011 11 | 19 00001 11 | 20 01011 11 | 21 00001 11 | 22 00101 11 | 23 01111 11")
            .lines("24 00101 11 | 25 01111 11 | 26 00101 11 | 27 00001 11 | 28 01011 11 | 29 00001 11 | 30 10001 11")
            .merges("11 F sel | 28 F x 06 ff | 30 F des"),
        sketch("SCK falls as CS rises behind a byte")
            .lines("0 10001 11 | 1 00001 11 | 2 01011 11 | 3 00001 11 | 4 01001 11 | 5 00011 11 | 6 01011 11 | 7 00011 11")
            .lines("8 01001 11 | 9 00001 11 | 10 01001 11 | 11 00011 11 | 12 01001 11 | 13 00001 11 | 14 01011 11 | 15 00001 11")
            .lines("16 01011 11 | 17 10001 11")
            .refused([13, 18, 0]),
        sketch("SO is what it is on the rise's line, though it moves with SCK")
            .lines("0 10001 11 | 1 00001 11 | 2 01011 11 | 3 00001 11 | 4 01001 11 | 5 00011 11 | 6 01011 11 | 7 00011 11")
            .lines("8 01001 11 | 9 00001 11 | 10 01001 11 | 11 00011 11 | 12 01001 11 | 13 00001 11 | 14 01011 11 | 15 00001 11")
            .lines("16 01011 11 | 17 00001 11 | 18 10001 11")
            .merges("1 F sel | 16 F x 00 a3 | 18 F des"),
        sketch("CS rises while SCK is high")
            .lines("5 10001 11")
            .lines("6 00001 11")
            .clocks(7, "1010 010")
            .lines("8 00110 11")
            .lines("9 00111 11 | 10 01111 11 | 11 11111 11")
            .merges("6 F sel | 10 F x a5 5b | 11 F des"),
        sketch("the most significant bit comes first")
            .lines("10 10001 11")
            .frame(20, "01 80 c1")
            .merges("20 F sel | 20 F x 01 fe | 20 F x 80 7f | 20 F x c1 3e | 20 F des"),
        sketch("nine bytes").lines("10 10001 11").frame(20, "00 11 22 33 44 55 66 77 88").merges(
            "20 F sel | 20 F x 00 ff | 20 F x 11 ee | 20 F x 22 dd | 20 F x 33 cc | 20 F x 44 bb | 20 F x 55 aa \
                 | 20 F x 66 99 | 20 F x 77 88 | 20 F x 88 77 | 20 F des",
        ),
        sketch("SI, SO and HOLD move with CS")
            .lines("10 10001 11 | 11 00110 11 | 12 10001 11 | 13 00111 11 | 14 10000 11")
            .merges("11 F sel | 12 F des | 13 F sel | 14 F des"),
    ]
}

/// So many clocks between CS's fall and its rise.
fn clock_counts() -> Vec<FixedCapture> {
    let case = |count: usize, records: &str| {
        let due = format!("11 F sel | {}14 F des", records);
        let clocks = "1".repeat(count);
        let name = format!("{} clocks", count);
        sketch(&name).lines("10 10001 11 | 11 00001 11").clocks(12, &clocks).lines("14 10001 11").merges(&due)
    };
    vec![
        case(0, ""),
        case(1, "14 F cut | "),
        case(2, "14 F cut | "),
        case(3, "14 F cut | "),
        case(4, "14 F cut | "),
        case(5, "14 F cut | "),
        case(6, "14 F cut | "),
        case(7, "14 F cut | "),
        case(8, "12 F x ff 00 | "),
        case(9, "12 F x ff 00 | 14 F cut | "),
        case(15, "12 F x ff 00 | 14 F cut | "),
        case(16, "12 F x ff 00 | 12 F x ff 00 | "),
        case(17, "12 F x ff 00 | 12 F x ff 00 | 14 F cut | "),
    ]
}

fn clocks_that_do_not_count() -> Vec<FixedCapture> {
    vec![
        sketch("clocks while CS is high")
            .lines("10 10001 11")
            .clocks(11, "1111 1111")
            .frame(12, "3c")
            .clocks(13, "111")
            .frame(14, "")
            .merges("12 F sel | 12 F x 3c c3 | 12 F des | 14 F sel | 14 F des"),
        sketch("CS falls while SCK is high: its rise before that is no clock")
            .lines("10 10001 11 | 11 11001 11 | 12 01001 11 | 13 00001 11")
            .clocks(14, "1111 111")
            .lines("15 10001 11")
            .merges("12 F sel | 15 F cut | 15 F des"),
        sketch("CS falls while SCK is high, and eight clocks follow")
            .lines("10 10001 11 | 11 11001 11 | 12 01001 11 | 13 00001 11")
            .clocks(14, "0110 1001")
            .lines("15 10001 11")
            .merges("12 F sel | 14 F x 69 96 | 15 F des"),
        sketch("CS rises and falls while SCK is high")
            .lines("10 10001 11 | 11 00001 11 | 12 01001 11 | 13 11001 11 | 14 01001 11 | 15 00001 11 | 16 10001 11")
            .merges("11 F sel | 13 F cut | 13 F des | 14 F sel | 16 F des"),
        sketch("SI and SO move while SCK is high, and count for nothing")
            .lines("1 10001 11 | 2 00001 11")
            .clocks(3, "000 0000")
            .lines("4 01001 11 | 5 01101 11 | 6 01111 11 | 7 01011 11 | 8 00011 11 | 9 10011 11")
            .merges("2 F sel | 4 F x 00 fe | 9 F des"),
    ]
}

fn holds() -> Vec<FixedCapture> {
    vec![
        sketch("HOLD low in the middle of a byte")
            .lines("10 10001 11 | 11 00001 11")
            .clocks(12, "101")
            .lines("13 00100 11")
            .clocks(14, "0000 0")
            .lines("15 00001 11")
            .clocks(16, "00101")
            .lines("17 10001 11")
            .merges("11 F sel | 16 F x a5 5a | 17 F des"),
        sketch("HOLD low after each bit")
            .lines("10 10001 11 | 11 00001 11")
            .clocks(12, "1")
            .lines("13 00000 11")
            .clocks(14, "11")
            .lines("15 00001 11")
            .clocks(16, "0")
            .lines("17 00000 11")
            .clocks(18, "1")
            .lines("19 00001 11")
            .clocks(20, "0")
            .lines("21 00000 11")
            .lines("22 00001 11")
            .clocks(23, "0")
            .lines("24 00000 11")
            .clocks(25, "1111 1111")
            .lines("26 00001 11")
            .clocks(27, "0011")
            .lines("28 10001 11")
            .merges("11 F sel | 27 F x 83 7c | 28 F des"),
        sketch("HOLD falls and rises while SCK is high")
            .lines("10 10001 11 | 11 00001 11")
            .clocks(12, "000 000")
            .lines("13 00101 11 | 14 01101 11 | 15 01100 11 | 16 00100 11 | 17 01100 11 | 18 01101 11 | 19 00101 11")
            .lines("20 00001 11 | 21 01001 11 | 22 00001 11 | 23 10001 11")
            .merges("11 F sel | 21 F x 02 fc | 23 F des"),
        sketch("SCK rises while HOLD is low, and HOLD rises above it")
            .lines("10 10001 11 | 11 00001 11 | 12 00000 11 | 13 01000 11 | 14 01001 11 | 15 00001 11 | 16 10001 11")
            .merges("11 F sel | 16 F des"),
        sketch("HOLD low where CS falls")
            .lines("10 10001 11 | 11 10000 11 | 12 00000 11")
            .clocks(13, "1111 1")
            .lines("14 00001 11")
            .clocks(15, "0000 1111")
            .lines("16 10001 11")
            .merges("12 F sel | 15 F x 0f f0 | 16 F des"),
        sketch("HOLD falls with CS")
            .lines("10 10001 11 | 11 00000 11")
            .clocks(12, "1")
            .lines("13 10001 11")
            .merges("11 F sel | 13 F des"),
        sketch("CS rises while HOLD is low after three clocks")
            .lines("10 10001 11 | 11 00001 11")
            .clocks(12, "111")
            .lines("13 00000 11 | 14 10000 11")
            .merges("11 F sel | 14 F cut | 14 F des"),
        sketch("CS rises while HOLD is low after seven clocks and one that does not count")
            .lines("10 10001 11 | 11 00001 11")
            .clocks(12, "1111 111")
            .lines("13 00000 11")
            .clocks(14, "1")
            .lines("15 10000 11")
            .merges("11 F sel | 15 F cut | 15 F des"),
        sketch("CS rises while HOLD is low after eight clocks and three that do not count")
            .lines("10 10001 11 | 11 00001 11")
            .clocks(12, "1111 0000")
            .lines("13 00000 11")
            .clocks(14, "111")
            .lines("15 10000 11")
            .merges("11 F sel | 12 F x f0 0f | 15 F des"),
        sketch("HOLD rises with CS")
            .lines("10 10001 11 | 11 00001 11")
            .clocks(12, "1")
            .lines("13 00000 11 | 14 10001 11")
            .merges("11 F sel | 14 F cut | 14 F des"),
        sketch("HOLD moves while CS is high").lines("10 10001 11 | 11 10000 11 | 12 10001 11 | 13 10000 11").merges(""),
    ]
}

/// CS rises while HOLD is low, after so many clocks and eight that do not count.
fn parts_while_hold_is_low() -> Vec<FixedCapture> {
    let case = |count: usize| {
        sketch(&format!("CS rises while HOLD is low after {} clocks, and eight more that do not count", count))
            .lines("10 10001 11 | 11 00001 11")
            .clocks(12, &"0".repeat(count))
            .lines("13 00000 11")
            .clocks(14, "1111 1111")
            .lines("15 10000 11 | 16 10001 11")
            .merges("11 F sel | 15 F cut | 15 F des")
    };
    (1..=7).map(case).collect()
}

fn parts() -> Vec<FixedCapture> {
    vec![
        sketch("a part left at the end").lines("10 10001 11 | 11 00001 11").clocks(12, "11111").merges("11 F sel"),
        sketch("a part left at the end behind a byte")
            .lines("10 10001 11 | 11 00001 11")
            .clocks(12, "1111 1111 111")
            .merges("11 F sel | 12 F x ff 00"),
        sketch("the last line is the eighth rise")
            .lines("10 10001 11 | 11 00001 11")
            .clocks(12, "1111 111")
            .lines("13 01101 11")
            .merges("11 F sel | 13 F x ff 00"),
        sketch("the last line is the seventh rise")
            .lines("10 10001 11 | 11 00001 11")
            .clocks(12, "1111 11")
            .lines("13 01101 11")
            .merges("11 F sel"),
        sketch("a part is not carried over into the next frame")
            .lines("10 10001 11 | 11 00001 11")
            .clocks(12, "1111")
            .lines("13 10001 11 | 14 00001 11")
            .clocks(15, "0000")
            .lines("16 10001 11")
            .merges("11 F sel | 13 F cut | 13 F des | 14 F sel | 16 F cut | 16 F des"),
        sketch("a byte after a part")
            .lines("10 10001 11 | 11 00001 11")
            .clocks(12, "1111 111")
            .lines("13 10001 11")
            .frame(14, "12")
            .merges("11 F sel | 13 F cut | 13 F des | 14 F sel | 14 F x 12 ed | 14 F des"),
    ]
}
