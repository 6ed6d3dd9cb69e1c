//! SCL and SDA turned into records of E.

use super::sketch::{sketch, FixedCapture, Sketch};

pub fn cases() -> Vec<FixedCapture> {
    let mut cases = Vec::new();
    cases.extend(starts_and_stops());
    cases.extend(bytes());
    cases.extend(cuts());
    cases.extend(clocks_that_are_no_bit());
    cases.extend(no_start_open());
    cases.extend(parts());
    cases.extend(both_buses());
    cases
}

fn starts_and_stops() -> Vec<FixedCapture> {
    vec![
        sketch("a start").lines("10 10001 11 | 11 10001 10").merges("11 E sta"),
        sketch("a start and a stop").lines("10 10001 11 | 11 10001 10 | 12 10001 11").merges("11 E sta | 12 E sto"),
        sketch("starts and stops in one high time, at one stamp")
            .lines("7 10001 11 | 7 10001 10 | 7 10001 11 | 7 10001 10 | 7 10001 11 | 7 10001 10")
            .merges("7 E sta | 7 E sto | 7 E sta | 7 E sto | 7 E sta"),
        sketch("SDA moves while SCL is low: nothing")
            .lines("10 10001 11 | 11 10001 01 | 12 10001 00 | 13 10001 01 | 14 10001 00 | 15 10001 01 | 16 10001 11")
            .merges(""),
        sketch("a start, and a start again with SCL low between")
            .lines("10 10001 11 | 11 10001 10 | 12 10001 00 | 13 10001 01 | 14 10001 11 | 15 10001 10")
            .merges("11 E sta | 15 E sta"),
        sketch("a start, and a stop with SCL low between")
            .lines("10 10001 11 | 11 10001 10 | 12 10001 00 | 13 10001 10 | 14 10001 11")
            .merges("11 E sta | 14 E sto"),
        sketch("a start, a stop and a start")
            .lines("10 10001 11 | 11 10001 10 | 12 10001 11 | 13 10001 01 | 14 10001 11 | 15 10001 10")
            .merges("11 E sta | 12 E sto | 15 E sta"),
    ]
}

fn started() -> Sketch {
    sketch("").lines("10 10001 11").start(11)
}

fn bytes() -> Vec<FixedCapture> {
    vec![
        sketch("a byte line by line: its stamp is the ninth fall's")
            .lines("10 10001 11 | 11 10001 10 | 12 10001 00 | 13 10001 01 | 14 10001 11 | 15 10001 01 | 16 10001 00")
            .lines("17 10001 10 | 18 10001 00 | 19 10001 01 | 20 10001 11 | 21 10001 01 | 22 10001 00 | 23 10001 10")
            .lines("24 10001 00 | 25 10001 10 | 26 10001 00 | 27 10001 10 | 28 10001 00 | 29 10001 10 | 30 10001 00")
            .lines("31 10001 10 | 32 10001 00 | 33 10001 10 | 34 10001 00 | 35 10001 10 | 36 10001 11")
            .merges("11 E sta | 34 E b a0 0 | 36 E sto"),
        started()
            .named("a byte that is not acknowledged")
            .bits(12, "1010 0001 1")
            .stop(13)
            .merges("11 E sta | 12 E b a1 1 | 13 E sto"),
        started()
            .named("the most significant bit of SDA comes first")
            .bits(12, "0000 0001 0")
            .bits(13, "1000 0000 0")
            .bits(14, "0000 0000 1")
            .bits(15, "1111 1111 0")
            .stop(16)
            .merges("11 E sta | 12 E b 01 0 | 13 E b 80 0 | 14 E b 00 1 | 15 E b ff 0 | 16 E sto"),
        started()
            .named("starts again behind bytes")
            .sends(12, "a0 01 02")
            .start_again(13)
            .bits(14, "1010 0001 0")
            .bits(15, "0101 1010 1")
            .start_again(16)
            .stop(17)
            .merges(
                "11 E sta | 12 E b a0 0 | 12 E b 01 0 | 12 E b 02 0 | 13 E sta | 14 E b a1 0 | 15 E b 5a 1 | 16 E sta | 17 E sto",
            ),
        started()
            .named("starts again behind bytes, and a stop with SCL low between")
            .sends(12, "a0 01 02")
            .start_again(13)
            .bits(14, "1010 0001 0")
            .bits(15, "0101 1010 1")
            .start_again(16)
            .lines("17 10001 00 | 18 10001 10 | 19 10001 11")
            .merges(
                "11 E sta | 12 E b a0 0 | 12 E b 01 0 | 12 E b 02 0 | 13 E sta | 14 E b a1 0 | 15 E b 5a 1 | 16 E sta | 19 E sto",
            ),
        started()
            .named("SDA moves to and fro while SCL is low, and its level at the rise counts")
            .lines("12 10001 00 | 13 10001 01 | 14 10001 00 | 15 10001 01 | 16 10001 11 | 17 10001 01")
            .lines("18 10001 00 | 19 10001 01 | 20 10001 00 | 21 10001 10 | 22 10001 00")
            .bits(23, "10 0111 1")
            .merges("11 E sta | 23 E b a7 1"),
    ]
}

/// So many bits before a stop, and before a start.
fn cuts() -> Vec<FixedCapture> {
    let bits = |count: usize| started().bits(12, &"1".repeat(count));
    let mut cases = Vec::new();
    for count in 1..=8 {
        let name = format!("{} bits before a stop", count);
        cases.push(bits(count).named(&name).stop(13).merges("11 E sta | 13 E cut | 13 E sto"));
        let name = format!("{} bits before a start", count);
        cases.push(bits(count).named(&name).start_again(13).merges("11 E sta | 13 E cut | 13 E sta"));
    }
    cases.extend([
        bits(9).named("9 bits before a stop").stop(13).merges("11 E sta | 12 E b ff 1 | 13 E sto"),
        bits(9).named("9 bits before a start").start_again(13).merges("11 E sta | 12 E b ff 1 | 13 E sta"),
        bits(10).named("10 bits before a stop").stop(13).merges("11 E sta | 12 E b ff 1 | 13 E cut | 13 E sto"),
        bits(17).named("17 bits before a start").start_again(13).merges("11 E sta | 12 E b ff 1 | 13 E cut | 13 E sta"),
        bits(18).named("18 bits before a stop").stop(13).merges("11 E sta | 12 E b ff 1 | 12 E b ff 1 | 13 E sto"),
        bits(5)
            .named("a part is not carried over a start")
            .start_again(13)
            .bits(14, "0000")
            .start_again(15)
            .bits(16, "0011 0011 0")
            .merges("11 E sta | 13 E cut | 13 E sta | 15 E cut | 15 E sta | 16 E b 33 0"),
        bits(8)
            .named("a part is not carried over a stop")
            .stop(13)
            .start(14)
            .bits(15, "1")
            .stop(16)
            .merges("11 E sta | 13 E cut | 13 E sto | 14 E sta | 16 E cut | 16 E sto"),
    ]);
    cases
}

/// A start or stop comes in the clock's high time.
fn clocks_that_are_no_bit() -> Vec<FixedCapture> {
    vec![
        started()
            .named("a stop in the high time of the first clock: no part")
            .lines("12 10001 00 | 13 10001 10 | 14 10001 11 | 15 10001 01 | 16 10001 11")
            .merges("11 E sta | 14 E sto"),
        started()
            .named("a start in the high time of the first clock: no part")
            .lines("12 10001 00 | 13 10001 01 | 14 10001 11 | 15 10001 10 | 16 10001 00")
            .bits(17, "1100 1100 0")
            .merges("11 E sta | 15 E sta | 17 E b cc 0"),
        started()
            .named("a stop in the high time of the second clock")
            .bits(12, "1")
            .lines("13 10001 00 | 14 10001 10 | 15 10001 11")
            .merges("11 E sta | 15 E cut | 15 E sto"),
        started()
            .named("a stop in the high time of the ninth clock: eight clocks without the ninth")
            .bits(12, "1010 0000")
            .lines("13 10001 10 | 14 10001 11")
            .merges("11 E sta | 14 E cut | 14 E sto"),
        started()
            .named("a start in the high time of the ninth clock")
            .bits(12, "1010 0000")
            .lines("13 10001 01 | 14 10001 11 | 15 10001 10 | 16 10001 00 | 17 10001 10 | 18 10001 00")
            .merges("11 E sta | 15 E cut | 15 E sta"),
        started()
            .named("a stop and a start in one high time")
            .bits(12, "00")
            .lines("13 10001 10 | 14 10001 11 | 15 10001 10 | 16 10001 00")
            .bits(17, "0000 1111 0")
            .merges("11 E sta | 14 E cut | 14 E sto | 15 E sta | 17 E b 0f 0"),
        started()
            .named("the clock that a start found high is none of its bits")
            .lines("12 10001 00")
            .bits(13, "1111 0000")
            .stop(14)
            .merges("11 E sta | 14 E cut | 14 E sto"),
    ]
}

fn no_start_open() -> Vec<FixedCapture> {
    let stop = "11 10001 01 | 12 10001 00 | 13 10001 10 | 14 10001 11";
    vec![
        sketch("a stop before the first start").lines("10 10001 11").lines(stop).merges(""),
        sketch("clocks before the first start")
            .lines("10 10001 11")
            .bits(11, "0101 0101 0101 01")
            .lines("12 10001 11")
            .merges(""),
        sketch("SCL rises as SDA falls behind a bit")
            .lines("10 10001 11")
            .bits(11, "111 1111 1")
            .lines("12 10001 11 | 13 10001 10")
            .bits(14, "1")
            .lines("15 10001 10 | 16 10001 11")
            .refused([13, 33, 0]),
        sketch("clocks before the first start, and one bit behind it")
            .lines("10 10001 11")
            .bits(11, "111 1111 1")
            .lines("12 10001 11 | 13 10001 10")
            .bits(14, "1")
            .stop(15)
            .merges("13 E sta | 15 E cut | 15 E sto"),
        started()
            .named("a stop behind a stop")
            .lines("12 10001 11 | 13 10001 01 | 14 10001 00 | 15 10001 10 | 16 10001 11")
            .merges("11 E sta | 12 E sto"),
        started()
            .named("clocks behind a stop")
            .sends(12, "a0")
            .stop(13)
            .bits(14, "1111 1111 1111")
            .lines("15 10001 11")
            .start(16)
            .bits(17, "0000 0000 1")
            .merges("11 E sta | 12 E b a0 0 | 13 E sto | 16 E sta | 17 E b 00 1"),
        started()
            .named("clocks and stops behind a stop, and no start")
            .lines("12 10001 11")
            .bits(13, "0000 1111")
            .stop(14)
            .bits(15, "1111 1111 1")
            .stop(16)
            .merges("11 E sta | 12 E sto"),
    ]
}

fn parts() -> Vec<FixedCapture> {
    let left = |count: usize| {
        let name = format!("{} bits left at the end", count);
        started().named(&name).bits(12, &"0".repeat(count))
    };
    vec![
        left(1).merges("11 E sta"),
        left(5).merges("11 E sta"),
        left(8).merges("11 E sta"),
        left(9).merges("11 E sta | 12 E b 00 0"),
        left(13).merges("11 E sta | 12 E b 00 0"),
        started().named("the ninth clock is left high at the end").bits(12, "1111 0000").lines("13 10001 10").merges("11 E sta"),
        started()
            .named("the ninth clock's fall is the last line")
            .bits(12, "1111 0000")
            .lines("13 10001 10 | 14 10001 00")
            .merges("11 E sta | 14 E b f0 0"),
    ]
}

/// What may change together, and what one line makes of both.
fn both_buses() -> Vec<FixedCapture> {
    vec![
        sketch("CS and SDA fall on one line, and rise on one")
            .lines("10 10001 11 | 11 00001 10 | 12 10001 11")
            .merges("11 F sel | 11 E sta | 12 F des | 12 E sto"),
        sketch("SCK moves with SCL").lines("10 10001 11 | 11 11001 01 | 12 10001 11 | 13 11001 01 | 14 10001 11").merges(""),
        sketch("SCK moves with SDA").lines("10 10001 11 | 11 11001 10 | 12 10001 11").merges("11 E sta | 12 E sto"),
        sketch("SCL moves with CS, SI, SO and HOLD")
            .lines("10 10001 11 | 11 00110 01 | 12 10001 11")
            .merges("11 F sel | 12 F des"),
        sketch("SCK, SO and SCL move together").lines("10 10001 11 | 11 11011 01 | 12 10001 11").merges(""),
        sketch("a byte of each bus ends on one line")
            .lines("10 10001 11 | 11 00001 10")
            .clocks(12, "0110 001")
            .bits(13, "0001 1000")
            .lines("14 00001 00 | 15 00001 10 | 16 01001 00 | 17 00001 00")
            .merges("11 F sel | 11 E sta | 16 F x 62 9c | 16 E b 18 0"),
    ]
}
