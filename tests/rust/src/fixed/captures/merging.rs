//! What is taken from the logger and how both are written out as one trace; the texts' lengths.

use super::sketch::{sketch, FixedCapture};

pub fn cases() -> Vec<FixedCapture> {
    let mut cases = Vec::new();
    cases.extend(boards());
    cases.extend(by_stamp());
    cases.extend(at_one_stamp());
    cases.extend(text_lengths());
    cases
}

fn boards() -> Vec<FixedCapture> {
    let board = |line: &str| sketch(line).logger(line).lines("10 10001 11 | 11 00001 11").merges("11 F sel");
    vec![board("board 00 1 0"), board("board 8c 4 7"), board("board 04 2 5"), board("board 80 3 1"), board("board 08 1 6")]
}

fn by_stamp() -> Vec<FixedCapture> {
    let moved = "10 10001 11 | 20 00001 11 | 30 10001 11 | 40 10001 10 | 50 10001 11";
    vec![
        sketch("the logger's records before, between and behind")
            .logger("board 00 1 0 | 0 L lock | 19 F end | 21 E end | 31 L free | 45 L off | 51 L on | 4294967295 F end")
            .lines(moved)
            .merges(
                "0 L lock | 19 F end | 20 F sel | 21 E end | 30 F des | 31 L free | 40 E sta | 45 L off | 50 E sto | 51 L on \
                 | 4294967295 F end",
            ),
        sketch("the logger's records alone")
            .logger("board 00 1 0 | 1 F end | 2 E end | 3 L on | 4 L off | 5 L lock | 6 L free | 7 L free")
            .lines("10 10001 11")
            .merges("1 F end | 2 E end | 3 L on | 4 L off | 5 L lock | 6 L free | 7 L free"),
        sketch("the capture's records alone, whatever the logger heard on the buses")
            .logger("board 00 1 0 | 5 F sel | 6 F x 06 ff | 20 F des | 25 F sel | 30 F cut | 40 E sta | 41 E b a0 0 | 50 E cut")
            .lines(moved)
            .merges("20 F sel | 30 F des | 40 E sta | 50 E sto"),
        sketch("stamps are compared as numbers")
            .logger("board 00 1 0 | 9 L lock | 100 L free | 1000 L lock")
            .lines("8 10001 11 | 10 00001 11 | 99 10001 11 | 999 00001 11 | 1001 10001 11")
            .merges("9 L lock | 10 F sel | 99 F des | 100 L free | 999 F sel | 1000 L lock | 1001 F des"),
    ]
}

/// F, E, L, and within each the order it has.
fn at_one_stamp() -> Vec<FixedCapture> {
    vec![
        sketch("E before F in the capture").lines("10 10001 11 | 11 10001 10 | 11 00001 10").merges("11 F sel | 11 E sta"),
        sketch("E and F by turns in the capture")
            .lines("10 10001 11 | 11 10001 10 | 11 00001 10 | 11 00001 11 | 11 10001 11 | 11 10001 10 | 12 10001 11")
            .merges("11 F sel | 11 F des | 11 E sta | 11 E sto | 11 E sta | 12 E sto"),
        sketch("the logger has `off` before both ends")
            .logger("board 00 1 0 | 20 L off | 20 E end | 20 F end")
            .lines("10 10001 11")
            .merges("20 F end | 20 E end | 20 L off"),
        sketch("the logger has them by turns")
            .logger(
                "board 00 1 0 | 20 L lock | 20 F end | 20 L off | 20 E end | 20 F end | 20 L on | 20 E end | 21 L off | 21 F end",
            )
            .lines("10 10001 11 | 22 00001 11")
            .merges(
                "20 F end | 20 F end | 20 E end | 20 E end | 20 L lock | 20 L off | 20 L on | 21 F end | 21 L off | 22 F sel",
            ),
        sketch("line records keep their order")
            .logger("board 00 1 0 | 5 L free | 5 L lock | 5 L off | 5 L on | 5 L lock | 5 L free")
            .lines("10 10001 11")
            .merges("5 L free | 5 L lock | 5 L off | 5 L on | 5 L lock | 5 L free"),
        sketch("nine records of F at a stamp").lines("10 10001 11").frame(11, "00 01 02 03 04 05 06").merges(
            "11 F sel | 11 F x 00 ff | 11 F x 01 fe | 11 F x 02 fd | 11 F x 03 fc | 11 F x 04 fb | 11 F x 05 fa \
                 | 11 F x 06 f9 | 11 F des",
        ),
        sketch("a cut and its des, a cut and its sto, at one stamp with both bytes")
            .lines("10 10001 11 | 11 00001 11")
            .clocks(11, "1111 1111 1")
            .start(11)
            .bits(11, "0000 0000 1 0")
            .stop(11)
            .lines("11 10001 11")
            .merges("11 F sel | 11 F x ff 00 | 11 F cut | 11 F des | 11 E sta | 11 E b 00 1 | 11 E cut | 11 E sto"),
    ]
}

/// A level text of many lines at rest, all of 16 bytes: one digit and seven levels.
fn at_rest(lines: usize) -> Vec<u8> {
    b"1\t1\t0\t0\t0\t1\t1\t1\n".repeat(lines)
}

/// A logger's trace of 13 bytes and 16 for each frame, that has nothing to take.
fn passed_over(frames: usize) -> Vec<u8> {
    [&b"board\t00\t1\t0\n"[..], &b"2\tF\tsel\n2\tF\tdes\n".repeat(frames)].concat()
}

fn text_lengths() -> Vec<FixedCapture> {
    let case = |name: &str, levels: Vec<u8>, trace: Vec<u8>| sketch(name).raw(&levels).heard(&trace);
    let board = || b"board\t00\t1\t0\n".to_vec();
    let longest = at_rest(4096);
    assert_eq!(longest.len(), 65_536);
    let too_long = [&longest[..], b"1"].concat();
    let end = |levels: &[u8], last: &[u8]| [levels, last].concat();
    vec![
        case("a level text of 65,536 bytes", longest.clone(), board()).merges(""),
        case("a level text of 65,537 bytes", too_long.clone(), board()).refused([2, 0, 0]),
        case("a level text of 65,537 bytes that is right", end(&at_rest(4095), b"11\t1\t0\t0\t0\t1\t1\t1\n"), board())
            .refused([2, 0, 0]),
        case("a level text of 65,536 bytes whose last line moves", end(&at_rest(4095), b"1\t0\t0\t0\t0\t1\t1\t1\n"), board())
            .merges("1 F sel"),
        case(
            "a level text of 65,536 bytes whose last line lacks its LF",
            end(&at_rest(4095), b"11\t0\t0\t0\t0\t1\t1\t1"),
            board(),
        )
        .refused([12, 4096, 0]),
        case("a level text of 65,537 bytes whose first line is wrong", vec![b'x'; 65_537], board()).refused([2, 0, 0]),
        case("a level text of 131,072 bytes", at_rest(8192), board()).refused([2, 0, 0]),
        case("a trace of 65,537 bytes and a right level text", at_rest(1), vec![b'x'; 65_537]).refused([2, 0, 0]),
        case("a trace of 65,537 bytes and no level text", Vec::new(), vec![b'x'; 65_537]).refused([2, 0, 0]),
        case("both of 65,537 bytes", too_long.clone(), vec![b'x'; 65_537]).refused([2, 0, 0]),
        case("a trace of 65,537 bytes that is right", at_rest(1), of_length(65_537)).refused([2, 0, 0]),
        case("a trace of 65,536 bytes", at_rest(1), of_length(65_536)).merges("4294967295 F end"),
        case("both of 65,536 bytes", longest, of_length(65_536)).merges("4294967295 F end"),
        case("a trace of 65,536 bytes and a level text of 65,537", too_long, of_length(65_536)).refused([2, 0, 0]),
        longer_than_a_trace(),
    ]
}

/// CS and SDA move on each line, with SCL high: two records a line, and a merged text that the replay refuses with 2.
fn longer_than_a_trace() -> FixedCapture {
    let count = 3_500;
    let lines =
        (0..count).map(|stamp| if stamp % 2 == 0 { format!("{} 10001 11", stamp) } else { format!("{} 00001 10", stamp) });
    let records = (1..count).map(|stamp| {
        let (flash, eeprom) = if stamp % 2 == 1 { ("sel", "sta") } else { ("des", "sto") };
        format!("{} F {} | {} E {}", stamp, flash, stamp, eeprom)
    });
    let lines: Vec<String> = lines.collect();
    let records: Vec<String> = records.collect();
    sketch("a merged text longer than the replay takes").lines(&lines.join(" | ")).merges(&records.join(" | "))
}

/// A right logger's trace of this length: frames that are passed over, and an `end` at its end.
fn of_length(length: usize) -> Vec<u8> {
    let end = b"4294967295\tF\tend\n";
    let mut trace = passed_over((length - 13 - end.len()) / 16 - 1);
    // One frame more, whose stamps fill what is left: `sel` and `des` with their LF and tabs have seven bytes beside the stamp.
    let left = length - end.len() - trace.len();
    let digits = left - 14;
    trace.extend(format!("{}\tF\tsel\n{}\tF\tdes\n", "2".repeat(digits / 2), "2".repeat(digits - digits / 2)).into_bytes());
    trace.extend(end);
    assert_eq!(trace.len(), length);
    trace
}
