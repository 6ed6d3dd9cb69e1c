//! Refusals 12 and 13 of a level line, each ground of them, and which comes first.

use super::sketch::{lines, sketch, FixedCapture, Sketch};

const REST: &[u8] = b"10\t1\t0\t0\t0\t1\t1\t1\n";

pub fn cases() -> Vec<FixedCapture> {
    let mut cases = Vec::new();
    cases.extend(wrong_forms());
    cases.extend(wrong_levels());
    cases.extend(ends_of_text());
    cases.extend(first_lines());
    cases.extend(stamps());
    cases.extend(taken_stamps());
    cases.extend(together());
    cases.extend(several_grounds());
    cases
}

/// A line of wrong form below a good one, and above another.
fn wrong_forms() -> Vec<FixedCapture> {
    // Blanks stand for tabs here, and `_` for a blank.
    let forms = [
        "",
        "11",
        "11 1 0 0 0 1 1",
        "11 1 0 0 0 1 1 1 1",
        "11 1 0 0 0 1 1 1 ",
        " 11 1 0 0 0 1 1 1",
        "11  1 0 0 0 1 1 1",
        "11 1 0 0 0 1 1  1",
        "11 1000111",
        "11_1_0_0_0_1_1_1",
        "11_ 1 0 0 0 1 1 1",
        "_11 1 0 0 0 1 1 1",
        "11 1 0 0 0 1 1 1_",
        "11 1 0 0 0 1 1 1\r",
        "11\r 1 0 0 0 1 1 1",
        "011 1 0 0 0 1 1 1",
        "00 1 0 0 0 1 1 1",
        "+11 1 0 0 0 1 1 1",
        "-11 1 0 0 0 1 1 1",
        "11.0 1 0 0 0 1 1 1",
        "1b 1 0 0 0 1 1 1",
        "0x11 1 0 0 0 1 1 1",
        " 1 0 0 0 1 1 1",
        "4294967296 1 0 0 0 1 1 1",
        "4294967307 1 0 0 0 1 1 1",
        "99999999999 1 0 0 0 1 1 1",
        "18446744073709551627 1 0 0 0 1 1 1",
        "1 0 0 0 1 1 1 11",
        "board 00 1 0",
        "11 F sel",
        "11 1 0 0 0 1 1 1 F sel",
    ];
    let below = |form: &str| {
        let line = form.replace(' ', "\t").replace('_', " ").into_bytes();
        sketch(&format!("level line {:?}", form)).raw(REST).raw(&line).raw(b"\n12\t1\t0\t0\t0\t1\t1\t1\n").refused([12, 2, 0])
    };
    forms.iter().map(|form| below(form)).collect()
}

/// Each of the seven levels, spelled as none is, in a line that would move nothing.
fn wrong_levels() -> Vec<FixedCapture> {
    let mut cases = Vec::new();
    for place in 1..=7 {
        for word in ["2", "", "00", "01", "10", "11", "x", "-", "1 ", " 0", "H", "/", "\u{661}"] {
            let mut fields = ["11", "1", "0", "0", "0", "1", "1", "1"];
            fields[place] = word;
            let line = fields.join("\t") + "\n";
            let name = format!("level {} is {:?}", place, word);
            cases.push(sketch(&name).raw(REST).raw(line.as_bytes()).refused([12, 2, 0]));
        }
    }
    cases
}

fn ends_of_text() -> Vec<FixedCapture> {
    let no_lf =
        |name: &str, line: u32, before: &[u8]| sketch(name).raw(before).raw(b"11\t1\t0\t0\t0\t1\t1\t1").refused([12, line, 0]);
    vec![
        sketch("no level text").refused([12, 1, 0]),
        sketch("a level text of one LF").raw(b"\n").refused([12, 1, 0]),
        sketch("a level text of one byte").raw(b"1").refused([12, 1, 0]),
        no_lf("the only line lacks its LF", 1, b""),
        no_lf("the last line lacks its LF", 2, REST),
        no_lf("the last of four lines lacks its LF", 4, &[REST, REST, REST].concat()),
        sketch("an empty line at the end").raw(REST).raw(b"\n").refused([12, 2, 0]),
        sketch("an empty line at first").raw(b"\n").raw(REST).refused([12, 1, 0]),
        sketch("the last line is cut off in its stamp").raw(REST).raw(b"1").refused([12, 2, 0]),
        sketch("the last line is cut off behind a tab").raw(REST).raw(b"11\t1\t").refused([12, 2, 0]),
        sketch("a NUL at the end").raw(REST).raw(b"\0").refused([12, 2, 0]),
    ]
}

fn first_lines() -> Vec<FixedCapture> {
    let first = |name: &str, line: &str| sketch(name).lines(line).refused([12, 1, 0]);
    vec![
        first("CS at 0 at first", "10 00001 11"),
        first("SCK at 1 at first", "10 11001 11"),
        first("HOLD at 0 at first", "10 10000 11"),
        first("SCL at 0 at first", "10 10001 01"),
        first("SDA at 0 at first", "10 10001 10"),
        first("SCL and SDA at 0 at first", "10 10001 00"),
        first("every level 0 at first", "10 00000 00"),
        first("every level 1 at first", "10 11111 11"),
        first("every level contrary at first", "10 01110 00"),
        sketch("a wrong first line, and a right one below").lines("10 00001 11 | 11 10001 11").refused([12, 1, 0]),
    ]
}

fn stamps() -> Vec<FixedCapture> {
    vec![
        sketch("a lower stamp").lines("10 10001 11 | 9 10001 11").refused([12, 2, 0]),
        sketch("a lower stamp at the third line").lines("10 10001 11 | 12 00001 11 | 11 10001 11").refused([12, 3, 0]),
        sketch("a lower stamp than the line before, above the first")
            .lines("0 10001 11 | 4294967295 00001 11 | 4294967294 10001 11")
            .refused([12, 3, 0]),
        sketch("a stamp with fewer digits").lines("100 10001 11 | 99 10001 11").refused([12, 2, 0]),
        sketch("equal stamps").lines("10 10001 11 | 10 00001 11 | 10 10001 11").merges("10 F sel | 10 F des"),
        sketch("the least and the greatest stamp")
            .lines("0 10001 11 | 0 00001 11 | 4294967295 10001 11 | 4294967295 00001 11")
            .merges("0 F sel | 4294967295 F des | 4294967295 F sel"),
    ]
}

/// A record taken from the logger has a level line's stamp; one that is passed over may.
fn taken_stamps() -> Vec<FixedCapture> {
    let mut cases = Vec::new();
    for event in ["F end", "E end", "L on", "L off", "L lock", "L free"] {
        let at = |stamp: u32| format!("board 00 1 0 | {} {}", stamp, event);
        let capture = |what: &str, stamp: u32| {
            let name = format!("{} at {}", event, what);
            sketch(&name).logger(&at(stamp)).lines("10 10001 11 | 12 00001 11 | 14 00001 11 | 14 10001 11 | 16 10001 11")
        };
        cases.push(capture("the first line's stamp", 10).refused([12, 1, 0]));
        cases.push(capture("the second line's stamp", 12).refused([12, 2, 0]));
        cases.push(capture("two lines' stamp, one of them without an edge", 14).refused([12, 3, 0]));
        cases.push(capture("the last line's stamp, which has no edge", 16).refused([12, 5, 0]));
        let due = |before: &str, between: &str, behind: &str| format!("{}12 F sel | {}14 F des{}", before, between, behind);
        cases.push(capture("a stamp before the first line's", 9).merges(&due(&format!("9 {} | ", event), "", "")));
        cases.push(capture("a stamp between", 13).merges(&due("", &format!("13 {} | ", event), "")));
        cases.push(capture("a stamp behind", 17).merges(&due("", "", &format!(" | 17 {}", event))));
    }
    let passed = "10 F sel | 10 F x 05 ff | 11 E sta | 11 F cut | 12 F des | 12 E b a0 0 | 12 E cut | 13 E sto";
    cases.extend([
        sketch("stamps of records that are passed over")
            .logger(&format!("board 00 1 0 | {}", passed))
            .lines("10 10001 11 | 11 00001 11 | 12 10001 11 | 13 00001 11")
            .merges("11 F sel | 12 F des | 13 F sel"),
        sketch("a stamp that a passed-over and a taken record have")
            .logger("board 00 1 0 | 11 F sel | 11 F end | 11 F des")
            .lines("10 10001 11 | 11 00001 11")
            .refused([12, 2, 0]),
        sketch("the stamp of the second taken record")
            .logger("board 00 1 0 | 5 L lock | 12 L free | 20 L lock")
            .lines("10 10001 11 | 11 00001 11 | 12 10001 11")
            .refused([12, 3, 0]),
        sketch("the stamp of the last taken record")
            .logger("board 00 1 0 | 5 L lock | 12 L free | 4294967295 L lock")
            .lines("10 10001 11 | 11 00001 11 | 4294967295 10001 11")
            .refused([12, 3, 0]),
        sketch("both lines have a taken record's stamp")
            .logger("board 00 1 0 | 0 L lock | 7 L free")
            .lines("0 10001 11 | 7 00001 11")
            .refused([12, 1, 0]),
        sketch("stamps beside those of taken records")
            .logger("board 00 1 0 | 9 L lock | 11 L free | 13 L lock")
            .lines("10 10001 11 | 12 00001 11 | 14 10001 11")
            .merges("9 L lock | 11 L free | 12 F sel | 13 L lock | 14 F des"),
    ]);
    cases
}

/// Refusal 13, and what may change together.
fn together() -> Vec<FixedCapture> {
    let told = |name: &str, text: &str, line: u32| sketch(name).lines(text).refused([13, line, 0]);
    vec![
        told("SCK rises as CS falls", "10 10001 11 | 11 01001 11", 2),
        told("SCK rises as CS rises", "10 10001 11 | 11 00001 11 | 12 11001 11", 3),
        told("SCK falls as CS falls", "10 10001 11 | 11 11001 11 | 12 00001 11", 3),
        told("SCK falls as CS rises", "10 10001 11 | 11 00001 11 | 12 01001 11 | 13 10001 11", 4),
        told("SCK rises as SI rises", "10 10001 11 | 11 00001 11 | 12 01101 11", 3),
        told("SCK rises as SI falls", "10 10101 11 | 11 00101 11 | 12 01001 11", 3),
        told("SCK falls as SI rises", "10 10001 11 | 11 00001 11 | 12 01001 11 | 13 00101 11", 4),
        told("SCK falls as SI falls", "10 10101 11 | 11 00101 11 | 12 01101 11 | 13 00001 11", 4),
        told("SCK rises as HOLD falls", "10 10001 11 | 11 00001 11 | 12 01000 11", 3),
        told("SCK rises as HOLD rises", "10 10001 11 | 11 00000 11 | 12 01001 11", 3),
        told("SCK falls as HOLD falls", "10 10001 11 | 11 00001 11 | 12 01001 11 | 13 00000 11", 4),
        told("SCK falls as HOLD rises", "10 10001 11 | 11 11001 11 | 12 11000 11 | 13 10001 11", 4),
        told("SCK with SI while CS is high", "10 10001 11 | 11 11101 11", 2),
        told("SCK with HOLD while CS is high", "10 10001 11 | 11 11000 11", 2),
        told("SCK with SI while HOLD is low", "10 10001 11 | 11 00000 11 | 12 01100 11", 3),
        told("SCK with CS, SI and HOLD", "10 10001 11 | 11 01100 11", 2),
        told("SCL and SDA fall", "10 10001 11 | 11 10001 00", 2),
        told("SCL rises as SDA falls", "10 10001 11 | 11 10001 01 | 12 10001 10", 3),
        told("SCL falls as SDA rises", "10 10001 11 | 11 10001 10 | 12 10001 01", 3),
        told("SCL and SDA rise", "10 10001 11 | 11 10001 01 | 12 10001 00 | 13 10001 11", 4),
        told("everything moves", "10 10001 11 | 11 01110 00", 2),
        told("on two lines of one stamp", "10 10001 11 | 10 10001 00", 2),
        told("the first of two such lines", "10 10001 11 | 11 10001 11 | 12 10001 00 | 13 10001 11", 3),
        sketch("SCK moves with SO").lines("10 10001 11 | 11 11011 11 | 12 10001 11").merges(""),
        sketch("one moves and then the other")
            .lines("10 10001 11 | 10 11001 11 | 10 01001 11 | 10 01101 11 | 10 00101 11 | 10 00101 01 | 10 00101 00")
            .merges("10 F sel"),
    ]
}

fn several_grounds() -> Vec<FixedCapture> {
    let whole = || sketch("").lines("10 10001 11 | 11 00001 11");
    let named = |name: &str, sketch: Sketch| sketch.named(name);
    let taken = |sketch: Sketch| sketch.logger("board 00 1 0 | 12 L on");
    vec![
        named("a lower stamp and SCK with CS on one line", whole()).lines("9 11001 11").refused([12, 3, 0]),
        named("a taken record's stamp and SCL with SDA on one line", taken(whole())).lines("12 00001 00").refused([12, 3, 0]),
        named("no LF and SCL with SDA on one line", whole()).raw(b"12\t0\t0\t0\t0\t1\t0\t0").refused([12, 3, 0]),
        named("nine fields and SCL with SDA on one line", whole()).raw(b"12\t0\t0\t0\t0\t1\t0\t0\t0\n").refused([12, 3, 0]),
        named("13 above 12", whole()).lines("12 11001 11 | 9 11001 11").refused([13, 3, 0]),
        named("13 above a line without LF", whole()).lines("12 11001 11").raw(b"13").refused([13, 3, 0]),
        named("12 above 13", whole()).lines("9 00001 11 | 12 11001 11").refused([12, 3, 0]),
        named("a taken record's stamp above 13", taken(whole())).lines("12 00001 11 | 13 11001 11").refused([12, 3, 0]),
        named("13 above a taken record's stamp", taken(whole())).lines("11 11001 11 | 12 11001 11").refused([13, 3, 0]),
        sketch("a wrong first line that has a taken record's stamp")
            .logger("board 00 1 0 | 10 L on")
            .lines("10 00001 11 | 11 11001 00")
            .refused([12, 1, 0]),
        // What the second line would show against a wrong first line is not asked.
        sketch("a wrong first line above 13").lines("10 11001 11 | 11 00001 11").refused([12, 1, 0]),
    ]
}

/// The logger's trace is judged first, whole.
pub fn logger_cases() -> Vec<FixedCapture> {
    let case =
        |name: &str, trace: &[u8], told: [u32; 3]| sketch(name).lines("10 10001 11 | 11 00001 11").heard(trace).refused(told);
    let bad_levels =
        |name: &str, levels: &[u8], trace: &str, told: [u32; 3]| sketch(name).logger(trace).raw(levels).refused(told);
    let mut cases = vec![
        case("no logger's trace", b"", [3, 1, 1]),
        case("a board line out of range", &lines("board 00 5 0"), [3, 1, 3]),
        case("a board line without LF", b"board\t00\t1\t0", [3, 1, 5]),
        case("a bad field in the logger's trace", &lines("board 00 1 0 | 20 F sel | 21 F x 0g 00"), [3, 3, 4]),
        case("a bad field in a record that would be taken", &lines("board 00 1 0 | 20 L of"), [3, 2, 3]),
        case("a record too much in a line", &lines("board 00 1 0 | 20 L off 1"), [3, 2, 4]),
        case("the logger's stamps fall", &lines("board 00 1 0 | 20 L off | 19 L on"), [4, 3, 0]),
        case("stamps of records that are passed over fall", &lines("board 00 1 0 | 20 F sel | 19 F des"), [4, 3, 0]),
        case("impossible in F", &lines("board 00 1 0 | 20 F des"), [5, 2, 0]),
        case("impossible in E", &lines("board 00 1 0 | 20 L on | 20 E sta | 20 E sto | 21 E b a0 0"), [5, 5, 0]),
        case("impossible behind a cut", &lines("board 00 1 0 | 20 F sel | 20 F cut | 20 F end | 20 F x 00 00"), [5, 5, 0]),
    ];
    let three = "board 00 1 0 | 20 F sle";
    let four = "board 00 1 0 | 20 L on | 19 L on";
    let five = "board 00 1 0 | 20 E sto";
    let too_long = vec![b'\n'; 65_537];
    for (number, trace, told) in [(3, three, [3, 2, 3]), (4, four, [4, 3, 0]), (5, five, [5, 2, 0])] {
        cases.push(bad_levels(&format!("{} and no level text", number), b"", trace, told));
        cases.push(bad_levels(&format!("{} and a wrong level line", number), b"rubbish\n", trace, told));
        cases.push(bad_levels(&format!("{} and 13", number), &[REST, b"11\t1\t0\t0\t0\t1\t0\t0\n"].concat(), trace, told));
        cases.push(bad_levels(&format!("{} and too long a level text", number), &too_long, trace, told));
    }
    cases.push(bad_levels("13 and an empty board line", &[REST, b"11\t1\t0\t0\t0\t1\t0\t0\n"].concat(), "", [3, 1, 1]));
    cases
}
