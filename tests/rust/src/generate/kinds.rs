//! The kinds of generated calls.

use super::author::{board_line, Author, Style, UNTIED};
use super::damage::{likely_byte, mutate, Sheet, DAMAGES};
use super::dumps::{call, dumps, spoil, Dumps};
use super::random::Random;
use crate::model::call::Call;
use crate::model::flash::Status;
use crate::model::text::TEXT_MOST;

/// Makes the call number `number` of its kind.
pub type Kind = fn(&mut Random, usize) -> Call;

/// A session with few ties; most run to their end.
pub fn session(random: &mut Random, _number: usize) -> Call {
    let style = Style {
        ties: random.pick(&[0, 10, 40]),
        line_ties: random.pick(&[0, 0, 3]),
        lines: random.pick(&[2, 4, 8]),
        wrong: random.pick(&[0, 2, 30]),
        long_pages: random.percent(15),
        ..UNTIED
    };
    let length = random.pick(&[5, 20, 60, 120, 250]);
    written(random, style, |author| steps(author, length))
}

/// A session where ties are the rule, of lines too.
pub fn tied_session(random: &mut Random, _number: usize) -> Call {
    let style = Style {
        ties: random.pick(&[60, 90]),
        line_ties: random.pick(&[5, 15, 40]),
        lines: random.pick(&[3, 8]),
        crowds: random.pick(&[0, 1]),
        ..UNTIED
    };
    let length = random.pick(&[10, 30, 80, 160]);
    written(random, style, |author| steps(author, length))
}

/// Some untied records, then a tied stamp, again and again.
pub fn probe(random: &mut Random, _number: usize) -> Call {
    written(random, UNTIED, |author| {
        for _ in 0..author.random.between(1, 5) {
            let before = author.random.between(0, 25);
            steps(author, before);
            let flash = author.random.below(9);
            let eeprom = author.random.below(9);
            let lines = author.random.pick(&[0, 1, 1, 2]);
            author.window(flash, eeprom, lines);
        }
        steps(author, 6);
    })
}

/// Stamps at and one past the limits of 8, 8 and 2.
pub fn limit(random: &mut Random, number: usize) -> Call {
    let flash = [0, 7, 8, 9][number % 4];
    let eeprom = [0, 7, 8, 9][number / 4 % 4];
    let lines = [0, 1, 2, 3][number / 16 % 4];
    written(random, UNTIED, |author| {
        let before = author.random.between(0, 12);
        steps(author, before);
        author.window(flash, eeprom, lines);
        steps(author, 4);
    })
}

/// Small stamps, whose orders of all three channels can be tried out.
pub fn small_stamps(random: &mut Random, _number: usize) -> Call {
    written(random, UNTIED, |author| {
        for _ in 0..author.random.between(1, 4) {
            let before = author.random.between(0, 14);
            steps(author, before);
            let flash = author.random.below(4);
            let eeprom = author.random.below(4);
            let lines = author.random.pick(&[1, 1, 2]);
            author.window(flash, eeprom, lines);
        }
    })
}

/// Each kind of damage in turn.
pub fn damaged(random: &mut Random, number: usize) -> Call {
    let mut call = session_of(random, 30);
    let mut sheet = Sheet::of(&call.text);
    DAMAGES[number % DAMAGES.len()].1(random, &mut sheet);
    call.text = sheet.text();
    call
}

pub fn mutated(random: &mut Random, _number: usize) -> Call {
    let length = random.pick(&[5, 20, 60]);
    let mut call = session_of(random, length);
    mutate(random, &mut call.text);
    call
}

/// Traces of thousands of records, up to the longest and over it.
pub fn long(random: &mut Random, number: usize) -> Call {
    let style = Style {
        ties: random.pick(&[0, 30, 80]),
        line_ties: 0,
        lines: 1,
        wrong: random.pick(&[0, 5]),
        jumps: 0,
        long_pages: true,
        ..UNTIED
    };
    let most = [TEXT_MOST, TEXT_MOST + 1, TEXT_MOST - 1, 40_000, TEXT_MOST][number % 5];
    let mut call = written(random, style, |author| {
        author.start_at(0);
        while author.text.len() < most && author.board.flash.status != Status::Lost {
            author.step();
        }
    });
    fit(&mut call.text, most);
    call
}

/// Brings a text to exactly `length`: drops lines at its end and fills up with line records on stamps of their own.
pub fn fit(text: &mut Vec<u8>, length: usize) {
    let mut sheet = Sheet::of(text);
    while sheet.lines.len() > 1 {
        let kept = sheet.text();
        let next = last_stamp(&sheet) + 1;
        if let Some(filling) = length.checked_sub(kept.len()).and_then(|left| filling(next, left)) {
            *text = [kept, filling.into_bytes()].concat();
            return;
        }
        sheet.lines.pop();
    }
}

fn last_stamp(sheet: &Sheet) -> u64 {
    let line = sheet.lines.last().map_or(String::new(), |line| String::from_utf8_lossy(line).into_owned());
    line.split('\t').next().and_then(|stamp| stamp.parse().ok()).unwrap_or(0)
}

/// Repeated `on` records of `left` bytes in all, the longer stamps last.
fn filling(next: u64, left: usize) -> Option<String> {
    let beside_stamp = "\tL\ton\n".len();
    let shortest = next.to_string().len() + beside_stamp;
    let longest = 10 + beside_stamp;
    let count = (left + longest - 1) / longest;
    if left < count * shortest {
        return None;
    }
    let mut spare = left - count * shortest;
    let mut lines = Vec::new();
    for number in (0..count).rev() {
        let more = spare.min(longest - shortest);
        spare -= more;
        let least = 10u64.pow((shortest + more - beside_stamp - 1) as u32);
        lines.push(format!("{}\tL\ton\n", least.max(next) + number as u64));
    }
    lines.reverse();
    Some(lines.concat())
}

pub fn spoiled_buffers(random: &mut Random, _number: usize) -> Call {
    let mut call = session_of(random, 12);
    if random.percent(30) {
        mutate(random, &mut call.text);
    }
    if random.percent(10) {
        call.text.resize(TEXT_MOST + 1, b'\n');
    }
    spoil(random, &mut call);
    call
}

/// Board lines right and wrong, with a short trace below.
pub fn board_lines(random: &mut Random, number: usize) -> Call {
    let mut call = session_of(random, 4);
    let mut sheet = Sheet::of(&call.text);
    let any = format!("{:02x}", number % 256);
    let mut fields =
        vec!["board", random.pick(&["00", "04", "8c"]), random.pick(&["1", "2", "3", "4"]), random.pick(&["0", "3", "7"])];
    match number % 7 {
        0 => fields[0] = random.pick(&["Board", "boar", "boardd", "", "board "]),
        1 | 2 => fields[1] = any.as_str(),
        3 => fields[1] = random.pick(&["8C", "0", "000", "", "0x", "8c "]),
        4 => fields[2] = random.pick(&["0", "5", "01", "", "9", "1 ", "-1", "14", "4294967297"]),
        5 => fields[3] = random.pick(&["8", "07", "", "10", "a", "+1", "4294967296", "18446744073709551616"]),
        _ => fields.extend(random.pick(&[None, None, Some(""), Some("0"), Some("\r")])),
    }
    sheet.lines[0] = fields.join("\t").into_bytes();
    call.text = sheet.text();
    call
}

/// Bytes that mean nothing, with or without a good board line.
pub fn random_bytes(random: &mut Random, _number: usize) -> Call {
    let length = random.pick(&[0, 1, 5, 40, 300, 2000]);
    let mut text = if random.percent(60) { b"board\t80\t2\t5\n".to_vec() } else { Vec::new() };
    let any = random.percent(40);
    for _ in 0..length {
        let byte = if any { random.byte() } else { likely_byte(random) };
        text.push(byte);
    }
    let dumps = dumps(random);
    call(random, text, dumps)
}

/// Lines put together from the words of the language: mostly records that may come next, some that may not.
pub fn words(random: &mut Random, _number: usize) -> Call {
    let mut text = b"board\t00\t1\t0\n".to_vec();
    let mut stamp = 0;
    let mut selected = false;
    let mut started = false;
    for _ in 0..random.between(1, 40) {
        stamp += random.pick(&[0, 0, 1, 7]);
        let event = if random.percent(97) { likely_event(random, &mut selected, &mut started) } else { random.pick(&EVENTS) };
        let line = if random.percent(97) { format!("{}\t{}\n", stamp, event) } else { wordy_line(random) };
        text.extend(line.into_bytes());
    }
    let dumps = dumps(random);
    call(random, text, dumps)
}

const EVENTS: [&str; 19] = [
    "F\tsel",
    "F\tdes",
    "F\tx\t06\tff",
    "F\tx\t05\tff",
    "F\tx\t00\t00",
    "F\tcut",
    "F\tend",
    "E\tsta",
    "E\tsto",
    "E\tb\ta0\t0",
    "E\tb\ta1\t0",
    "E\tb\t00\t0",
    "E\tb\t00\t1",
    "E\tcut",
    "E\tend",
    "L\ton",
    "L\toff",
    "L\tlock",
    "L\tfree",
];

/// An event that the buses' own order allows, but for what a `cut` forbids.
fn likely_event(random: &mut Random, selected: &mut bool, started: &mut bool) -> &'static str {
    match random.below(9) {
        0..=3 if *selected => {
            let event = random.pick(&["F\tdes", "F\tx\t06\tff", "F\tx\t05\tff", "F\tx\t00\t00", "F\tx\t15\t00"]);
            *selected = event != "F\tdes";
            event
        }
        0..=3 => {
            *selected = true;
            "F\tsel"
        }
        4..=6 if *started => {
            let event = random.pick(&["E\tsto", "E\tsta", "E\tb\ta0\t0", "E\tb\ta1\t0", "E\tb\t05\t0"]);
            *started = event != "E\tsto";
            event
        }
        4..=6 => {
            *started = true;
            "E\tsta"
        }
        _ => random.pick(&["F\tend", "E\tend", "L\ton", "L\toff", "L\tlock", "L\tfree"]),
    }
}

fn wordy_line(random: &mut Random) -> String {
    let words = [
        "0",
        "1",
        "10",
        "00",
        "4294967295",
        "F",
        "E",
        "L",
        "sel",
        "x",
        "des",
        "cut",
        "end",
        "sta",
        "b",
        "sto",
        "on",
        "off",
        "lock",
        "free",
        "board",
        "ff",
        "a0",
        "FF",
        "",
    ];
    let count = random.between(1, 6);
    let fields: Vec<&str> = (0..count).map(|_| random.pick(&words)).collect();
    format!("{}\n", fields.join("\t"))
}

fn session_of(random: &mut Random, length: usize) -> Call {
    let style = Style { ties: random.pick(&[0, 40]), ..UNTIED };
    written(random, style, |author| steps(author, length))
}

fn steps(author: &mut Author, count: usize) {
    for _ in 0..count {
        author.step();
    }
}

fn written(random: &mut Random, style: Style, write: impl FnOnce(&mut Author)) -> Call {
    let board = board_line(random);
    let dumps: Dumps = dumps(random);
    let mut author = Author::new(random, board, &dumps, style);
    write(&mut author);
    let text = author.text;
    call(random, text, dumps)
}
