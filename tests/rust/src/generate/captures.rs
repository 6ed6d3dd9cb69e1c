//! Captures with a logger's trace, and the two calls on them (request 4/12): drawn from the sessions that a logger would write,
//! walked at random, damaged, too long, on wrong buffers.

use super::author::{board_line, Author, UNTIED};
use super::damage::{likely_byte, mutate, Sheet, DAMAGES};
use super::drawn::{draw, Drawn, Style};
use super::dumps::{dumps, Dumps};
use super::flash_frames::frame_of;
use super::kinds::fit;
use super::random::Random;
use super::walks::walk;
use crate::model::call::RESULT;
use crate::model::capture_calls::{MergeCall, PlayCall};
use crate::model::merge::{merged, text_of};
use crate::model::record::{BoardLine, EepromEvent, Event, FlashEvent, LineEvent};
use crate::model::text::{read, TEXT_MOST};

#[derive(Clone)]
pub struct Capture {
    pub levels: Vec<u8>,
    pub trace: Vec<u8>,
}

/// Makes the capture number `number` of its kind.
pub type Kind = fn(&mut Random, usize) -> Capture;

/// Both calls on one capture.
#[derive(Clone)]
pub struct Calls {
    pub merge: MergeCall,
    pub play: PlayCall,
}

impl From<Drawn> for Capture {
    fn from(drawn: Drawn) -> Capture {
        Capture { levels: drawn.levels, trace: drawn.trace }
    }
}

pub fn style(random: &mut Random) -> Style {
    Style {
        between: random.pick(&[0, 10, 30, 50]),
        together: random.pick(&[0, 30, 100]),
        still: random.pick(&[0, 5, 20]),
        ties: random.pick(&[0, 20, 70, 98]),
        hears_buses: random.percent(50),
    }
}

/// A session's events: frames on both buses, cycles' ends, lines.
pub fn session_events(random: &mut Random, board: BoardLine, dumps: &Dumps, length: usize) -> Vec<Event> {
    let mut author = Author::new(random, board, dumps, UNTIED);
    (0..length).for_each(|_| author.step());
    events_of(&author.text)
}

fn events_of(text: &[u8]) -> Vec<Event> {
    let trace = read(text).expect("an author writes what can be read");
    trace.records.iter().map(|record| record.event).collect()
}

/// A capture of a session, with what must come back of it, and the images it was meant for.
pub fn session(random: &mut Random) -> (Drawn, Dumps) {
    let (board, dumps) = (board_line(random), dumps(random));
    let length = random.pick(&[1, 4, 12, 30, 60, 90]);
    let events = session_events(random, board, &dumps, length);
    let first = random.pick(&[0, 1, 9, 4_000_000_000]);
    let style = style(random);
    (draw(random, board, &events, first, style), dumps)
}

/// The supply falls in a status write, and a session goes on from there: no replay does.
pub fn lost_status(random: &mut Random, _number: usize) -> Capture {
    let (board, dumps) = (BoardLine { status: 0x00, ..board_line(random) }, dumps(random));
    let mut author = Author::new(random, board, &dumps, UNTIED);
    let before = author.random.below(20);
    (0..before).for_each(|_| author.step());
    author.finish_frames();
    author.add(Event::L(LineEvent::On));
    let written = author.random.byte();
    let asked = [&[FlashEvent::End][..], &frame_of(&[0x06]), &frame_of(&[0x01, written])].concat().into_iter().map(Event::F);
    for event in asked.chain([Event::L(LineEvent::Off), Event::L(LineEvent::On)]) {
        author.add(event);
    }
    (0..50).for_each(|_| author.step());
    let events = events_of(&author.text);
    let style = style(random);
    draw(random, board, &events, 0, style).into()
}

/// Cycles whose end falls together with line records, in any order at the logger: the order written is F, E, L.
pub fn tied_ends(random: &mut Random, _number: usize) -> Capture {
    let (board, dumps) = (board_line(random), dumps(random));
    let mut events = Vec::new();
    for event in session_events(random, board, &dumps, 60) {
        let lines = [LineEvent::Off, LineEvent::On, LineEvent::Lock, LineEvent::Free];
        let mut tied = vec![event];
        if let Event::F(FlashEvent::End) | Event::E(EepromEvent::End) = event {
            let line = Event::L(random.pick(&lines));
            tied.insert(random.below(2), line);
            tied.insert(random.below(3), Event::L(LineEvent::On));
        }
        events.extend(tied);
    }
    let style = Style { ties: 90, ..style(random) };
    draw(random, board, &events, 0, style).into()
}

fn short_session(random: &mut Random) -> Capture {
    let (board, dumps) = (board_line(random), dumps(random));
    let events = session_events(random, board, &dumps, 10);
    let style = style(random);
    draw(random, board, &events, 0, style).into()
}

/// Words of a level text that are right in another place, or nowhere.
const OTHER_LEVELS: [&str; 10] = ["2", "", "00", "01", "-", "x", "1 ", " 0", "10", "\u{661}"];

/// Each kind of damage that a text can have, and levels that are none.
pub fn damaged_levels(random: &mut Random, number: usize) -> Capture {
    let mut capture = if random.percent(50) { short_session(random) } else { walk(random, number) };
    let mut sheet = Sheet::of(&capture.levels);
    match number % (DAMAGES.len() + 10) {
        kind if kind < DAMAGES.len() => DAMAGES[kind].1(random, &mut sheet),
        _ => {
            let place = random.below(sheet.lines.len());
            let line = String::from_utf8_lossy(&sheet.lines[place]).into_owned();
            let mut fields: Vec<&str> = line.split('\t').collect();
            fields[random.between(1, 7)] = random.pick(&OTHER_LEVELS);
            sheet.lines[place] = fields.join("\t").into_bytes();
        }
    }
    capture.levels = sheet.text();
    capture
}

pub fn changed_bytes(random: &mut Random, number: usize) -> Capture {
    let mut capture = if random.percent(50) { short_session(random) } else { walk(random, number) };
    match number % 4 {
        0 => mutate(random, &mut capture.trace),
        1 => {
            mutate(random, &mut capture.trace);
            mutate(random, &mut capture.levels);
        }
        _ => mutate(random, &mut capture.levels),
    }
    capture
}

/// Levels that are others than they were, each a 1 for a 0 or a 0 for a 1: a glitch on a wire, or 13.
pub fn changed_levels(random: &mut Random, number: usize) -> Capture {
    let mut capture = if random.percent(50) { short_session(random) } else { walk(random, number) };
    let mut sheet = Sheet::of(&capture.levels);
    for _ in 0..random.pick(&[1, 1, 2, 5]) {
        let place = random.below(sheet.lines.len());
        let line = &mut sheet.lines[place];
        let level = line.len() - 1 - 2 * random.below(7);
        line[level] ^= 1;
    }
    capture.levels = sheet.text();
    capture
}

/// A logger's trace that is refused, or, where the damage is to what is passed over or a stamp, not.
pub fn damaged_trace(random: &mut Random, number: usize) -> Capture {
    let mut capture = short_session(random);
    let mut sheet = Sheet::of(&capture.trace);
    DAMAGES[number % DAMAGES.len()].1(random, &mut sheet);
    capture.trace = sheet.text();
    if random.percent(20) {
        mutate(random, &mut capture.levels);
    }
    capture
}

/// The level text of another capture than the trace's: stamps meet, and nothing fits.
pub fn strangers(random: &mut Random, number: usize) -> Capture {
    let levels = walk(random, number).levels;
    Capture { levels, trace: short_session(random).trace }
}

pub fn random_bytes(random: &mut Random, _number: usize) -> Capture {
    let mut capture = short_session(random);
    let length = random.pick(&[0, 1, 5, 16, 300]);
    let mut levels = if random.percent(60) { b"0\t1\t0\t0\t0\t1\t1\t1\n".to_vec() } else { Vec::new() };
    for _ in 0..length {
        levels.push(if random.percent(60) { random.pick(b"01\t\t\n") } else { likely_byte(random) });
    }
    capture.levels = levels;
    capture
}

/// Both texts near the longest, at it and over it.
pub fn long(random: &mut Random, number: usize) -> Capture {
    const LENGTHS: [usize; 4] = [TEXT_MOST, TEXT_MOST + 1, TEXT_MOST - 1, TEXT_MOST];
    let (board, dumps) = (board_line(random), dumps(random));
    let style = Style { hears_buses: true, ..style(random) };
    let mut capture = Capture { levels: Vec::new(), trace: Vec::new() };
    let mut records = 150;
    while capture.levels.len() <= TEXT_MOST {
        let events = session_events(random, board, &dumps, records);
        capture = draw(random, board, &events, 0, style).into();
        records *= 2;
    }
    fit_levels(&mut capture.levels, LENGTHS[number % 4]);
    fit(&mut capture.trace, LENGTHS[(number / 4 + number) % 4]);
    capture
}

/// Brings a level text to exactly `length`: drops lines at its end, and repeats the last one with longer stamps.
pub fn fit_levels(levels: &mut Vec<u8>, length: usize) {
    let mut sheet = Sheet::of(levels);
    while sheet.lines.len() > 1 {
        let kept = sheet.text();
        let last = &sheet.lines[sheet.lines.len() - 1];
        if let Some(filling) = length.checked_sub(kept.len()).and_then(|left| repeated(last, left)) {
            *levels = [kept, filling].concat();
            return;
        }
        sheet.lines.pop();
    }
}

/// Lines of `left` bytes in all with the levels of the line `last`, their stamps nines, of more digits than its own.
fn repeated(last: &[u8], left: usize) -> Option<Vec<u8>> {
    let digits = last.iter().position(|&byte| byte == b'\t')?;
    let beside = last.len() - digits + 1;
    let (shortest, longest) = (beside + digits + 1, beside + 9);
    let count = (left + longest - 1) / longest;
    let mut spare = left.checked_sub(count * shortest)?;
    let mut stamps = Vec::new();
    for _ in 0..count {
        let more = spare.min(longest - shortest);
        spare -= more;
        stamps.push(b"9".repeat(digits + 1 + more));
    }
    Some(stamps.iter().rev().flat_map(|stamp| [&stamp[..], &last[digits..], b"\n"].concat()).collect())
}

/// The calls on a capture with these images. The output is as long as the merged text, a byte shorter, or otherwise; what it
/// holds before is anything.
pub fn calls(random: &mut Random, number: usize, capture: Capture, dumps: Dumps) -> Calls {
    let Capture { levels, trace } = capture;
    let due = merged(&levels, &trace).map_or(300, |trace| text_of(trace.board, &trace.records).len());
    let length = match number % 8 {
        0 => due,
        1 => due - 1,
        2 => due + 1,
        3 => random.below(due + 1),
        4 => 2 * due,
        _ => due + random.between(1, 600),
    };
    let merge = MergeCall { levels, trace, output: random.bytes(length), result: random.bytes(RESULT) };
    let play = play_on(&merge.levels, &merge.trace, dumps, random.bytes(RESULT));
    Calls { merge, play }
}

pub fn play_on(levels: &[u8], trace: &[u8], dumps: Dumps, result: Vec<u8>) -> PlayCall {
    PlayCall {
        levels: levels.to_vec(),
        trace: trace.to_vec(),
        flash: dumps.flash.value,
        flash_mask: dumps.flash.mask,
        eeprom: dumps.eeprom.value,
        eeprom_mask: dumps.eeprom.mask,
        result,
    }
}

/// A ground for refusal 1 in each call, often above others.
pub fn wrong_buffers(random: &mut Random, number: usize) -> Calls {
    let mut capture = if random.percent(50) { changed_bytes(random, number) } else { short_session(random) };
    match random.below(8) {
        0 => capture.levels.resize(TEXT_MOST + 1, b'\n'),
        1 => capture.trace.resize(TEXT_MOST + 1, b'\n'),
        _ => (),
    }
    let dumps = dumps(random);
    let Calls { mut merge, mut play } = calls(random, number, capture, dumps);
    resize(random, &mut merge.result);
    match random.below(6) {
        0 => resize(random, &mut play.flash),
        1 => resize(random, &mut play.flash_mask),
        2 => resize(random, &mut play.eeprom),
        3 => resize(random, &mut play.eeprom_mask),
        4 => resize(random, &mut play.result),
        _ => {
            let place = random.below(play.flash.len());
            let (image, mask) = match random.below(2) {
                0 => (&mut play.flash, &mut play.flash_mask),
                _ => (&mut play.eeprom, &mut play.eeprom_mask),
            };
            image[place] |= 0x20;
            mask[place] |= 0x20;
        }
    }
    Calls { merge, play }
}

fn resize(random: &mut Random, buffer: &mut Vec<u8>) {
    let right = buffer.len();
    let length = random.pick(&[0, 1, 12, right - 1, right + 1, 2 * right, 8]);
    buffer.resize(length, 0x00);
}
