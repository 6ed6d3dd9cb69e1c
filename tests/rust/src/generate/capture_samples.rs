//! The captures on which the merge and the second engine are measured, each with a logger's trace; made anew from fixed seeds.

use super::captures::{session_events, Capture};
use super::drawn::{draw, Style};
use super::dumps::Dumps;
use super::random::Random;
use crate::model::kept::Kept;
use crate::model::record::{BoardLine, Event, FlashEvent};
use crate::model::text::TEXT_MOST;

pub struct CaptureSample {
    pub name: &'static str,
    make: fn() -> Capture,
}

impl CaptureSample {
    pub fn capture(&self) -> Capture {
        (self.make)()
    }
}

pub const ALL: [CaptureSample; 6] = [
    CaptureSample { name: "frames", make: frames },
    CaptureSample { name: "erases", make: erases },
    CaptureSample { name: "dense-alone", make: dense_alone },
    CaptureSample { name: "dense", make: dense },
    CaptureSample { name: "dense-by-turns", make: dense_by_turns },
    CaptureSample { name: "dense-at-the-end", make: dense_at_the_end },
];

const BOARD: BoardLine = BoardLine { status: 0x00, watched: 1, address: 0 };

/// Frames on both buses as an analyser sees them; the logger has them too, with the cycles' ends and the lines.
fn frames() -> Capture {
    let mut random = Random::seeded(21);
    let doubtful = Dumps { flash: Kept::doubtful(), eeprom: Kept::doubtful() };
    let style = Style { between: 3, together: 20, still: 2, ties: 10, hears_buses: true };
    let events = session_events(&mut random, BOARD, &doubtful, 600);
    let mut capture = Capture::from(draw(&mut random, BOARD, &events, 0, style));
    cut_at(&mut capture.levels);
    capture
}

/// Chip erases, each with its WREN and its end: what costs most in playing.
fn erases() -> Capture {
    let mut random = Random::seeded(22);
    let style = Style { between: 0, together: 0, still: 0, ties: 100, hears_buses: false };
    let frame = |sent: u8| [FlashEvent::Sel, FlashEvent::X { si: sent, so: 0xff }, FlashEvent::Des];
    let erase: Vec<FlashEvent> = [&frame(0x06)[..], &frame(0x62), &[FlashEvent::End]].concat();
    let events: Vec<Event> = erase.repeat(120).into_iter().map(Event::F).collect();
    let mut capture = Capture::from(draw(&mut random, BOARD, &events, 0, style));
    cut_at(&mut capture.levels);
    capture
}

/// As many whole lines as a text may have.
fn cut_at(levels: &mut Vec<u8>) {
    let length = levels[..TEXT_MOST.min(levels.len())].iter().rposition(|&byte| byte == b'\n').map_or(0, |lf| lf + 1);
    levels.truncate(length);
}

/// Each line at this stamp moves CS and SDA, so that every one gives two records.
fn moving_lines(stamps: impl Iterator<Item = usize>) -> Vec<u8> {
    let mut levels = Vec::new();
    for (number, stamp) in stamps.enumerate() {
        let level = (number + 1) % 2;
        let line = format!("{}\t{}\t0\t0\t0\t1\t1\t{}\n", stamp, level, level);
        if levels.len() + line.len() > TEXT_MOST {
            break;
        }
        levels.extend(line.into_bytes());
    }
    levels
}

/// A logger's trace of taken records alone, as long as may be.
fn taken_records(stamps: impl Iterator<Item = usize>) -> Vec<u8> {
    let mut trace = b"board\t00\t1\t0\n".to_vec();
    for stamp in stamps {
        let line = format!("{}\tL\ton\n", stamp);
        if trace.len() + line.len() > TEXT_MOST {
            break;
        }
        trace.extend(line.into_bytes());
    }
    trace
}

/// All lines at one stamp, and nothing taken from the logger: the most records that a capture can give.
fn dense_alone() -> Capture {
    Capture { levels: moving_lines((0..).map(|_| 1)), trace: taken_records(std::iter::empty()) }
}

/// All lines at one stamp, all taken records at the one before it: the most lines and records there can be.
fn dense() -> Capture {
    Capture { levels: moving_lines((0..).map(|_| 1)), trace: taken_records((0..).map(|_| 0)) }
}

/// A line and a taken record by turns, each at a stamp of its own.
fn dense_by_turns() -> Capture {
    Capture { levels: moving_lines((0..).map(|number| 2 * number)), trace: taken_records((0..).map(|number| 2 * number + 1)) }
}

/// Every line behind every taken record.
fn dense_at_the_end() -> Capture {
    Capture { levels: moving_lines((0..).map(|number| 10_000 + number)), trace: taken_records(0..) }
}
