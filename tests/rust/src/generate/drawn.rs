//! A capture drawn from the records of a trace, and the logger's trace beside it (request 4/12): by the calls' rules the capture
//! gives back the bus records, each channel in its own order.

use super::pens::{EepromPen, EepromWires, FlashPen, FlashWires, EEPROM_AT_REST, FLASH_AT_REST};
use super::random::Random;
use crate::model::levels::{LevelLine, Levels};
use crate::model::merge::is_taken;
use crate::model::record::{BoardLine, EepromEvent, Event, FlashEvent};
use crate::model::text::Trace;
use crate::model::written::{board_line_of, line_of};

/// How a capture is to be, in hundredths.
#[derive(Clone, Copy)]
pub struct Style {
    /// Moves between that make no record.
    pub between: usize,
    /// Lines on which both buses move.
    pub together: usize,
    /// Lines on which nothing moves.
    pub still: usize,
    /// Lines that share the stamp of the one before, and taken records that do.
    pub ties: usize,
    /// Whether the logger has the bus records too, which are passed over.
    pub hears_buses: bool,
}

pub struct Drawn {
    pub levels: Vec<u8>,
    pub trace: Vec<u8>,
    /// What must come back of each bus without its `end`s.
    pub flash: Vec<FlashEvent>,
    pub eeprom: Vec<EepromEvent>,
    /// What is taken from the logger.
    pub taken: Vec<(u32, Event)>,
}

impl Drawn {
    /// In what a trace is not the merged one that is due; None where it is.
    pub fn unlike(&self, trace: &Trace) -> Option<String> {
        let events: Vec<Event> = trace.records.iter().map(|record| record.event).collect();
        let taken = |channel: fn(Event) -> bool| {
            let found: Vec<(u32, Event)> = trace.records.iter().map(|record| (record.stamp, record.event)).collect();
            let of_channel = |&(_, event): &(u32, Event)| is_taken(event) && channel(event);
            found.into_iter().filter(of_channel).eq(self.taken.iter().copied().filter(of_channel))
        };
        if !self.trace.starts_with(board_line_of(trace.board).as_bytes()) {
            return Some(String::from("another board line"));
        }
        if flash_of(&events) != self.flash {
            return Some(format!("{:?} of F where {:?} is due", flash_of(&events), self.flash));
        }
        if eeprom_of(&events) != self.eeprom {
            return Some(format!("{:?} of E where {:?} is due", eeprom_of(&events), self.eeprom));
        }
        let channels: [fn(Event) -> bool; 3] =
            [|event| matches!(event, Event::F(_)), |event| matches!(event, Event::E(_)), |event| matches!(event, Event::L(_))];
        if !channels.into_iter().all(taken) {
            return Some(format!("not as taken: {:?}", self.taken));
        }
        None
    }
}

pub fn level_line_of(line: &LevelLine) -> String {
    let Levels { cs, sck, si, so, hold, scl, sda } = line.levels;
    let fields: String = [cs, sck, si, so, hold, scl, sda].iter().map(|&level| format!("\t{}", u8::from(level))).collect();
    format!("{}{}\n", line.stamp, fields)
}

/// Draws the events in their order: what stands before a taken record is on the wires before its stamp.
pub fn draw(random: &mut Random, board: BoardLine, events: &[Event], first: u64, style: Style) -> Drawn {
    let mut sheet = Sheet::new(board, first, style);
    sheet.line();
    for &event in events {
        if is_taken(event) {
            sheet.take(random, event);
        } else {
            sheet.write(random, event);
        }
    }
    sheet.catch_up(random, 0);
    while random.percent(style.still) {
        sheet.advance(random);
        sheet.line();
    }
    let Sheet { levels, trace, taken, .. } = sheet;
    Drawn {
        levels: levels.into_bytes(),
        trace: trace.into_bytes(),
        flash: without_part(flash_of(events), FlashEvent::Cut),
        eeprom: without_part(eeprom_of(events), EepromEvent::Cut),
        taken,
    }
}

fn flash_of(events: &[Event]) -> Vec<FlashEvent> {
    let flash = events.iter().filter_map(|&event| if let Event::F(event) = event { Some(event) } else { None });
    flash.filter(|&event| event != FlashEvent::End).collect()
}

fn eeprom_of(events: &[Event]) -> Vec<EepromEvent> {
    let eeprom = events.iter().filter_map(|&event| if let Event::E(event) = event { Some(event) } else { None });
    eeprom.filter(|&event| event != EepromEvent::End).collect()
}

/// "A part left at the end of the capture is dropped."
fn without_part<T: PartialEq>(mut events: Vec<T>, cut: T) -> Vec<T> {
    if events.last() == Some(&cut) {
        events.pop();
    }
    events
}

struct Sheet {
    style: Style,
    levels: String,
    trace: String,
    taken: Vec<(u32, Event)>,
    flash: FlashWires,
    eeprom: EepromWires,
    flash_pen: FlashPen,
    eeprom_pen: EepromPen,
    /// The stamp of what was put down last, on either side.
    stamp: u64,
    /// Whether that is a taken record's.
    is_taken: bool,
}

impl Sheet {
    fn new(board: BoardLine, first: u64, style: Style) -> Sheet {
        Sheet {
            style,
            levels: String::new(),
            trace: board_line_of(board),
            taken: Vec::new(),
            flash: FLASH_AT_REST,
            eeprom: EEPROM_AT_REST,
            flash_pen: FlashPen::new(style.between),
            eeprom_pen: EepromPen::new(style.between),
            stamp: first,
            is_taken: false,
        }
    }

    fn line(&mut self) {
        let FlashWires { cs, sck, si, so, hold } = self.flash;
        let EepromWires { scl, sda } = self.eeprom;
        let levels = Levels { cs, sck, si, so, hold, scl, sda };
        self.levels += &level_line_of(&LevelLine { stamp: self.stamp as u32, levels });
    }

    /// To the stamp of one more line, which no taken record has.
    fn advance(&mut self, random: &mut Random) {
        if self.is_taken || !random.percent(self.style.ties) {
            self.stamp += gap(random);
        }
        self.is_taken = false;
    }

    fn take(&mut self, random: &mut Random, event: Event) {
        self.catch_up(random, 0);
        if !self.is_taken || !random.percent(self.style.ties) {
            self.stamp += gap(random);
        }
        self.is_taken = true;
        self.taken.push((self.stamp as u32, event));
        self.trace += &line_of(self.stamp, event);
    }

    fn write(&mut self, random: &mut Random, event: Event) {
        match event {
            Event::F(event) => self.flash_pen.write(random, event),
            Event::E(event) => self.eeprom_pen.write(random, event),
            Event::L(_) => (),
        }
        if self.style.hears_buses {
            self.trace += &line_of(self.stamp, event);
        }
        let left = random.pick(&[0, 0, 10, 40]);
        self.catch_up(random, left);
    }

    /// Lines for the steps of both buses, until so many are left.
    fn catch_up(&mut self, random: &mut Random, left: usize) {
        while self.flash_pen.steps.len() + self.eeprom_pen.steps.len() > left {
            let both = random.percent(self.style.together);
            let flash = both || self.eeprom_pen.steps.is_empty() || random.percent(50);
            if !random.percent(self.style.still) {
                self.move_buses(flash, both || !flash);
            }
            self.advance(random);
            self.line();
        }
    }

    fn move_buses(&mut self, flash: bool, eeprom: bool) {
        if flash {
            self.flash = self.flash_pen.steps.pop_front().unwrap_or(self.flash);
        }
        if eeprom {
            self.eeprom = self.eeprom_pen.steps.pop_front().unwrap_or(self.eeprom);
        }
    }
}

fn gap(random: &mut Random) -> u64 {
    match random.below(20) {
        0 => random.between(10, 900) as u64,
        1 | 2 => random.between(2, 9) as u64,
        _ => 1,
    }
}
