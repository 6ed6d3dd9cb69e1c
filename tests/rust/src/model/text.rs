//! Reading a trace ("The trace"), with refusals 2 to 5.

use super::fields::{acknowledge, bad_board_field, bad_record_field, fields, hex, stamp, status, watched_sector, wired_address};
use super::record::{BoardLine, EepromEvent, Event, FlashEvent, LineEvent, Record};

pub const TEXT_MOST: usize = 65_536;

#[derive(Clone, Debug, PartialEq, Eq)]
pub struct Trace {
    pub board: BoardLine,
    pub records: Vec<Record>,
}

/// A refusal: its number, the line and of a line of wrong form the first bad field (each 0 where none is to blame).
#[derive(Clone, Copy, Debug, PartialEq, Eq)]
pub struct Refusal {
    pub number: u32,
    pub line: u32,
    pub field: u32,
}

pub fn read(text: &[u8]) -> Result<Trace, Refusal> {
    if text.len() > TEXT_MOST {
        return Err(Refusal { number: 2, line: 0, field: 0 });
    }
    let lines = split_lines(text);
    let first = lines.first().copied().unwrap_or(NO_TEXT);
    let board = match first.read_by(board_line) {
        Some(board) => board,
        None => return Err(Refusal { number: 3, line: 1, field: bad_board_field(first.content) }),
    };
    let mut reading = Reading::at_start();
    for (above, line) in lines.iter().enumerate().skip(1) {
        reading.take(above as u32 + 1, *line)?;
    }
    Ok(Trace { board, records: reading.records })
}

/// A line: what stands before its LF, or before the text's end.
#[derive(Clone, Copy)]
pub struct Line<'a> {
    content: &'a [u8],
    has_lf: bool,
}

/// Line 1 where there is none: refused in its first field.
const NO_TEXT: Line = Line { content: &[], has_lf: false };

impl Line<'_> {
    /// A line that lacks its LF has no right form.
    pub fn read_by<T>(self, form: fn(&[u8]) -> Option<T>) -> Option<T> {
        if self.has_lf {
            form(self.content)
        } else {
            None
        }
    }
}

pub fn split_lines(text: &[u8]) -> Vec<Line<'_>> {
    let mut lines: Vec<Line> = text.split(|&byte| byte == b'\n').map(|content| Line { content, has_lf: true }).collect();
    // What stands behind the last LF is a line only where something does.
    let rest = lines.pop().map_or(&text[..0], |last| last.content);
    if !rest.is_empty() {
        lines.push(Line { content: rest, has_lf: false });
    }
    lines
}

struct Reading {
    records: Vec<Record>,
    order: BusOrder,
}

impl Reading {
    fn at_start() -> Reading {
        Reading { records: Vec::new(), order: BusOrder::default() }
    }

    /// Refusals 3, 4 and 5, in this order within a line.
    fn take(&mut self, number: u32, line: Line) -> Result<(), Refusal> {
        let (stamp, event) = match line.read_by(record_line) {
            Some(found) => found,
            None => return Err(Refusal { number: 3, line: number, field: bad_record_field(line.content) }),
        };
        let before = self.records.last().map_or(0, |record| record.stamp);
        if stamp < before {
            return Err(Refusal { number: 4, line: number, field: 0 });
        }
        if !self.order.allows(event) {
            return Err(Refusal { number: 5, line: number, field: 0 });
        }
        self.records.push(Record { line: number, stamp, event });
        Ok(())
    }
}

fn board_line(line: &[u8]) -> Option<BoardLine> {
    match fields(line).as_slice() {
        [b"board", bits, sector, address] => {
            Some(BoardLine { status: status(bits)?, watched: watched_sector(sector)?, address: wired_address(address)? })
        }
        _ => None,
    }
}

fn record_line(line: &[u8]) -> Option<(u32, Event)> {
    let fields = fields(line);
    match fields.as_slice() {
        [digits, channel, event @ ..] => {
            let stamp = stamp(digits)?;
            let event = match *channel {
                b"F" => Event::F(flash_event(event)?),
                b"E" => Event::E(eeprom_event(event)?),
                b"L" => Event::L(line_event(event)?),
                _ => return None,
            };
            Some((stamp, event))
        }
        _ => None,
    }
}

fn flash_event(fields: &[&[u8]]) -> Option<FlashEvent> {
    match fields {
        [b"sel"] => Some(FlashEvent::Sel),
        [b"x", si, so] => Some(FlashEvent::X { si: hex(si)?, so: hex(so)? }),
        [b"cut"] => Some(FlashEvent::Cut),
        [b"des"] => Some(FlashEvent::Des),
        [b"end"] => Some(FlashEvent::End),
        _ => None,
    }
}

fn eeprom_event(fields: &[&[u8]]) -> Option<EepromEvent> {
    match fields {
        [b"sta"] => Some(EepromEvent::Sta),
        [b"b", byte, ack] => {
            let byte = hex(byte)?;
            let not_acknowledged = acknowledge(ack)? == 1;
            Some(EepromEvent::B { byte, not_acknowledged })
        }
        [b"cut"] => Some(EepromEvent::Cut),
        [b"sto"] => Some(EepromEvent::Sto),
        [b"end"] => Some(EepromEvent::End),
        _ => None,
    }
}

fn line_event(fields: &[&[u8]]) -> Option<LineEvent> {
    match fields {
        [b"on"] => Some(LineEvent::On),
        [b"off"] => Some(LineEvent::Off),
        [b"lock"] => Some(LineEvent::Lock),
        [b"free"] => Some(LineEvent::Free),
        _ => None,
    }
}

/// What refusal 5 asks: the order of each bus by itself, whatever the supply does.
#[derive(Default)]
struct BusOrder {
    selected: bool,
    flash_cut: bool,
    started: bool,
    eeprom_cut: bool,
}

impl BusOrder {
    fn allows(&mut self, event: Event) -> bool {
        match event {
            Event::F(event) => self.allows_flash(event),
            Event::E(event) => self.allows_eeprom(event),
            Event::L(_) => true,
        }
    }

    fn allows_flash(&mut self, event: FlashEvent) -> bool {
        let in_frame = self.selected && !self.flash_cut;
        match event {
            FlashEvent::Sel => {
                let possible = !self.selected;
                self.selected = true;
                possible
            }
            FlashEvent::X { .. } => in_frame,
            FlashEvent::Cut => {
                self.flash_cut = true;
                in_frame
            }
            FlashEvent::Des => {
                let possible = self.selected;
                self.selected = false;
                self.flash_cut = false;
                possible
            }
            FlashEvent::End => true,
        }
    }

    fn allows_eeprom(&mut self, event: EepromEvent) -> bool {
        let in_frame = self.started && !self.eeprom_cut;
        match event {
            EepromEvent::Sta => {
                self.started = true;
                self.eeprom_cut = false;
                true
            }
            EepromEvent::B { .. } => in_frame,
            EepromEvent::Cut => {
                self.eeprom_cut = true;
                in_frame
            }
            EepromEvent::Sto => {
                let possible = self.started;
                self.started = false;
                self.eeprom_cut = false;
                possible
            }
            EepromEvent::End => true,
        }
    }
}
