//! The text, read and checked once into records ("The trace"), with refusals 2 to 5.

use crate::record::{Board, EepromEvent, Event, FlashEvent, LineEvent, Record};

const LONGEST: usize = 65_536;
const SHORTEST_LINE: usize = 7;
const STATUS_BITS: u8 = 0b1000_1100;

pub struct Refusal {
    pub number: u32,
    pub line: u32,
    pub field: u32,
}

/// The number of a line's first bad field (request 2/12).
type BadField = u32;

pub fn read(text: &[u8]) -> Result<(Board, Vec<Record>), Refusal> {
    if text.len() > LONGEST {
        return Err(Refusal { number: 2, line: 0, field: 0 });
    }
    let mut lines = text.split_inclusive(|&byte| byte == b'\n');
    let board = board(lines.next().unwrap_or(&[])).map_err(|field| Refusal { number: 3, line: 1, field })?;
    let mut records: Vec<Record> = Vec::with_capacity(text.len() / SHORTEST_LINE);
    let mut buses = Buses::default();
    let mut before = 0;
    for (content, line) in lines.zip(2..) {
        let record = record(content).map_err(|field| Refusal { number: 3, line, field })?;
        if record.stamp < before {
            return Err(Refusal { number: 4, line, field: 0 });
        }
        if !buses.allow(record.event) {
            return Err(Refusal { number: 5, line, field: 0 });
        }
        before = record.stamp;
        records.push(record);
    }
    Ok((board, records))
}

/// A line's fields from the left, and how many of them were asked for.
struct Fields<I> {
    left: I,
    asked: BadField,
    has_lf: bool,
}

fn fields(line: &[u8]) -> Fields<impl Iterator<Item = &[u8]>> {
    let (content, has_lf) = match line {
        [content @ .., b'\n'] => (content, true),
        _ => (line, false),
    };
    Fields { left: content.split(|&byte| byte == b'\t'), asked: 0, has_lf }
}

impl<'a, I: Iterator<Item = &'a [u8]>> Fields<I> {
    /// The next field, which must be there with content that its place allows.
    fn next<T>(&mut self, value: impl FnOnce(&'a [u8]) -> Option<T>) -> Result<T, BadField> {
        self.asked += 1;
        self.left.next().and_then(value).ok_or(self.asked)
    }

    /// Nothing but the LF comes behind the last field.
    fn end(&mut self) -> Result<(), BadField> {
        if self.has_lf && self.left.next().is_none() {
            Ok(())
        } else {
            Err(self.asked + 1)
        }
    }
}

fn board(line: &[u8]) -> Result<Board, BadField> {
    let mut fields = fields(line);
    fields.next(|field| (field == b"board").then_some(()))?;
    let status = fields.next(|field| hex(field).filter(|status| status & !STATUS_BITS == 0))?;
    let watched = fields.next(|field| digit(field, 4).filter(|&watched| watched != 0))?;
    let address = fields.next(|field| digit(field, 7))?;
    fields.end()?;
    Ok(Board { status, watched, address })
}

fn record(line: &[u8]) -> Result<Record, BadField> {
    let mut fields = fields(line);
    let stamp = fields.next(stamp)?;
    let event = match fields.next(Some)? {
        b"F" => Event::Flash(flash_event(&mut fields)?),
        b"E" => Event::Eeprom(eeprom_event(&mut fields)?),
        b"L" => Event::Line(fields.next(line_event)?),
        _ => return Err(fields.asked),
    };
    fields.end()?;
    Ok(Record { stamp, event })
}

fn flash_event<'a>(fields: &mut Fields<impl Iterator<Item = &'a [u8]>>) -> Result<FlashEvent, BadField> {
    match fields.next(Some)? {
        b"sel" => Ok(FlashEvent::Sel),
        b"x" => Ok(FlashEvent::X { si: fields.next(hex)?, so: fields.next(hex)? }),
        b"cut" => Ok(FlashEvent::Cut),
        b"des" => Ok(FlashEvent::Des),
        b"end" => Ok(FlashEvent::End),
        _ => Err(fields.asked),
    }
}

fn eeprom_event<'a>(fields: &mut Fields<impl Iterator<Item = &'a [u8]>>) -> Result<EepromEvent, BadField> {
    match fields.next(Some)? {
        b"sta" => Ok(EepromEvent::Sta),
        b"b" => Ok(EepromEvent::B { byte: fields.next(hex)?, nak: fields.next(|field| digit(field, 1))? == 1 }),
        b"cut" => Ok(EepromEvent::Cut),
        b"sto" => Ok(EepromEvent::Sto),
        b"end" => Ok(EepromEvent::End),
        _ => Err(fields.asked),
    }
}

fn line_event(field: &[u8]) -> Option<LineEvent> {
    match field {
        b"on" => Some(LineEvent::On),
        b"off" => Some(LineEvent::Off),
        b"lock" => Some(LineEvent::Lock),
        b"free" => Some(LineEvent::Free),
        _ => None,
    }
}

fn stamp(field: &[u8]) -> Option<u32> {
    if field.is_empty() || field.len() > 10 || (field.len() > 1 && field[0] == b'0') {
        return None;
    }
    let mut value: u64 = 0;
    for &digit in field {
        if !digit.is_ascii_digit() {
            return None;
        }
        value = value * 10 + u64::from(digit - b'0');
    }
    u32::try_from(value).ok()
}

/// A number of one digit.
fn digit(field: &[u8], most: u8) -> Option<u8> {
    match field {
        [digit @ b'0'..=b'9'] if digit - b'0' <= most => Some(digit - b'0'),
        _ => None,
    }
}

fn hex(field: &[u8]) -> Option<u8> {
    match field {
        [high, low] => Some(hex_digit(*high)? << 4 | hex_digit(*low)?),
        _ => None,
    }
}

fn hex_digit(digit: u8) -> Option<u8> {
    match digit {
        b'0'..=b'9' => Some(digit - b'0'),
        b'a'..=b'f' => Some(digit - b'a' + 10),
        _ => None,
    }
}

/// What each bus has open, for refusal 5.
#[derive(Default)]
struct Buses {
    selected: bool,
    flash_cut: bool,
    started: bool,
    eeprom_cut: bool,
}

impl Buses {
    /// Whether the record can be; if so, it is taken.
    fn allow(&mut self, event: Event) -> bool {
        match event {
            Event::Flash(event) => self.allow_flash(event),
            Event::Eeprom(event) => self.allow_eeprom(event),
            Event::Line(_) => true,
        }
    }

    fn allow_flash(&mut self, event: FlashEvent) -> bool {
        let Buses { selected, flash_cut, .. } = *self;
        match event {
            FlashEvent::Sel => self.selected = true,
            FlashEvent::Cut => self.flash_cut = true,
            FlashEvent::Des => {
                self.selected = false;
                self.flash_cut = false;
            }
            FlashEvent::X { .. } | FlashEvent::End => (),
        }
        match event {
            FlashEvent::Sel => !selected,
            FlashEvent::X { .. } | FlashEvent::Cut => selected && !flash_cut,
            FlashEvent::Des => selected,
            FlashEvent::End => true,
        }
    }

    fn allow_eeprom(&mut self, event: EepromEvent) -> bool {
        let Buses { started, eeprom_cut, .. } = *self;
        match event {
            EepromEvent::Sta => {
                self.started = true;
                self.eeprom_cut = false;
            }
            EepromEvent::Cut => self.eeprom_cut = true,
            EepromEvent::Sto => {
                self.started = false;
                self.eeprom_cut = false;
            }
            EepromEvent::B { .. } | EepromEvent::End => (),
        }
        match event {
            EepromEvent::B { .. } | EepromEvent::Cut => started && !eeprom_cut,
            EepromEvent::Sto => started,
            EepromEvent::Sta | EepromEvent::End => true,
        }
    }
}
