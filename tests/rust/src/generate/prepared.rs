//! Ties in prepared states: each chip is brought to a chosen place in its rules, then a few records share a stamp with one or
//! two line records.

use super::author::{board_line, Author, Channel, UNTIED};
use super::dumps::{call, dumps};
use super::random::Random;
use crate::model::call::Call;
use crate::model::record::{EepromEvent, Event, FlashEvent, LineEvent};

/// Flash events by word; `+` stands for WREN's frame, `@` for three address bytes in the watched sector, `#` for three
/// outside, two hex digits for a byte.
const FLASH: [&str; 48] = [
    "",
    "sel",
    "sel 05",
    "sel 05 00",
    "sel 03 00 00",
    "sel 03 @",
    "sel 03 @ 00",
    "sel 03 #",
    "sel 15",
    "sel 15 00",
    "sel 15 00 00",
    "sel ff",
    "sel cut",
    "sel 06",
    "sel 06 00",
    "sel 04",
    "+",
    "+ sel",
    "+ sel 04",
    "+ sel 05",
    "+ sel 01",
    "+ sel 01 8c",
    "+ sel 01 00",
    "+ sel 01 80 00",
    "sel 01 00",
    "+ sel 62",
    "+ sel 62 00",
    "+ sel 52 00 00",
    "+ sel 52 @",
    "+ sel 52 #",
    "+ sel 02 @",
    "+ sel 02 @ 5a",
    "+ sel 02 # 5a",
    "+ sel 02 @ 5a a5",
    "+ sel 62 des",
    "+ sel 52 @ des",
    "+ sel 52 # des",
    "+ sel 02 @ 5a a5 des",
    "+ sel 02 # 5a des",
    "+ sel 01 80 des",
    "+ sel 01 0c des",
    "+ sel 02 @ 5a des sel",
    "+ sel 02 @ 5a des sel 05",
    "+ sel 01 80 des sel 05 00",
    "+ sel 02 @ 5a des sel 03",
    "+ sel 02 @ 5a des sel end",
    "+ sel 01 80 des sel end",
    "+ sel 62 des sel end 06",
];

/// EEPROM events by word; `w` and `r` are the chip's own address, `o` another's, `n` a byte that is not acknowledged.
const EEPROM: [&str; 26] = [
    "",
    "sta",
    "sta w",
    "sta w 00",
    "sta w 00 10",
    "sta w 00 10 55",
    "sta w 00 3f 55 66",
    "sta o",
    "sta cut",
    "sta w 00 10 55 cut",
    "sta r",
    "sta r n",
    "sta w 00 05 sto",
    "sta w 00 05 sta",
    "sta w 00 05 sta r",
    "sta w 00 05 sta r 00",
    "sta w 00 05 sta r n",
    "sta w 7f ff sta r",
    "sta w 00 3f 11 22 sto",
    "sta w 00 3f 11 22 sto sta",
    "sta w 00 3f 11 22 sto sta w",
    "sta w 00 3f 11 22 sto sta o",
    "sta w 00 3f 11 22 sto sta end",
    "sta w 00 3f 11 22 sto sta end w",
    "sta w 00 3f 11 22 sto end",
    "sta w 00 3f 11 22 sto end sta r",
];

/// The line records of the tie.
const TIED_LINES: [(usize, &[LineEvent]); 10] = [
    (25, &[LineEvent::Off, LineEvent::On]),
    (18, &[LineEvent::Off]),
    (12, &[LineEvent::Lock]),
    (12, &[LineEvent::Free]),
    (10, &[LineEvent::Lock, LineEvent::Free]),
    (8, &[LineEvent::Free, LineEvent::Lock]),
    (4, &[LineEvent::On]),
    (4, &[LineEvent::On, LineEvent::Off]),
    (4, &[LineEvent::Off, LineEvent::Lock]),
    (3, &[LineEvent::Off, LineEvent::Off]),
];

/// What the buses' own order allows next.
struct Bus {
    flash_open: bool,
    flash_cut: bool,
    eeprom_open: bool,
    eeprom_cut: bool,
}

pub fn prepared(random: &mut Random, number: usize) -> Call {
    let board = board_line(random);
    let dumps = dumps(random);
    let mut author = Author::new(random, board, &dumps, UNTIED);
    let mut bus = Bus { flash_open: false, flash_cut: false, eeprom_open: false, eeprom_cut: false };
    some_lines(&mut author, &[LineEvent::Lock, LineEvent::Free]);
    prepare_flash(&mut author, &mut bus, FLASH[number % FLASH.len()], board.watched);
    let words = author.random.pick(&EEPROM);
    prepare_eeprom(&mut author, &mut bus, words);
    some_lines(&mut author, &[LineEvent::Lock, LineEvent::Lock, LineEvent::Free, LineEvent::Free, LineEvent::Off]);
    tie(&mut author, &mut bus);
    look_after(&mut author, &mut bus);
    let text = author.text;
    call(random, text, dumps)
}

/// Up to two line records by themselves, mostly none.
fn some_lines(author: &mut Author, choices: &[LineEvent]) {
    for _ in 0..author.random.pick(&[0, 0, 0, 1, 1, 2]) {
        let event = author.random.pick(choices);
        alone(author, Event::L(event));
    }
}

/// One event at a stamp of its own.
pub fn alone(author: &mut Author, event: Event) {
    author.add(event);
    author.next_stamp();
}

fn prepare_flash(author: &mut Author, bus: &mut Bus, words: &str, watched: u8) {
    let inside = sector_address(watched);
    let outside = sector_address(watched % 4 + 1);
    for word in words.split_whitespace() {
        let sent = |bytes: &[u8]| bytes.iter().map(|&si| FlashEvent::X { si, so: 0 }).collect();
        let events: Vec<FlashEvent> = match word {
            "sel" => vec![FlashEvent::Sel],
            "des" => vec![FlashEvent::Des],
            "cut" => vec![FlashEvent::Cut],
            "end" => vec![FlashEvent::End],
            "+" => vec![FlashEvent::Sel, FlashEvent::X { si: 0x06, so: 0 }, FlashEvent::Des],
            "@" => sent(&inside),
            "#" => sent(&outside),
            byte => sent(&[u8::from_str_radix(byte, 16).unwrap_or(0)]),
        };
        for event in events {
            bus.take_flash(event);
            alone(author, Event::F(event));
        }
    }
}

/// The address bytes of a place near a sector's beginning.
fn sector_address(sector: u8) -> [u8; 3] {
    [(sector - 1) >> 1, (sector - 1) % 2 * 0x80, 0x07]
}

fn prepare_eeprom(author: &mut Author, bus: &mut Bus, words: &str) {
    let own = 0xa0 | author.board.eeprom.wired << 1;
    for word in words.split_whitespace() {
        let event = match word {
            "sta" => EepromEvent::Sta,
            "sto" => EepromEvent::Sto,
            "cut" => EepromEvent::Cut,
            "end" => EepromEvent::End,
            "w" => sent(own),
            "r" => sent(own | 1),
            "o" => sent(own ^ 2),
            "n" => EepromEvent::B { byte: 0, not_acknowledged: true },
            byte => sent(u8::from_str_radix(byte, 16).unwrap_or(0)),
        };
        bus.take_eeprom(event);
        alone(author, Event::E(event));
    }
}

fn sent(byte: u8) -> EepromEvent {
    EepromEvent::B { byte, not_acknowledged: false }
}

fn tie(author: &mut Author, bus: &mut Bus) {
    let (flash, eeprom) = match author.random.below(10) {
        0..=4 => (author.random.between(1, 4), 0),
        5..=8 => (0, author.random.between(1, 4)),
        _ => (author.random.between(1, 3), author.random.between(1, 3)),
    };
    let tied_lines = author.random.weighted(&TIED_LINES);
    let mut lines = tied_lines.iter().copied();
    for channel in author.mixed(flash, eeprom, tied_lines.len()) {
        let event = match channel {
            Channel::F => Event::F(bus.any_flash(author.random)),
            Channel::E => Event::E(bus.any_eeprom(author)),
            Channel::L => Event::L(lines.next().unwrap_or(LineEvent::On)),
        };
        author.add(event);
    }
    author.next_stamp();
}

/// Shows what state the tie has left: the supply on, the frames shut, the status and the counter read.
fn look_after(author: &mut Author, bus: &mut Bus) {
    alone(author, Event::L(LineEvent::On));
    if bus.flash_open {
        alone(author, Event::F(FlashEvent::Des));
    }
    for event in
        [FlashEvent::Sel, FlashEvent::X { si: 0x05, so: 0 }, FlashEvent::X { si: 0, so: 0 }, FlashEvent::Des, FlashEvent::End]
    {
        alone(author, Event::F(event));
    }
    let own = 0xa1 | author.board.eeprom.wired << 1;
    for event in [EepromEvent::Sta, sent(own), sent(0), EepromEvent::Sto, EepromEvent::End] {
        alone(author, Event::E(event));
    }
}

impl Bus {
    fn take_flash(&mut self, event: FlashEvent) {
        match event {
            FlashEvent::Sel => self.flash_open = true,
            FlashEvent::Cut => self.flash_cut = true,
            FlashEvent::Des => {
                self.flash_open = false;
                self.flash_cut = false;
            }
            FlashEvent::X { .. } | FlashEvent::End => (),
        }
    }

    fn take_eeprom(&mut self, event: EepromEvent) {
        match event {
            EepromEvent::Sta => {
                self.eeprom_open = true;
                self.eeprom_cut = false;
            }
            EepromEvent::Cut => self.eeprom_cut = true,
            EepromEvent::Sto => {
                self.eeprom_open = false;
                self.eeprom_cut = false;
            }
            EepromEvent::B { .. } | EepromEvent::End => (),
        }
    }

    fn any_flash(&mut self, random: &mut Random) -> FlashEvent {
        let byte = random.pick(&[0x00, 0x05, 0x06, 0x01, 0x03, 0x02, 0x15, 0x62, 0xff]);
        let x = FlashEvent::X { si: byte, so: 0 };
        let event = match (self.flash_open, self.flash_cut) {
            (false, _) => random.pick(&[FlashEvent::Sel, FlashEvent::Sel, FlashEvent::End]),
            (true, true) => random.pick(&[FlashEvent::Des, FlashEvent::End]),
            (true, false) => random.pick(&[x, x, x, FlashEvent::Des, FlashEvent::Des, FlashEvent::Cut, FlashEvent::End]),
        };
        self.take_flash(event);
        event
    }

    fn any_eeprom(&mut self, author: &mut Author) -> EepromEvent {
        let own = 0xa0 | author.board.eeprom.wired << 1;
        let byte = author.random.pick(&[own, own, own | 1, own ^ 2, 0x00, 0x3f]);
        let b = EepromEvent::B { byte, not_acknowledged: author.random.percent(25) };
        let random = &mut *author.random;
        let event = match (self.eeprom_open, self.eeprom_cut) {
            (false, _) => random.pick(&[EepromEvent::Sta, EepromEvent::Sta, EepromEvent::End]),
            (true, true) => random.pick(&[EepromEvent::Sta, EepromEvent::Sto, EepromEvent::End]),
            (true, false) => {
                let stop =
                    random.pick(&[EepromEvent::Sto, EepromEvent::Sto, EepromEvent::Sta, EepromEvent::Cut, EepromEvent::End]);
                random.pick(&[b, b, b, stop, stop, stop, stop, stop])
            }
        };
        self.take_eeprom(event);
        event
    }
}
