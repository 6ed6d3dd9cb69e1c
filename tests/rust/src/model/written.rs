//! How a trace is written ("The trace"): an accepted line has one spelling.

use super::record::{BoardLine, EepromEvent, Event, FlashEvent, LineEvent};

pub fn board_line_of(board: BoardLine) -> String {
    format!("board\t{:02x}\t{}\t{}\n", board.status, board.watched, board.address)
}

pub fn line_of(stamp: u64, event: Event) -> String {
    format!("{}\t{}\n", stamp, event_fields(event))
}

pub fn event_fields(event: Event) -> String {
    match event {
        Event::F(FlashEvent::Sel) => String::from("F\tsel"),
        Event::F(FlashEvent::X { si, so }) => format!("F\tx\t{:02x}\t{:02x}", si, so),
        Event::F(FlashEvent::Cut) => String::from("F\tcut"),
        Event::F(FlashEvent::Des) => String::from("F\tdes"),
        Event::F(FlashEvent::End) => String::from("F\tend"),
        Event::E(EepromEvent::Sta) => String::from("E\tsta"),
        Event::E(EepromEvent::B { byte, not_acknowledged }) => format!("E\tb\t{:02x}\t{}", byte, u8::from(not_acknowledged)),
        Event::E(EepromEvent::Cut) => String::from("E\tcut"),
        Event::E(EepromEvent::Sto) => String::from("E\tsto"),
        Event::E(EepromEvent::End) => String::from("E\tend"),
        Event::L(LineEvent::On) => String::from("L\ton"),
        Event::L(LineEvent::Off) => String::from("L\toff"),
        Event::L(LineEvent::Lock) => String::from("L\tlock"),
        Event::L(LineEvent::Free) => String::from("L\tfree"),
    }
}
