//! Writes about one EEPROM page, many of them cut by the supply, and reads over the borders of that page.

use super::author::{board_line, Author, UNTIED};
use super::dumps::{call, dumps};
use super::eeprom_frames::sent;
use super::prepared::alone;
use super::random::Random;
use crate::model::call::Call;
use crate::model::record::{EepromEvent, Event, LineEvent};

const PAGE: usize = 64;
const PAGES: usize = 512;
const PLACES: usize = PAGE * PAGES;

const STA: Event = Event::E(EepromEvent::Sta);
const STO: Event = Event::E(EepromEvent::Sto);
pub const E_END: Event = Event::E(EepromEvent::End);
pub const ON: Event = Event::L(LineEvent::On);
pub const OFF: Event = Event::L(LineEvent::Off);
pub const LOCK: Event = Event::L(LineEvent::Lock);
pub const FREE: Event = Event::L(LineEvent::Free);

/// What comes after a write, stamp by stamp; all of it settles.
const AFTER_WRITE: [(usize, &[&[Event]]); 8] = [
    (35, &[&[E_END]]),
    (30, &[&[OFF], &[ON]]),
    (8, &[&[OFF, ON]]),
    (8, &[&[LOCK], &[OFF], &[ON], &[FREE]]),
    (6, &[&[STA, OFF], &[STO], &[ON]]),
    (5, &[&[OFF], &[E_END], &[OFF], &[ON]]),
    (4, &[&[E_END], &[OFF], &[ON]]),
    (4, &[]),
];

pub fn cut_pages(random: &mut Random, _number: usize) -> Call {
    let board = board_line(random);
    let dumps = dumps(random);
    let mut author = Author::new(random, board, &dumps, UNTIED);
    let any = author.random.below(PAGES);
    let page = author.random.pick(&[0, PAGES - 1, any, any]);
    for _ in 0..author.random.between(1, 8) {
        let beside = (page + 1) % PAGES;
        let written = author.random.pick(&[page, page, page, beside]);
        write(&mut author, written);
        let after = author.random.weighted(&AFTER_WRITE);
        each_stamp(&mut author, after);
        read(&mut author, page);
    }
    let text = author.text;
    call(random, text, dumps)
}

/// Events that share a stamp, stamp by stamp.
pub fn each_stamp(author: &mut Author, stamps: &[&[Event]]) {
    for events in stamps {
        for &event in *events {
            author.add(event);
        }
        author.next_stamp();
    }
}

/// Mostly a few bytes, at the page's ends more often than elsewhere.
pub fn write(author: &mut Author, page: usize) {
    let any = author.random.below(PAGE);
    let offset = author.random.pick(&[0, PAGE - 2, PAGE - 1, any, any]);
    let length = author.random.pick(&[1, 1, 1, 2, 3, 8, PAGE, PAGE + 2]);
    let mut frame = opened_at(author, page * PAGE + offset);
    frame.extend(author.random.bytes(length).into_iter().map(sent));
    frame.push(EepromEvent::Sto);
    play(author, frame);
}

/// One byte for the page.
pub fn byte_write(author: &mut Author, page: usize) -> Vec<EepromEvent> {
    let offset = author.random.below(PAGE);
    let mut frame = opened_at(author, page * PAGE + offset);
    frame.extend([sent(author.random.byte()), EepromEvent::Sto]);
    frame
}

/// From before the page into it, from its end to behind it, or inside.
fn read(author: &mut Author, page: usize) {
    let any = author.random.below(PAGE);
    let offset = author.random.pick(&[PLACES - 2, PAGE - 2, any]);
    let mut frame = opened_at(author, (page * PAGE + offset) % PLACES);
    frame.extend([EepromEvent::Sta, sent(own_address(author) | 1)]);
    frame.extend(vec![sent(0); author.random.between(1, 5)]);
    frame.push(EepromEvent::Sto);
    play(author, frame);
}

fn own_address(author: &Author) -> u8 {
    0xa0 | author.board.eeprom.wired << 1
}

fn opened_at(author: &Author, place: usize) -> Vec<EepromEvent> {
    vec![EepromEvent::Sta, sent(own_address(author)), sent((place >> 8) as u8), sent(place as u8)]
}

fn play(author: &mut Author, frame: Vec<EepromEvent>) {
    frame.into_iter().for_each(|event| alone(author, Event::E(event)));
}
