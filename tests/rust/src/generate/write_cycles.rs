//! Write cycles of every kind on both chips, ended or cut, about the same few pages: what the pages' times go by.

use super::author::{board_line, Author, UNTIED};
use super::cut_pages::{byte_write, each_stamp, write, E_END, FREE, LOCK, OFF, ON};
use super::dumps::{call, dumps};
use super::flash_frames::frame_of;
use super::prepared::alone;
use super::random::Random;
use super::topics::{CHIP_ERASE, PROGRAM, SECTOR_ERASE, WREN, WRSR};
use crate::model::call::Call;
use crate::model::record::{Event, FlashEvent};
use crate::model::times::{EEPROM_PAGES, FLASH_PAGES};

pub const F_END: Event = Event::F(FlashEvent::End);

/// How the cycles come to an end, stamp by stamp; only the last two may stop a replay, and `off` in a status write.
const FINISHES: [(usize, &[&[Event]]); 12] = [
    (20, &[&[F_END], &[E_END]]),
    (16, &[&[E_END, F_END]]),
    (8, &[&[F_END, LOCK, E_END, FREE]]),
    (14, &[&[OFF], &[ON]]),
    (8, &[&[OFF, ON]]),
    (8, &[&[F_END], &[OFF], &[ON]]),
    (8, &[&[E_END], &[OFF], &[ON]]),
    (6, &[&[OFF], &[F_END, E_END], &[ON], &[OFF], &[ON]]),
    (4, &[&[E_END]]),
    (4, &[&[F_END]]),
    (2, &[&[F_END, OFF], &[ON]]),
    (2, &[&[E_END, F_END, ON, ON, ON]]),
];

#[derive(Clone, Copy)]
enum Kind {
    Program,
    ProgramElsewhere,
    SectorErase,
    EraseElsewhere,
    ChipErase,
    WriteStatus,
}

const KINDS: [(usize, Kind); 6] = [
    (60, Kind::Program),
    (8, Kind::ProgramElsewhere),
    (5, Kind::SectorErase),
    (7, Kind::EraseElsewhere),
    (10, Kind::ChipErase),
    (10, Kind::WriteStatus),
];

pub fn write_cycles(random: &mut Random, _number: usize) -> Call {
    let board = board_line(random);
    let dumps = dumps(random);
    let mut author = Author::new(random, board, &dumps, UNTIED);
    let flash_page = any_page(author.random, FLASH_PAGES);
    let eeprom_page = any_page(author.random, EEPROM_PAGES);
    if author.random.percent(15) {
        whole_at_one_stamp(&mut author, eeprom_page);
    }
    for _ in 0..author.random.between(1, 9) {
        if author.random.percent(75) {
            let page = beside(author.random, flash_page, FLASH_PAGES);
            start_flash(&mut author, page);
        }
        if author.random.percent(60) {
            let page = beside(author.random, eeprom_page, EEPROM_PAGES);
            write(&mut author, page);
        }
        let finish = author.random.weighted(&FINISHES);
        each_stamp(&mut author, finish);
    }
    let text = author.text;
    call(random, text, dumps)
}

/// A page write and a chip erase, each from its first record to its `end`: only so can a page have stamp 0.
fn whole_at_one_stamp(author: &mut Author, page: usize) {
    let first = author.random.pick(&[0, 0, 7]);
    author.start_at(first);
    let mut events: Vec<Event> = byte_write(author, page).into_iter().map(Event::E).collect();
    events.push(E_END);
    if author.random.percent(30) {
        events.extend(frame_of(&[WREN]).into_iter().chain(frame_of(&[CHIP_ERASE])).map(Event::F));
        events.push(F_END);
    }
    each_stamp(author, &[&events]);
}

fn any_page(random: &mut Random, pages: usize) -> usize {
    let any = random.below(pages);
    random.pick(&[0, pages - 1, any, any])
}

/// Mostly the page itself, else the one after it.
fn beside(random: &mut Random, page: usize, pages: usize) -> usize {
    random.pick(&[page, page, (page + 1) % pages])
}

fn start_flash(author: &mut Author, page: usize) {
    let sent = instruction(author, page);
    for frame in [frame_of(&[WREN]), frame_of(&sent)] {
        frame.into_iter().for_each(|event| alone(author, Event::F(event)));
    }
}

fn instruction(author: &mut Author, page: usize) -> Vec<u8> {
    let watched = usize::from(author.board.flash.watched) - 1;
    let random = &mut *author.random;
    let elsewhere = (watched + random.between(1, 3)) % 4;
    match random.weighted(&KINDS) {
        Kind::Program => [addressed(random, PROGRAM, watched, page), data(random)].concat(),
        Kind::ProgramElsewhere => [addressed(random, PROGRAM, elsewhere, page), data(random)].concat(),
        Kind::SectorErase => addressed(random, SECTOR_ERASE, watched, page),
        Kind::EraseElsewhere => addressed(random, SECTOR_ERASE, elsewhere, page),
        Kind::ChipErase => vec![CHIP_ERASE],
        Kind::WriteStatus => vec![WRSR, random.pick(&[0x00, 0x00, 0x04, 0x08, 0x0c])],
    }
}

/// An op-code and an address in a page of a sector, sectors counted from 0; the bits above A16 are any.
fn addressed(random: &mut Random, op_code: u8, sector: usize, page: usize) -> Vec<u8> {
    let any = random.below(256);
    let address = random.below(128) << 17 | sector << 15 | page << 8 | random.pick(&[0, 0xff, any]);
    vec![op_code, (address >> 16) as u8, (address >> 8) as u8, address as u8]
}

/// A few bytes, now and then a page and more; ff changes nothing.
fn data(random: &mut Random) -> Vec<u8> {
    let length = random.pick(&[1, 1, 1, 2, 2, 3, 8, 258]);
    if random.percent(25) {
        return vec![0xff; length];
    }
    random.bytes(length)
}
