//! Small traces about a few bits in one page of each chip, whose every history can be tried out: cycles that end and cycles
//! that are cut, reads between them, several orders at a stamp, and stops (request 8/12).

use super::author::{Author, UNTIED};
use super::cut_pages::{each_stamp, E_END, FREE, LOCK, OFF, ON};
use super::dumps::{call, Dumps};
use super::eeprom_frames::sent;
use super::flash_frames::frame_of;
use super::random::Random;
use super::topics::{CHIP_ERASE, PROGRAM, READ, SECTOR_ERASE, WREN, WRSR};
use super::write_cycles::F_END;
use crate::model::call::Call;
use crate::model::kept::{Kept, KEPT};
use crate::model::record::{BoardLine, EepromEvent, Event, FlashEvent};

/// Some bits of the byte at a place.
#[derive(Clone, Copy, Debug)]
pub struct FewBits {
    pub place: usize,
    pub bits: u8,
}

/// What a trace is about: in a page of each chip its last byte and its first, so that data roll from one to the other.
#[derive(Clone, Copy, Debug)]
pub struct Focus {
    pub flash: [FewBits; 2],
    pub eeprom: [FewBits; 2],
}

/// What happens: `p`, `s`, `c`, `w` start a program, a sector erase, a chip erase and a page write, `o` is a program outside
/// the watched sector; `end` and `cut` finish what runs, `r` reads; `6`, `7` and `8` are stops. With `locked` in front the
/// watched sector is locked.
const SCENES: [&str; 36] = [
    "p end r",
    "p cut r",
    "p cut r p cut r",
    "p cut p end r",
    "p end r p cut",
    "p cut r p cut p end r",
    "s end r",
    "s cut r",
    "s cut r p end r",
    "s cut p cut r",
    "p cut s end r",
    "p cut s end p cut r",
    "p cut s cut r",
    "s cut r s cut",
    "c end r p cut",
    "c cut r",
    "p cut r c end r",
    "p cut c cut r",
    "locked r c end r",
    "locked c cut r",
    "locked p cut s cut r",
    "o cut r p cut",
    "w end r",
    "w cut r",
    "w cut w end r",
    "w cut r w cut r",
    "w cut w cut w end",
    "p w cut r",
    "p w end r p w cut",
    "w cut p cut r w end",
    "p cut r 6",
    "w cut 6",
    "p cut 7",
    "w cut r 7",
    "p cut r 8",
    "w cut 8",
];

pub const SCENE_COUNT: usize = SCENES.len();

/// To the sector before the watched one, which no board here locks where it leaves the watched one free.
const BEFORE: usize = 3 * KEPT;

const SEL: Event = Event::F(FlashEvent::Sel);
const DES: Event = Event::F(FlashEvent::Des);
const STA: Event = Event::E(EepromEvent::Sta);
const STO: Event = Event::E(EepromEvent::Sto);

/// How cycles end, stamp by stamp.
const ENDS: [(usize, &[&[Event]]); 4] = [
    (40, &[&[F_END], &[E_END]]),
    (30, &[&[E_END, F_END]]),
    (15, &[&[F_END, LOCK], &[E_END, FREE]]),
    (15, &[&[F_END, LOCK, E_END], &[FREE]]),
];

/// How they are cut; all of it settles.
const CUTS: [(usize, &[&[Event]]); 5] = [
    (50, &[&[OFF], &[ON]]),
    (20, &[&[OFF, ON]]),
    (10, &[&[STA, OFF], &[STO], &[ON]]),
    (10, &[&[OFF, SEL], &[DES, ON]]),
    (10, &[&[OFF], &[E_END, F_END], &[ON]]),
];

/// The trace of scene `number`, with what it is about.
pub fn small_doubts(random: &mut Random, number: usize) -> (Call, Focus) {
    let scene = SCENES[number % SCENES.len()];
    let focus = any_focus(random);
    let written = scene.contains('w');
    let dumps = Dumps { flash: lent(random, focus.flash, true), eeprom: lent(random, focus.eeprom, written) };
    let board = board_for(random, scene.starts_with("locked"));
    let mut author = Author::new(random, board, &dumps, UNTIED);
    for word in scene.split_whitespace() {
        play(&mut author, &focus, word);
    }
    let text = author.text;
    (call(random, text, dumps), focus)
}

fn any_focus(random: &mut Random) -> Focus {
    let any_flash = random.below(128);
    let any_eeprom = random.below(512);
    let flash_page = random.pick(&[0, 127, any_flash]);
    let eeprom_page = random.pick(&[0, 511, any_eeprom]);
    Focus { flash: ends_of_page(random, flash_page, 256), eeprom: ends_of_page(random, eeprom_page, 64) }
}

fn ends_of_page(random: &mut Random, page: usize, size: usize) -> [FewBits; 2] {
    let last = FewBits { place: page * size + size - 1, bits: a_bit(random) | a_bit(random) };
    [last, FewBits { place: page * size, bits: a_bit(random) }]
}

fn a_bit(random: &mut Random) -> u8 {
    1 << random.below(8)
}

/// Sure but for a few bits in focus and one beside them now and then, or all in doubt. A chip that the trace does not write
/// is mostly sure: fewer bits to choose.
fn lent(random: &mut Random, focus: [FewBits; 2], written: bool) -> Kept {
    if !written && random.percent(75) {
        return Kept::sure(random.bytes(KEPT));
    }
    let mut kept = match random.below(8) {
        0 => Kept::doubtful(),
        1..=3 => Kept::sure(vec![0xff; KEPT]),
        _ => Kept::sure(random.bytes(KEPT)),
    };
    for FewBits { place, bits } in focus {
        let beside = if random.percent(20) { a_bit(random) } else { 0x00 };
        kept.mask[place] |= (random.byte() & bits) | beside;
        kept.value[place] &= !kept.mask[place];
    }
    kept
}

fn board_for(random: &mut Random, locked: bool) -> BoardLine {
    let wpen = random.pick(&[0x00, 0x80]);
    let (locks, watched) = if locked {
        random.pick(&[(0x04, 4), (0x08, 3), (0x08, 4)])
    } else {
        random.pick(&[(0x00, 1), (0x00, 4), (0x04, 3), (0x08, 2)])
    };
    BoardLine { status: wpen | locks, watched, address: random.below(8) as u8 }
}

fn play(author: &mut Author, focus: &Focus, word: &str) {
    match word {
        "p" => program(author, focus, 0),
        "o" => program(author, focus, BEFORE),
        "s" => addressed(author, SECTOR_ERASE, focus.flash[0].place, &[]),
        "c" => flash_cycle(author, &[CHIP_ERASE]),
        "w" => page_write(author, focus),
        "end" => finish(author, &ENDS),
        "cut" => finish(author, &CUTS),
        "r" => read(author, focus),
        "6" => stop(author, focus, &[ON, ON, ON]),
        "7" => stop_in_cycle(author, focus),
        "8" => {
            flash_cycle(author, &[WRSR, 0x00]);
            stop(author, focus, &[OFF]);
        }
        _ => (),
    }
}

fn finish(author: &mut Author, ways: &[(usize, &[&[Event]])]) {
    let way = author.random.weighted(ways);
    each_stamp(author, way);
}

/// Data with few zeros, for the page's last byte, its first, or rolled from the one to the other, so far beyond the page.
fn program(author: &mut Author, focus: &Focus, beyond: usize) {
    let [last, first] = focus.flash;
    let data: Vec<u8> = [last, first].iter().map(|few| few_zeros(author.random, few.bits)).collect();
    let (place, data) = author.random.pick(&[(last.place, &data[..1]), (last.place, &data[..]), (first.place, &data[1..])]);
    addressed(author, PROGRAM, place + beyond, data);
}

fn few_zeros(random: &mut Random, bits: u8) -> u8 {
    let beside = if random.percent(30) { a_bit(random) } else { 0x00 };
    !(((random.byte() | random.byte()) & bits) | beside)
}

fn addressed(author: &mut Author, op_code: u8, place: usize, data: &[u8]) {
    flash_cycle(author, &with_address(author, op_code, place, data));
}

fn with_address(author: &Author, op_code: u8, place: usize, data: &[u8]) -> Vec<u8> {
    let address = ((usize::from(author.board.flash.watched) - 1) * KEPT + place) % 0x2_0000;
    [&[op_code, (address >> 16) as u8, (address >> 8) as u8, address as u8], data].concat()
}

fn flash_cycle(author: &mut Author, instruction: &[u8]) {
    for frame in [frame_of(&[WREN]), frame_of(instruction)] {
        one_stamp(author, frame.into_iter().map(Event::F).collect());
    }
}

/// Records of one channel, now and then with a line record among them that repeats what is.
fn one_stamp(author: &mut Author, mut events: Vec<Event>) {
    if author.random.percent(8) {
        events.insert(author.random.between(0, events.len()), ON);
    }
    each_stamp(author, &[&events]);
}

fn page_write(author: &mut Author, focus: &Focus) {
    let [last, first] = focus.eeprom;
    let data = author.random.bytes(2);
    let (place, data) = author.random.pick(&[(last.place, &data[..1]), (last.place, &data[..]), (first.place, &data[1..])]);
    let mut events = opened_at(author, place);
    events.extend(data.iter().map(|&byte| Event::E(sent(byte))));
    events.push(STO);
    one_stamp(author, events);
}

fn own_address(author: &Author) -> u8 {
    0xa0 | author.board.eeprom.wired << 1
}

fn opened_at(author: &Author, place: usize) -> Vec<Event> {
    let bytes = [own_address(author), (place >> 8) as u8, place as u8];
    [STA].into_iter().chain(bytes.map(sent).map(Event::E)).collect()
}

/// A byte of each chip, the two replies at one stamp now and then.
fn read(author: &mut Author, focus: &Focus) {
    let flash = author.random.pick(&focus.flash).place;
    let eeprom = author.random.pick(&focus.eeprom).place;
    let read_frame = with_address(author, READ, flash, &[0x00]);
    let mut flash: Vec<Event> = frame_of(&read_frame).into_iter().map(Event::F).collect();
    let mut eeprom = opened_at(author, eeprom);
    eeprom.extend([STA, Event::E(sent(own_address(author) | 1)), Event::E(sent(0x00)), STO]);
    let together = if author.random.percent(25) { 2 } else { 0 };
    let tied_flash = flash.split_off(flash.len() - together);
    let tied_eeprom = eeprom.split_off(eeprom.len() - together);
    each_stamp(author, &[&flash, &eeprom]);
    for (flash, eeprom) in tied_flash.into_iter().zip(tied_eeprom) {
        each_stamp(author, &[&[flash, eeprom]]);
    }
}

/// A cycle whose `end` and an `off` share a stamp.
fn stop_in_cycle(author: &mut Author, focus: &Focus) {
    if author.random.percent(50) {
        program(author, focus, 0);
        stop(author, focus, &[OFF, F_END]);
    } else {
        page_write(author, focus);
        stop(author, focus, &[E_END, OFF]);
    }
}

/// The stamp of the stop, and a cut behind it, which is not shown any more.
fn stop(author: &mut Author, focus: &Focus, events: &[Event]) {
    each_stamp(author, &[events, &[ON]]);
    page_write(author, focus);
    each_stamp(author, &[&[OFF]]);
}
