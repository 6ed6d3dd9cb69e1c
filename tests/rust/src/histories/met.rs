//! What becomes of doubt in a trace, so that a comparison can show that it met each case of the request.

use super::history::{channel, Shown};
use crate::model::cells::{Cells, Sent};
use crate::model::flash::Cycle;
use crate::model::kept::{Kept, KEPT};
use crate::model::record::{Event, FlashEvent, LineEvent, Record, Reply};
use crate::model::replay::{stamps, start};
use crate::model::stamp::Board;
use std::collections::BTreeSet;
use std::ops::Range;

pub type Met = BTreeSet<&'static str>;

const WHOLE_OVER_DOUBT_0: &str = "a program's 0 over a doubtful bit";
const WHOLE_OVER_DOUBT_1: &str = "a program's 1 over a doubtful bit";
const CUT_OVER_DOUBT: &str = "a cut program's 0 over a doubtful bit";
const CUT_OVER_SURE: &str = "a cut program's 0 over a sure 1";
const CUT_OVER_BOTH: &str = "a cut program's 0 over both in one byte";
const CUT_OUTSIDE: &str = "a cut program outside the watched sector";
const ROLLED: &str = "data rolled inside the flash's page";
const PROGRAM_CUT_AGAIN: &str = "a program cut where a cut was before";
const ERASE_AFTER_CUT: &str = "an erase of doubt after a cut";
const CUT_ERASE: &str = "a cut erase";
const CUT_ERASE_AGAIN: &str = "a cut erase of what was cut";
const CHIP_ERASE: &str = "a chip erase of the watched sector";
const CUT_CHIP_ERASE: &str = "a cut chip erase of the watched sector";
const CHIP_ERASE_LOCKED: &str = "a chip erase, the watched sector locked";
const CUT_CHIP_ERASE_LOCKED: &str = "a cut chip erase, the watched sector locked";
const CUT_PAGE: &str = "a cut page write";
const CUT_PAGE_AGAIN: &str = "a page cut twice";
const STORE_OVER_DOUBT: &str = "a store over a doubtful byte";
const STORE_AFTER_CUT: &str = "a store in a page that was cut";
const READ_BETWEEN_CUTS: &str = "a doubtful byte read between two cuts";
const SEVERAL_ORDERS: &str = "several orders at a stamp";
const STOPS: [&str; 3] = ["a stop 6 after a cut", "a stop 7 after a cut", "a stop 8 after a cut"];

pub const ALL: [&str; 24] = [
    WHOLE_OVER_DOUBT_0,
    WHOLE_OVER_DOUBT_1,
    CUT_OVER_DOUBT,
    CUT_OVER_SURE,
    CUT_OVER_BOTH,
    CUT_OUTSIDE,
    ROLLED,
    PROGRAM_CUT_AGAIN,
    ERASE_AFTER_CUT,
    CUT_ERASE,
    CUT_ERASE_AGAIN,
    CHIP_ERASE,
    CUT_CHIP_ERASE,
    CHIP_ERASE_LOCKED,
    CUT_CHIP_ERASE_LOCKED,
    CUT_PAGE,
    CUT_PAGE_AGAIN,
    STORE_OVER_DOUBT,
    STORE_AFTER_CUT,
    READ_BETWEEN_CUTS,
    SEVERAL_ORDERS,
    STOPS[0],
    STOPS[1],
    STOPS[2],
];

/// Kept bytes that note what is done to them.
struct Noted {
    kept: Kept,
    /// The places that a cut has reached.
    cut: Vec<bool>,
    cuts: usize,
    met: Met,
}

impl Noted {
    fn new(value: &[u8], mask: &[u8]) -> Noted {
        let kept = Kept { value: value.to_vec(), mask: mask.to_vec() };
        Noted { kept, cut: vec![false; KEPT], cuts: 0, met: Met::new() }
    }

    fn note(&mut self, kind: &'static str, is_met: bool) {
        if is_met {
            self.met.insert(kind);
        }
    }

    /// Counts a cut; whether one has reached these places before.
    fn cut_again(&mut self, places: impl Iterator<Item = usize>) -> bool {
        self.cuts += 1;
        places.fold(false, |again, place| std::mem::replace(&mut self.cut[place], true) || again)
    }

    fn note_rolled(&mut self, sent: &[Sent]) {
        let offset = |sent: Option<&Sent>| sent.map(|sent| sent.place % 256);
        let rolled = sent.len() < 256 && (offset(sent.first()), offset(sent.last())) == (Some(0), Some(255));
        self.note(ROLLED, rolled);
    }
}

impl Cells for Noted {
    fn read(&self, place: usize) -> Reply {
        self.kept.read(place)
    }

    fn program(&mut self, sent: &[Sent]) {
        self.note_rolled(sent);
        for &Sent { place, byte } in sent {
            let mask = self.kept.mask[place];
            self.note(WHOLE_OVER_DOUBT_0, mask & !byte != 0);
            self.note(WHOLE_OVER_DOUBT_1, mask & byte != 0);
        }
        self.kept.program(sent);
    }

    fn cut_program(&mut self, sent: &[Sent]) {
        self.note(CUT_OUTSIDE, sent.is_empty());
        if sent.is_empty() {
            return;
        }
        self.note_rolled(sent);
        for &Sent { place, byte } in sent {
            let (doubtful, sure) = (self.kept.mask[place] & !byte, self.kept.value[place] & !byte);
            self.note(CUT_OVER_DOUBT, doubtful != 0);
            self.note(CUT_OVER_SURE, sure != 0);
            self.note(CUT_OVER_BOTH, doubtful != 0 && sure != 0);
        }
        let again = self.cut_again(sent.iter().map(|sent| sent.place));
        self.note(PROGRAM_CUT_AGAIN, again);
        self.kept.cut_program(sent);
    }

    fn erase(&mut self) {
        self.note(ERASE_AFTER_CUT, self.cuts > 0 && self.kept.mask.iter().any(|&mask| mask != 0));
        self.kept.erase();
    }

    fn cut_erase(&mut self) {
        let again = self.cut_again(0..KEPT);
        self.note(CUT_ERASE, true);
        self.note(CUT_ERASE_AGAIN, again);
        self.kept.cut_erase();
    }

    fn store(&mut self, sent: &[Sent]) {
        for &Sent { place, .. } in sent {
            self.note(STORE_OVER_DOUBT, self.kept.mask[place] != 0);
            self.note(STORE_AFTER_CUT, self.cut[place]);
        }
        self.kept.store(sent);
    }

    fn cut_page(&mut self, page: Range<usize>) {
        let again = self.cut_again(page.clone());
        self.note(CUT_PAGE, true);
        self.note(CUT_PAGE_AGAIN, again);
        self.kept.cut_page(page);
    }
}

/// Which cases the records shown meet, in the order of the file: where they are shown, each order does the same.
pub fn met(shown: &Shown, answer: u32) -> Met {
    let flash = Noted::new(&shown.lent.flash, &shown.lent.flash_mask);
    let eeprom = Noted::new(&shown.lent.eeprom, &shown.lent.eeprom_mask);
    let mut board = start(shown.board, flash, eeprom);
    let mut met = Met::new();
    let mut read_after_cut = false;
    for record in &shown.records {
        met.extend(chip_erase_met(&board, record));
        let cuts = cuts(&board);
        let reply = board.play(record.event, record.stamp);
        if read_after_cut && cuts < self::cuts(&board) {
            met.insert(READ_BETWEEN_CUTS);
        }
        read_after_cut |= cuts > 0 && matches!(reply, Reply::Byte { mask, .. } if mask != 0);
    }
    if stamps(&shown.records).iter().any(|records| records.iter().any(|record| channel(record) != channel(&records[0]))) {
        met.insert(SEVERAL_ORDERS);
    }
    if answer >= 6 && cuts(&board) > 0 {
        met.insert(STOPS[answer as usize - 6]);
    }
    met.extend(board.flash.kept.met);
    met.extend(board.eeprom.kept.met);
    met
}

fn cuts(board: &Board<Noted>) -> usize {
    board.flash.kept.cuts + board.eeprom.kept.cuts
}

/// Whether the record ends or cuts a chip erase, which reaches the watched sector or not.
fn chip_erase_met(board: &Board<Noted>, record: &Record) -> Option<&'static str> {
    if board.flash.cycle != Some(Cycle::ChipErase) {
        return None;
    }
    let locked = board.flash.status.locks_out(board.flash.watched);
    match (record.event, locked) {
        (Event::F(FlashEvent::End), false) => Some(CHIP_ERASE),
        (Event::F(FlashEvent::End), true) => Some(CHIP_ERASE_LOCKED),
        (Event::L(LineEvent::Off), false) => Some(CUT_CHIP_ERASE),
        (Event::L(LineEvent::Off), true) => Some(CUT_CHIP_ERASE_LOCKED),
        _ => None,
    }
}
