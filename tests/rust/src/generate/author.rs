//! Writes a trace record by record. A board of the model goes along in file order, so that frames fit its state and the
//! recorded replies are mostly right.

use super::dumps::Dumps;
use super::eeprom_frames::{self, EepromFrames};
use super::flash_frames::{self, FlashFrames, Places};
use super::random::Random;
use crate::model::eeprom;
use crate::model::fields::STAMP_MOST;
use crate::model::flash;
use crate::model::record::{BoardLine, EepromEvent, Event, FlashEvent, LineEvent, Reply};
use crate::model::replay::start;
use crate::model::stamp::Board;
use crate::model::written::{board_line_of, line_of};
use std::collections::VecDeque;

/// How a trace is to be, in hundredths.
#[derive(Clone, Copy, Debug)]
pub struct Style {
    /// Records that share the stamp of the one before.
    pub ties: usize,
    /// The same where a line record and a bus record would meet.
    pub line_ties: usize,
    /// Line records among all.
    pub lines: usize,
    /// Recorded replies that are wrong.
    pub wrong: usize,
    /// Records added to a stamp that is full.
    pub crowds: usize,
    /// Stamps that jump far ahead.
    pub jumps: usize,
    pub long_pages: bool,
}

pub const UNTIED: Style = Style { ties: 0, line_ties: 0, lines: 6, wrong: 3, crowds: 0, jumps: 5, long_pages: false };

pub struct Author<'a> {
    pub random: &'a mut Random,
    pub board: Board,
    pub text: Vec<u8>,
    style: Style,
    places: Places,
    flash_frames: FlashFrames,
    eeprom_frames: EepromFrames,
    stamp: u64,
    at_stamp: AtStamp,
    flash_next: VecDeque<FlashEvent>,
    eeprom_next: VecDeque<EepromEvent>,
}

pub struct Mark {
    pub board: Board,
    pub length: usize,
    flash_next: VecDeque<FlashEvent>,
    eeprom_next: VecDeque<EepromEvent>,
}

/// How many records of each channel the present stamp has.
#[derive(Clone, Copy, Default)]
struct AtStamp {
    flash: usize,
    eeprom: usize,
    lines: usize,
}

#[derive(Clone, Copy, PartialEq, Eq)]
pub enum Channel {
    F,
    E,
    L,
}

pub fn board_line(random: &mut Random) -> BoardLine {
    let status = random.pick(&[0x00, 0x00, 0x00, 0x80, 0x80, 0x04, 0x08, 0x0c, 0x84, 0x88, 0x8c]);
    BoardLine { status, watched: random.between(1, 4) as u8, address: random.below(8) as u8 }
}

impl<'a> Author<'a> {
    pub fn new(random: &'a mut Random, board: BoardLine, dumps: &Dumps, style: Style) -> Author<'a> {
        let hot = (0..3).map(|_| hot_place(random)).collect();
        let places = Places { watched: board.watched, hot, long_pages: style.long_pages };
        let first = random.pick(&[0, 1, 10, 1000, 4_000_000_000]);
        Author {
            random,
            board: start(board, dumps.flash.clone(), dumps.eeprom.clone()),
            text: board_line_of(board).into_bytes(),
            style,
            places,
            flash_frames: flash_frames::next_frame,
            eeprom_frames: eeprom_frames::next_frame,
            stamp: first,
            at_stamp: AtStamp::default(),
            flash_next: VecDeque::new(),
            eeprom_next: VecDeque::new(),
        }
    }

    /// Other frames than the usual mixture.
    pub fn send(&mut self, flash: FlashFrames, eeprom: EepromFrames) {
        self.flash_frames = flash;
        self.eeprom_frames = eeprom;
    }

    /// One more record, of any channel, tied or not as the style has it.
    pub fn step(&mut self) {
        let channel =
            if self.random.percent(self.style.lines) { Channel::L } else { self.random.pick(&[Channel::F, Channel::E]) };
        if !self.stays_at_stamp(channel) {
            self.next_stamp();
        }
        self.take(channel);
    }

    fn stays_at_stamp(&mut self, channel: Channel) -> bool {
        let here = self.at_stamp;
        let (full, meets) = match channel {
            Channel::F => (here.flash >= 8, here.lines > 0),
            Channel::E => (here.eeprom >= 8, here.lines > 0),
            Channel::L => (here.lines >= 2, here.flash + here.eeprom > 0),
        };
        let percent = match (full, meets) {
            (true, _) => self.style.crowds,
            (false, true) => self.style.line_ties,
            (false, false) => self.style.ties,
        };
        self.random.percent(percent)
    }

    pub fn next_stamp(&mut self) {
        let ahead = if self.random.percent(self.style.jumps) { self.random.below(100_000) } else { self.random.between(1, 9) };
        self.stamp = (self.stamp + ahead as u64).min(STAMP_MOST);
        self.at_stamp = AtStamp::default();
    }

    /// The stamp after this one, without a gap.
    pub fn following_stamp(&mut self) {
        self.stamp += 1;
        self.at_stamp = AtStamp::default();
    }

    pub fn start_at(&mut self, stamp: u64) {
        self.stamp = stamp;
    }

    /// Where the author stands, to come back to.
    pub fn mark(&self) -> Mark {
        Mark {
            board: self.board.clone(),
            length: self.text.len(),
            flash_next: self.flash_next.clone(),
            eeprom_next: self.eeprom_next.clone(),
        }
    }

    pub fn back_to(&mut self, mark: &Mark) {
        self.board = mark.board.clone();
        self.text.truncate(mark.length);
        self.flash_next = mark.flash_next.clone();
        self.eeprom_next = mark.eeprom_next.clone();
    }

    /// A stamp of its own with so many records of each channel, mixed at random.
    pub fn window(&mut self, flash: usize, eeprom: usize, lines: usize) {
        self.next_stamp();
        for channel in self.mixed(flash, eeprom, lines) {
            self.take(channel);
        }
        self.next_stamp();
    }

    pub fn mixed(&mut self, flash: usize, eeprom: usize, lines: usize) -> Vec<Channel> {
        let mut left = vec![Channel::F; flash];
        left.extend(vec![Channel::E; eeprom]);
        left.extend(vec![Channel::L; lines]);
        let mut order = Vec::new();
        while !left.is_empty() {
            let place = self.random.below(left.len());
            order.push(left.swap_remove(place));
        }
        order
    }

    /// The channel's next event, as it was recorded.
    pub fn take(&mut self, channel: Channel) -> Event {
        let event = match channel {
            Channel::F => Event::F(self.next_flash()),
            Channel::E => Event::E(self.next_eeprom()),
            Channel::L => Event::L(self.next_line()),
        };
        self.add(event)
    }

    pub fn next_flash(&mut self) -> FlashEvent {
        loop {
            if let Some(event) = self.flash_next.pop_front() {
                return event;
            }
            self.flash_next.extend((self.flash_frames)(self.random, &self.board.flash, &self.places));
        }
    }

    pub fn next_eeprom(&mut self) -> EepromEvent {
        loop {
            if let Some(event) = self.eeprom_next.pop_front() {
                return event;
            }
            self.eeprom_next.extend((self.eeprom_frames)(self.random, &self.board.eeprom, &self.places));
        }
    }

    /// The rest of the frames that are open, so that another may follow.
    pub fn finish_frames(&mut self) {
        while !self.flash_next.is_empty() {
            self.next_stamp();
            self.take(Channel::F);
        }
        while !self.eeprom_next.is_empty() {
            self.next_stamp();
            self.take(Channel::E);
        }
    }

    fn next_line(&mut self) -> LineEvent {
        let in_cycle = self.board.flash.cycle.is_some() || self.board.eeprom.cycle.is_some();
        let writes_status = matches!(self.board.flash.cycle, Some(flash::Cycle::WriteStatus { .. }));
        let (on, off, lock, free) = match (self.board.lines.supply, in_cycle) {
            (false, _) => (70, 6, 12, 12),
            // A lost status ends the replay: seldom enough that much is played.
            (true, true) if writes_status => (15, 10, 40, 35),
            (true, true) => (15, 40, 25, 20),
            (true, false) => (15, 15, 35, 35),
        };
        let choices = [(on, LineEvent::On), (off, LineEvent::Off), (lock, LineEvent::Lock), (free, LineEvent::Free)];
        self.random.weighted(&choices)
    }

    /// Plays the event on the board that goes along and writes its line with a recorded reply.
    pub fn add(&mut self, event: Event) -> Event {
        let recorded = match event {
            Event::F(event) => Event::F(self.recorded_flash(event)),
            Event::E(event) => Event::E(self.recorded_eeprom(event)),
            Event::L(_) => {
                self.play(event);
                event
            }
        };
        match event {
            Event::F(_) => self.at_stamp.flash += 1,
            Event::E(_) => self.at_stamp.eeprom += 1,
            Event::L(_) => self.at_stamp.lines += 1,
        }
        self.text.extend(line_of(self.stamp, recorded).into_bytes());
        recorded
    }

    fn play(&mut self, event: Event) -> Reply {
        self.board.play(event, self.stamp as u32)
    }

    fn recorded_flash(&mut self, event: FlashEvent) -> FlashEvent {
        let reply = self.play(Event::F(event));
        match (event, reply) {
            (FlashEvent::X { si, .. }, Reply::Byte { value, mask }) => {
                FlashEvent::X { si, so: (value | (self.random.byte() & mask)) ^ self.wrong_bit() }
            }
            (FlashEvent::X { si, .. }, _) => FlashEvent::X { si, so: self.random.pick(&[0xff, 0xff, 0x00, 0x5a]) },
            _ => event,
        }
    }

    fn recorded_eeprom(&mut self, event: EepromEvent) -> EepromEvent {
        let reading = self.board.eeprom.frame == eeprom::Frame::Reading;
        let reply = self.play(Event::E(event));
        match (event, reply) {
            (EepromEvent::B { not_acknowledged, .. }, Reply::Byte { value, mask }) => {
                let byte = (value | (self.random.byte() & mask)) ^ self.wrong_bit();
                EepromEvent::B { byte, not_acknowledged }
            }
            (EepromEvent::B { byte, .. }, _) if !reading => {
                let wrong = self.random.percent(self.style.wrong);
                EepromEvent::B { byte, not_acknowledged: (reply != Reply::Ack) ^ wrong }
            }
            _ => event,
        }
    }

    fn wrong_bit(&mut self) -> u8 {
        if self.random.percent(self.style.wrong) {
            1 << self.random.below(8)
        } else {
            0
        }
    }
}

fn hot_place(random: &mut Random) -> usize {
    match random.below(4) {
        0 => random.below(128) * 256 + 253 + random.below(3),
        1 => random.below(512) * 64 + 61 + random.below(3),
        2 => 0,
        _ => random.below(0x8000),
    }
}
