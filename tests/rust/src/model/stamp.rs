//! One stamp's records in every order ("Replies and stopping").

use super::cells::Cells;
use super::eeprom::Eeprom;
use super::flash::{Flash, Status};
use super::kept::Kept;
use super::lines::Lines;
use super::record::{EepromEvent, Event, FlashEvent, LineEvent, Record, Reply};

const MOST_BUS: usize = 8;
const MOST_LINES: usize = 2;

#[derive(Clone, Debug, PartialEq, Eq)]
pub struct Board<C = Kept> {
    pub lines: Lines,
    pub flash: Flash<C>,
    pub eeprom: Eeprom<C>,
}

impl<C: Cells> Board<C> {
    pub fn play(&mut self, event: Event, stamp: u32) -> Reply {
        match event {
            Event::F(event) => self.flash.bus(event, self.lines, stamp),
            Event::E(event) => self.eeprom.bus(event, self.lines, stamp),
            Event::L(event) => {
                self.flash.line(event, self.lines, stamp);
                self.eeprom.line(event, self.lines, stamp);
                self.lines = self.lines.after(event);
                Reply::Silent
            }
        }
    }
}

/// Which orders are tried: each bus with the lines, or all three channels at once (for small stamps).
#[derive(Clone, Copy, Debug, PartialEq, Eq)]
pub enum Orders {
    EachBusWithLines,
    AllChannels,
}

#[derive(Clone, Debug, PartialEq, Eq)]
pub enum Verdict {
    Crowded,
    OrdersDiffer,
    StatusLost,
    /// The board after the stamp, and the replies in the order of the file.
    Settled(Box<Board>, Vec<Reply>),
}

/// The records of one stamp, each channel in its own order.
#[derive(Clone, Debug, Default)]
pub struct Channels {
    pub stamp: u32,
    pub flash: Vec<FlashEvent>,
    pub eeprom: Vec<EepromEvent>,
    pub lines: Vec<LineEvent>,
}

impl Channels {
    pub fn of(records: &[Record]) -> Channels {
        let mut channels = Channels::default();
        for record in records {
            channels.stamp = record.stamp;
            match record.event {
                Event::F(event) => channels.flash.push(event),
                Event::E(event) => channels.eeprom.push(event),
                Event::L(event) => channels.lines.push(event),
            }
        }
        channels
    }

    fn crowded(&self) -> bool {
        self.flash.len() > MOST_BUS || self.eeprom.len() > MOST_BUS || self.lines.len() > MOST_LINES
    }
}

pub fn judge(start: &Board, records: &[Record], orders: Orders) -> Verdict {
    let channels = Channels::of(records);
    if channels.crowded() {
        return Verdict::Crowded;
    }
    let outcome = match orders {
        Orders::EachBusWithLines => outcome_of_two(start, &channels),
        Orders::AllChannels => outcome_of_all(start, &channels),
    };
    match outcome {
        None => Verdict::OrdersDiffer,
        Some(outcome) if outcome.board.flash.status == Status::Lost => Verdict::StatusLost,
        Some(outcome) => {
            let replies = outcome.in_file_order(records);
            Verdict::Settled(Box::new(outcome.board), replies)
        }
    }
}

/// What an order of a stamp leads to; the line records' replies are silent in any order.
#[derive(Clone, Debug, PartialEq, Eq)]
pub struct Outcome {
    pub board: Board,
    pub flash: Vec<Reply>,
    pub eeprom: Vec<Reply>,
}

impl Outcome {
    fn in_file_order(&self, records: &[Record]) -> Vec<Reply> {
        let mut flash = self.flash.iter();
        let mut eeprom = self.eeprom.iter();
        let mut replies = Vec::new();
        for record in records {
            let reply = match record.event {
                Event::F(_) => flash.next().copied(),
                Event::E(_) => eeprom.next().copied(),
                Event::L(_) => Some(Reply::Silent),
            };
            replies.extend(reply);
        }
        replies
    }
}

fn outcome_of_two(start: &Board, channels: &Channels) -> Option<Outcome> {
    let flash_side = FlashSide { stamp: channels.stamp, lines: start.lines, flash: start.flash.clone() };
    let eeprom_side = EepromSide { stamp: channels.stamp, lines: start.lines, eeprom: start.eeprom.clone() };
    let (flash_side, flash) = same_in_every_order(&flash_side, &channels.flash, &channels.lines)?;
    let (eeprom_side, eeprom) = same_in_every_order(&eeprom_side, &channels.eeprom, &channels.lines)?;
    let board = Board { lines: flash_side.lines, flash: flash_side.flash, eeprom: eeprom_side.eeprom };
    Some(Outcome { board, flash, eeprom })
}

/// One chip with its own sight of the lines.
trait Side: Clone + PartialEq {
    type Event: Copy;
    fn bus(&mut self, event: Self::Event) -> Reply;
    fn line(&mut self, event: LineEvent);
}

#[derive(Clone, PartialEq, Eq)]
struct FlashSide {
    stamp: u32,
    lines: Lines,
    flash: Flash,
}

#[derive(Clone, PartialEq, Eq)]
struct EepromSide {
    stamp: u32,
    lines: Lines,
    eeprom: Eeprom,
}

impl Side for FlashSide {
    type Event = FlashEvent;

    fn bus(&mut self, event: FlashEvent) -> Reply {
        self.flash.bus(event, self.lines, self.stamp)
    }

    fn line(&mut self, event: LineEvent) {
        self.flash.line(event, self.lines, self.stamp);
        self.lines = self.lines.after(event);
    }
}

impl Side for EepromSide {
    type Event = EepromEvent;

    fn bus(&mut self, event: EepromEvent) -> Reply {
        self.eeprom.bus(event, self.lines, self.stamp)
    }

    fn line(&mut self, event: LineEvent) {
        self.eeprom.line(event, self.lines, self.stamp);
        self.lines = self.lines.after(event);
    }
}

/// The chip and its replies where every order, each from a fresh copy, agrees in all; None where two differ.
fn same_in_every_order<S: Side>(start: &S, bus: &[S::Event], lines: &[LineEvent]) -> Option<(S, Vec<Reply>)> {
    let mut agreed: Option<(S, Vec<Reply>)> = None;
    for line_first in orders_of_two(bus.len(), lines.len()) {
        let outcome = play_order(start, bus, lines, &line_first);
        match &agreed {
            Some(other) if *other != outcome => return None,
            Some(_) => (),
            None => agreed = Some(outcome),
        }
    }
    agreed
}

fn play_order<S: Side>(start: &S, bus: &[S::Event], lines: &[LineEvent], line_first: &[bool]) -> (S, Vec<Reply>) {
    let mut side = start.clone();
    let mut bus = bus.iter();
    let mut lines = lines.iter();
    let mut replies = Vec::new();
    for &line in line_first {
        if line {
            lines.next().into_iter().for_each(|&event| side.line(event));
        } else {
            replies.extend(bus.next().map(|&event| side.bus(event)));
        }
    }
    (side, replies)
}

/// Every way to lay `lines` line records (true) among `bus` bus records (false).
fn orders_of_two(bus: usize, lines: usize) -> Vec<Vec<bool>> {
    if bus == 0 && lines == 0 {
        return vec![Vec::new()];
    }
    let mut orders = Vec::new();
    if lines > 0 {
        orders.extend(orders_of_two(bus, lines - 1).into_iter().map(|rest| put_first(true, rest)));
    }
    if bus > 0 {
        orders.extend(orders_of_two(bus - 1, lines).into_iter().map(|rest| put_first(false, rest)));
    }
    orders
}

fn put_first<T>(first: T, rest: Vec<T>) -> Vec<T> {
    let mut order = vec![first];
    order.extend(rest);
    order
}

#[derive(Clone, Copy, PartialEq, Eq)]
enum Channel {
    F,
    E,
    L,
}

fn outcome_of_all(start: &Board, channels: &Channels) -> Option<Outcome> {
    let mut outcomes = outcomes(start, channels);
    let agreed = outcomes.next()?;
    if outcomes.all(|other| other == agreed) {
        Some(agreed)
    } else {
        None
    }
}

/// Where each order of all three channels leads.
pub fn outcomes<'a>(start: &'a Board, channels: &'a Channels) -> impl Iterator<Item = Outcome> + 'a {
    let orders = orders_of_three(channels.flash.len(), channels.eeprom.len(), channels.lines.len());
    orders.into_iter().map(move |order| play_joint(start, channels, &order))
}

fn play_joint(start: &Board, channels: &Channels, order: &[Channel]) -> Outcome {
    let mut outcome = Outcome { board: start.clone(), flash: Vec::new(), eeprom: Vec::new() };
    let mut flash = channels.flash.iter();
    let mut eeprom = channels.eeprom.iter();
    let mut lines = channels.lines.iter();
    let stamp = channels.stamp;
    for channel in order {
        match channel {
            Channel::F => outcome.flash.extend(flash.next().map(|&event| outcome.board.play(Event::F(event), stamp))),
            Channel::E => outcome.eeprom.extend(eeprom.next().map(|&event| outcome.board.play(Event::E(event), stamp))),
            Channel::L => lines.next().into_iter().for_each(|&event| {
                outcome.board.play(Event::L(event), stamp);
            }),
        }
    }
    outcome
}

fn orders_of_three(flash: usize, eeprom: usize, lines: usize) -> Vec<Vec<Channel>> {
    if flash + eeprom + lines == 0 {
        return vec![Vec::new()];
    }
    let mut orders = Vec::new();
    if flash > 0 {
        orders.extend(orders_of_three(flash - 1, eeprom, lines).into_iter().map(|rest| put_first(Channel::F, rest)));
    }
    if eeprom > 0 {
        orders.extend(orders_of_three(flash, eeprom - 1, lines).into_iter().map(|rest| put_first(Channel::E, rest)));
    }
    if lines > 0 {
        orders.extend(orders_of_three(flash, eeprom, lines - 1).into_iter().map(|rest| put_first(Channel::L, rest)));
    }
    orders
}
