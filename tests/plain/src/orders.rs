//! One chip's records of a stamp with the line records, in every order: at each place either the next line record or the
//! next bus record comes first. Each order is played from the stamp's start on a fresh copy of the chip with its image, and
//! its end is compared whole with the first order's. A stamp that has one order only is tried in the same way.

use crate::record::{LineEvent, Lines, Reply};

pub const MOST_BUS: usize = 8;
pub const MOST_LINES: usize = 2;

pub trait Chip: Copy + PartialEq {
    type Event: Copy;

    fn bus(&mut self, event: Self::Event, lines: Lines, stamp: u32) -> Reply;

    /// A line record; `before` are the lines as it finds them.
    fn line(&mut self, event: LineEvent, before: Lines, stamp: u32);
}

/// The replies to the bus records, in their order.
pub type Replies = [Reply; MOST_BUS];

/// Which comes at each place of an order: a line record (true) or a bus record.
type Order = [bool; MOST_BUS + MOST_LINES];

/// What one chip has to do with a stamp.
#[derive(Clone, Copy)]
pub struct Tied<'a, E> {
    pub stamp: u32,
    pub bus: &'a [E],
    pub lines: &'a [LineEvent],
    /// The lines at the stamp's start.
    pub before: Lines,
}

/// A chip as it is before a stamp, and two copies to try orders on.
pub struct Trial<'a, C> {
    pub now: &'a mut C,
    pub first: &'a mut C,
    pub other: &'a mut C,
}

impl<'a, C: Chip> Trial<'a, C> {
    /// The first chip is the one as it is, the others are room.
    pub fn on(chips: &'a mut [C; 3]) -> Trial<'a, C> {
        let [now, first, other] = chips;
        Trial { now, first, other }
    }

    /// The replies where no two orders differ; the agreed end is then in `first`.
    pub fn agreed(&mut self, tied: Tied<C::Event>) -> Option<Replies> {
        let mut replies = None;
        if self.every_order(tied, &mut [false; MOST_BUS + MOST_LINES], 0, 0, &mut replies) {
            replies
        } else {
            None
        }
    }

    /// Lays the order's places from `bus + lines` on in each way there is; false as soon as one differs from the first.
    fn every_order(
        &mut self,
        tied: Tied<C::Event>,
        order: &mut Order,
        bus: usize,
        lines: usize,
        replies: &mut Option<Replies>,
    ) -> bool {
        let place = bus + lines;
        if place == tied.bus.len() + tied.lines.len() {
            return self.one_order(tied, &order[..place], replies);
        }
        if lines < tied.lines.len() {
            order[place] = true;
            if !self.every_order(tied, order, bus, lines + 1, replies) {
                return false;
            }
        }
        if bus < tied.bus.len() {
            order[place] = false;
            if !self.every_order(tied, order, bus + 1, lines, replies) {
                return false;
            }
        }
        true
    }

    fn one_order(&mut self, tied: Tied<C::Event>, order: &[bool], replies: &mut Option<Replies>) -> bool {
        match replies {
            None => {
                *self.first = *self.now;
                *replies = Some(play(self.first, tied, order));
                true
            }
            Some(replies) => {
                *self.other = *self.now;
                play(self.other, tied, order) == *replies && *self.other == *self.first
            }
        }
    }
}

fn play<C: Chip>(chip: &mut C, tied: Tied<C::Event>, order: &[bool]) -> Replies {
    let mut replies = [Reply::Silent; MOST_BUS];
    let mut lines = tied.before;
    let mut line_events = tied.lines.iter();
    let mut bus_events = tied.bus.iter().zip(&mut replies);
    for &line_first in order {
        if line_first {
            if let Some(&event) = line_events.next() {
                chip.line(event, lines, tied.stamp);
                lines = lines.after(event);
            }
        } else if let Some((&event, reply)) = bus_events.next() {
            *reply = chip.bus(event, lines, tied.stamp);
        }
    }
    replies
}
