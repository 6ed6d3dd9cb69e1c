//! Which histories of a trace are tried: some, or all.

use super::choices::{Choices, EachInTurn, Extreme, Sampled};
use super::history::{history, History, Shown};
use super::seen::Seen;
use crate::generate::random::Random;
use crate::generate::small_doubts::Focus;
use std::cell::RefCell;
use std::rc::Rc;

/// Random histories of a trace, beside the two extremes.
pub const RANDOM_HISTORIES: usize = 6;

/// The most histories of a trace that is tried in all.
const MOST: usize = 4_096;

pub fn extreme(shown: &Shown, ones: bool) -> History {
    let choices: Choices = Rc::new(RefCell::new(Extreme { ones }));
    history(shown, &choices)
}

pub fn at_random(shown: &Shown, random: &mut Random) -> History {
    let choices: Choices = Rc::new(RefCell::new(Sampled { random: Random::seeded(random.next()) }));
    history(shown, &choices)
}

/// Both extremes, and some at random.
pub fn sampled(shown: &Shown, random: &mut Random) -> Seen {
    let mut seen = Seen::default();
    for ones in [false, true] {
        seen.add(&extreme(shown, ones));
    }
    for _ in 0..RANDOM_HISTORIES {
        seen.add(&at_random(shown, random));
    }
    seen
}

/// Every order with every start value and choice of the bits in focus (`EachInTurn`); None where there are too many.
pub fn every(shown: &Shown, focus: Focus) -> Option<Seen> {
    let mut seen = Seen::default();
    each(shown, focus, |history| seen.add(history)).then_some(seen)
}

/// Tries all; false where there are too many.
pub fn each(shown: &Shown, focus: Focus, mut see: impl FnMut(&History)) -> bool {
    let chooser = Rc::new(RefCell::new(EachInTurn::new(focus)));
    let choices: Choices = chooser.clone();
    for _ in 0..MOST {
        see(&history(shown, &choices));
        if !chooser.borrow_mut().advance() {
            return true;
        }
    }
    false
}
