//! Starting images, and buffers for a call.

use super::random::Random;
use crate::model::call::{Call, REPLIES, RESULT, TIMES};
use crate::model::kept::{Kept, KEPT};
use crate::model::times::{table, Times, EEPROM_PAGES, FLASH_PAGES};

#[derive(Clone, Debug)]
pub struct Dumps {
    pub flash: Kept,
    pub eeprom: Kept,
}

pub fn dumps(random: &mut Random) -> Dumps {
    Dumps { flash: kept(random), eeprom: kept(random) }
}

fn kept(random: &mut Random) -> Kept {
    match random.below(6) {
        0 => Kept::doubtful(),
        1 => Kept::sure(vec![0xff; KEPT]),
        2 | 3 => Kept::sure(random.bytes(KEPT)),
        _ => partly_doubtful(random),
    }
}

fn partly_doubtful(random: &mut Random) -> Kept {
    let mut mask = random.bytes(KEPT);
    if random.percent(50) {
        let sparse = random.bytes(KEPT);
        mask.iter_mut().zip(sparse).for_each(|(doubt, other)| *doubt &= other);
    }
    let value = random.bytes(KEPT).iter().zip(&mask).map(|(value, doubt)| value & !doubt).collect();
    Kept { value, mask }
}

/// What a table may hold before a call: anything, nothing, or the times of another trace.
fn old_times(random: &mut Random) -> Vec<u8> {
    match random.below(3) {
        0 => random.bytes(TIMES),
        1 => vec![0; TIMES],
        _ => table(&any_times(random, FLASH_PAGES), &any_times(random, EEPROM_PAGES)),
    }
}

fn any_times(random: &mut Random, pages: usize) -> Times {
    (0..pages).map(|_| if random.percent(50) { Some(random.next() as u32) } else { None }).collect()
}

/// A call with buffers of the right lengths; times, replies and result hold what was there before.
pub fn call(random: &mut Random, text: Vec<u8>, dumps: Dumps) -> Call {
    Call {
        text,
        flash: dumps.flash.value,
        flash_mask: dumps.flash.mask,
        eeprom: dumps.eeprom.value,
        eeprom_mask: dumps.eeprom.mask,
        times: old_times(random),
        replies: random.bytes(REPLIES),
        result: random.bytes(RESULT),
    }
}

/// Spoils a call so that refusal 1 is due: a bit set in both, or a wrong length.
pub fn spoil(random: &mut Random, call: &mut Call) {
    match random.below(4) {
        0 => set_in_both(random, call),
        1 => {
            set_in_both(random, call);
            change_length(random, call);
        }
        2 => {
            change_length(random, call);
            change_length(random, call);
        }
        _ => change_length(random, call),
    }
}

fn set_in_both(random: &mut Random, call: &mut Call) {
    let any = random.below(KEPT);
    let place = random.pick(&[0, KEPT - 1, any]);
    let bit = 1 << random.below(8);
    let (image, mask) = match random.below(2) {
        0 => (&mut call.flash, &mut call.flash_mask),
        _ => (&mut call.eeprom, &mut call.eeprom_mask),
    };
    image[place] |= bit;
    mask[place] |= bit;
}

fn change_length(random: &mut Random, call: &mut Call) {
    let far = random.below(50_000);
    let buffers = call.lent_buffers_mut();
    let which = random.below(buffers.len());
    for (number, buffer) in (0..).zip(buffers) {
        if number == which {
            let right = buffer.len();
            let length = random.pick(&[0, 1, right.saturating_sub(1), right + 1, right * 2, far, 12, 16, 3_200, 32_768, 40_000]);
            buffer.resize(length, 0);
        }
    }
}
