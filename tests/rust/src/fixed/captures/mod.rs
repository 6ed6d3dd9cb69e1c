//! Captures with their whole outcome written by hand (request 4/12), from the rules and not from the model.

mod eeprom_bits;
mod flash_bits;
mod lengths;
mod merging;
mod played;
mod refusals;
mod sketch;

use crate::model::capture_calls::{MergeCall, PlayCall};
pub use sketch::{FixedCall, FixedCapture};

pub fn captures() -> Vec<FixedCapture> {
    let mut cases = Vec::new();
    cases.extend(flash_bits::cases());
    cases.extend(eeprom_bits::cases());
    cases.extend(refusals::cases());
    cases.extend(refusals::logger_cases());
    cases.extend(merging::cases());
    cases.extend(played::cases());
    cases
}

pub fn merges() -> Vec<FixedCall<MergeCall>> {
    let mut cases: Vec<FixedCall<MergeCall>> = captures().iter().map(FixedCapture::merge).collect();
    cases.extend(lengths::merges());
    cases
}

pub fn plays() -> Vec<FixedCall<PlayCall>> {
    let mut cases: Vec<FixedCall<PlayCall>> = captures().iter().map(FixedCapture::play).collect();
    cases.extend(lengths::plays());
    cases
}
