//! The same trace with other stamps: what shared a stamp does so still, and none overtakes another.

use super::damage::Sheet;
use super::random::Random;
use crate::model::fields::STAMP_MOST;
use crate::model::replay::stamps;
use crate::model::text::Trace;
use std::collections::BTreeMap;

pub struct Restamped {
    pub text: Vec<u8>,
    /// Each old stamp's new one.
    pub stamps: BTreeMap<u32, u32>,
}

pub fn restamp(random: &mut Random, text: &[u8], trace: &Trace) -> Restamped {
    let mut sheet = Sheet::of(text);
    let old: Vec<u32> = stamps(&trace.records).iter().map(|records| records[0].stamp).collect();
    let new = rising(random, old.len());
    let stamps: BTreeMap<u32, u32> = old.into_iter().zip(new).collect();
    for record in &trace.records {
        let line = &mut sheet.lines[record.line as usize - 1];
        let digits = record.stamp.to_string().len();
        line.splice(..digits, stamps[&record.stamp].to_string().into_bytes());
    }
    Restamped { text: sheet.text(), stamps }
}

/// So many rising stamps: from 0 on, up to the last there is, or with gaps.
fn rising(random: &mut Random, count: usize) -> Vec<u32> {
    let most = STAMP_MOST as usize;
    let widest = random.pick(&[1, 1, 300, most / count.max(1)]);
    let gaps: Vec<usize> = (0..count).map(|_| random.between(1, widest)).collect();
    let length: usize = gaps.iter().sum();
    let mut next = random.pick(&[0, most + 1 - length]);
    let mut rising = Vec::new();
    for gap in gaps {
        rising.push(next as u32);
        next += gap;
    }
    rising
}
