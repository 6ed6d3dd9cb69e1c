//! Another allowed order of a trace's lines: each channel keeps its order and stamps never go back.

use super::damage::Sheet;
use super::random::Random;
use crate::model::record::{Event, Record};
use crate::model::replay::stamps;
use crate::model::text::Trace;

pub struct Reordered {
    pub text: Vec<u8>,
    /// For each record of the new text, where it stood among the old records.
    pub origins: Vec<usize>,
}

pub fn reorder(random: &mut Random, text: &[u8], trace: &Trace) -> Reordered {
    let sheet = Sheet::of(text);
    let mut lines = vec![sheet.lines[0].clone()];
    let mut origins = Vec::new();
    for records in stamps(&trace.records) {
        for record in mixed(random, records) {
            origins.push(record.line as usize - 2);
            lines.push(sheet.lines[record.line as usize - 1].clone());
        }
    }
    Reordered { text: Sheet { lines, last_lf: true }.text(), origins }
}

fn mixed(random: &mut Random, records: &[Record]) -> Vec<Record> {
    let mut channels: Vec<Vec<Record>> = vec![Vec::new(); 3];
    for record in records.iter().rev() {
        let channel = match record.event {
            Event::F(_) => 0,
            Event::E(_) => 1,
            Event::L(_) => 2,
        };
        channels[channel].push(*record);
    }
    let mut order = Vec::new();
    while order.len() < records.len() {
        order.extend(channels[random.below(3)].pop());
    }
    order
}
