//! The trace that plays a plan: for each entry WREN's frame, the entry's own, and `end`, every record at a stamp of its own.

use crate::model::plan::Entry;
use crate::model::record::{BoardLine, Event, FlashEvent};
use crate::model::text::TEXT_MOST;
use crate::model::written::{board_line_of, line_of};

const WREN: u8 = 0x06;
const PROGRAM: u8 = 0x02;
const SECTOR_ERASE: u8 = 0x52;
const CHIP_ERASE: u8 = 0x62;

/// The entries that a list's bytes spell; None where they spell none, or no such number.
pub fn entries_of(list: &[u8], number: usize) -> Option<Vec<Entry>> {
    let mut entries = Vec::new();
    let mut rest = list;
    while entries.len() < number {
        let (head, behind) = if rest.len() < 4 { return None } else { rest.split_at(4) };
        let first = usize::from(head[1]) * 0x1_0000 + usize::from(head[2]) * 0x100 + usize::from(head[3]);
        let (entry, length) = match head[0] {
            1 => (Entry::SectorErase { first }, 0),
            2 => (Entry::ChipErase, 0),
            3 if behind.len() >= 256 => (Entry::Program { first, data: behind[..256].to_vec() }, 256),
            _ => return None,
        };
        entries.push(entry);
        rest = &behind[length..];
    }
    Some(entries)
}

/// What an entry puts on the bus.
pub fn events(entry: &Entry) -> Vec<FlashEvent> {
    let address = |first: usize| [(first >> 16) as u8, (first >> 8) as u8, first as u8];
    let sent = match entry {
        Entry::SectorErase { first } => [&[SECTOR_ERASE][..], &address(*first)].concat(),
        Entry::ChipErase => vec![CHIP_ERASE],
        Entry::Program { first, data } => [&[PROGRAM][..], &address(*first), data].concat(),
    };
    [frame(&[WREN]), frame(&sent), vec![FlashEvent::End]].concat()
}

fn frame(sent: &[u8]) -> Vec<FlashEvent> {
    let bytes = sent.iter().map(|&si| FlashEvent::X { si, so: 0xff });
    [FlashEvent::Sel].into_iter().chain(bytes).chain([FlashEvent::Des]).collect()
}

/// A text, and how many entries it plays.
pub struct Text {
    pub text: Vec<u8>,
    pub entries: usize,
}

/// The texts that play a list one after the other, each as long as a text may be. Without entries it is a board line alone.
pub fn texts(board: BoardLine, entries: &[Entry]) -> Vec<Text> {
    let head = board_line_of(board).into_bytes();
    let mut texts = vec![Text { text: head.clone(), entries: 0 }];
    let mut stamp = 0;
    for entry in entries {
        let mut lines = Vec::new();
        for event in events(entry) {
            stamp += 1;
            lines.extend(line_of(stamp, Event::F(event)).into_bytes());
        }
        if texts[texts.len() - 1].text.len() + lines.len() > TEXT_MOST {
            texts.push(Text { text: head.clone(), entries: 0 });
        }
        let last = texts.len() - 1;
        texts[last].text.extend(lines);
        texts[last].entries += 1;
    }
    texts
}
