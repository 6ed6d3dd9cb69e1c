//! What the rules do to a chip's bytes, whatever holds them: with doubt (`Kept`), or in one history (request 8/12).

use super::record::Reply;
use std::ops::Range;

/// A byte sent in a cycle, and the place it is for among the bytes kept.
#[derive(Clone, Copy, Debug, PartialEq, Eq)]
pub struct Sent {
    pub place: usize,
    pub byte: u8,
}

pub trait Cells {
    /// The byte reply to a read of this place.
    fn read(&self, place: usize) -> Reply;
    fn program(&mut self, sent: &[Sent]);
    fn cut_program(&mut self, sent: &[Sent]);
    /// Of the whole watched sector.
    fn erase(&mut self);
    fn cut_erase(&mut self);
    fn store(&mut self, sent: &[Sent]);
    /// A page write that was cut: all places of its page.
    fn cut_page(&mut self, page: Range<usize>);
}

/// The bytes sent for a page that begins at `first`.
pub fn sent_from(first: usize, page: &[Option<u8>]) -> Vec<Sent> {
    (first..).zip(page).filter_map(|(place, byte)| Some(Sent { place, byte: (*byte)? })).collect()
}
