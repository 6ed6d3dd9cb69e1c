//! A trace with every kind of line, and a capture, spoilt at each of its bytes.

/// Stamps have every length, so that numbers are cut and changed everywhere.
pub const EVERY_LINE: &[u8] = include_bytes!("../../../c/traces/every-line.tsv");

/// What happens to a text at a place.
pub type Spoil = fn(&mut Vec<u8>, usize);

pub const WAYS: [(&str, Spoil); 8] = [
    ("a text cut off at every byte", |text, place| text.truncate(place)),
    ("every byte lost", |text, place| {
        text.remove(place);
    }),
    ("every byte twice", |text, place| text.insert(place, text[place])),
    ("every byte changed by a bit", |text, place| text[place] ^= 1),
    ("a tab for every byte", |text, place| text[place] = b'\t'),
    ("a blank for every byte", |text, place| text[place] = b' '),
    ("a line end for every byte", |text, place| text[place] = b'\n'),
    ("a line end before every byte", |text, place| text.insert(place, b'\n')),
];

/// The trace spoilt in one way, at each place in turn.
pub fn texts(spoil: Spoil) -> impl Iterator<Item = Vec<u8>> {
    texts_of(EVERY_LINE, spoil)
}

pub fn texts_of(whole: &'static [u8], spoil: Spoil) -> impl Iterator<Item = Vec<u8>> {
    (0..whole.len()).map(move |place| {
        let mut text = whole.to_vec();
        spoil(&mut text, place);
        text
    })
}

/// A capture (request 4/12) of a frame on each bus, with a byte of either and a pause, and stamps of every length.
pub const CAPTURE: &[u8] = include_bytes!("../../../c/traces/levels.tsv");

/// Its logger's trace: records before, between and behind, of which some are taken.
pub const LOGGER: &[u8] = include_bytes!("../../../c/traces/logger.tsv");
