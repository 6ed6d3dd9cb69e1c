//! Level lines that move at random, with no record in mind, and each ground for 12 and 13 put into them (request 4/12).

use super::author::board_line;
use super::captures::Capture;
use super::drawn::level_line_of;
use super::random::Random;
use crate::model::levels::{LevelLine, Levels};
use crate::model::record::{EepromEvent, Event, FlashEvent, LineEvent};
use crate::model::written::{board_line_of, line_of};

/// A walk before it is written down, so that a ground can be put into it.
struct Walk {
    lines: Vec<LevelLine>,
    /// Stamps of taken records.
    taken: Vec<u32>,
    trace: String,
}

/// How often, in hundredths, a wire moves from a line to the next.
struct Moves {
    cs: usize,
    sck: usize,
    hold: usize,
    scl: usize,
    /// SDA while SCL is low, and while it is high.
    sda_low: usize,
    sda_high: usize,
}

const AT_REST: Levels = Levels { cs: true, sck: false, si: false, so: false, hold: true, scl: true, sda: true };

const TAKEN: [Event; 6] = [
    Event::F(FlashEvent::End),
    Event::E(EepromEvent::End),
    Event::L(LineEvent::On),
    Event::L(LineEvent::Off),
    Event::L(LineEvent::Lock),
    Event::L(LineEvent::Free),
];

/// Records that are passed over, in an order that can be.
const PASSED_OVER: [Event; 4] =
    [Event::F(FlashEvent::Sel), Event::E(EepromEvent::Sta), Event::F(FlashEvent::Des), Event::E(EepromEvent::Sto)];

/// Nothing but moves that may be.
pub fn walk(random: &mut Random, _number: usize) -> Capture {
    walked(random).written()
}

/// Each ground in turn, at any line, and now and then a second one.
pub fn bad_walk(random: &mut Random, number: usize) -> Capture {
    let mut walk = walked(random);
    GROUNDS[number % GROUNDS.len()].1(random, &mut walk);
    if random.percent(30) {
        random.pick(&GROUNDS).1(random, &mut walk);
    }
    walk.written()
}

type Ground = (&'static str, fn(&mut Random, &mut Walk));

const GROUNDS: [Ground; 16] = [
    ("SCK with CS", |random, walk| walk.change(random, |now, before| (now.sck, now.cs) = (!before.sck, !before.cs))),
    ("SCK with SI", |random, walk| walk.change(random, |now, before| (now.sck, now.si) = (!before.sck, !before.si))),
    ("SCK with HOLD", |random, walk| walk.change(random, |now, before| (now.sck, now.hold) = (!before.sck, !before.hold))),
    ("SCL with SDA", |random, walk| walk.change(random, |now, before| (now.scl, now.sda) = (!before.scl, !before.sda))),
    ("every wire", |random, walk| {
        walk.change(random, |now, before| {
            let Levels { cs, sck, si, so, hold, scl, sda } = *before;
            *now = Levels { cs: !cs, sck: !sck, si: !si, so: !so, hold: !hold, scl: !scl, sda: !sda };
        })
    }),
    ("CS low at first", |_, walk| walk.lines[0].levels.cs = false),
    ("SCK high at first", |_, walk| walk.lines[0].levels.sck = true),
    ("HOLD low at first", |_, walk| walk.lines[0].levels.hold = false),
    ("SCL low at first", |_, walk| walk.lines[0].levels.scl = false),
    ("SDA low at first", |_, walk| walk.lines[0].levels.sda = false),
    ("the first line lost", |_, walk| {
        walk.lines.remove(0);
    }),
    ("a lower stamp", |random, walk| {
        let place = walk.place(random);
        walk.lines[place].stamp = walk.lines[place - 1].stamp.saturating_sub(1);
    }),
    ("two lines exchanged", |random, walk| {
        let (one, other) = (walk.place(random), walk.place(random));
        walk.lines.swap(one, other);
    }),
    ("a taken record's stamp", |random, walk| walk.meet(random)),
    ("a taken record's stamp at first", |random, walk| {
        let stamp = walk.lines[0].stamp;
        walk.take(random, stamp);
    }),
    ("a taken record's stamp at last", |random, walk| {
        let stamp = walk.lines[walk.lines.len() - 1].stamp;
        walk.take(random, stamp);
    }),
];

impl Walk {
    /// A line with one before it.
    fn place(&self, random: &mut Random) -> usize {
        random.between(1, self.lines.len() - 1)
    }

    fn change(&mut self, random: &mut Random, change: fn(&mut Levels, &Levels)) {
        let place = self.place(random);
        let before = self.lines[place - 1].levels;
        change(&mut self.lines[place].levels, &before);
    }

    /// A line gets the stamp of a taken record, so that no stamp falls; where none was taken, one is.
    fn meet(&mut self, random: &mut Random) {
        if self.taken.is_empty() {
            let stamp = self.lines[self.lines.len() - 1].stamp;
            self.take(random, stamp);
            return;
        }
        let stamp = random.pick(&self.taken);
        if let Some(place) = self.lines.iter().position(|line| line.stamp > stamp) {
            self.lines[place].stamp = stamp;
        }
    }

    /// The logger's trace has this taken record alone.
    fn take(&mut self, random: &mut Random, stamp: u32) {
        self.taken = vec![stamp];
        self.trace = board_line_of(board_line(random)) + &line_of(u64::from(stamp), random.pick(&TAKEN));
    }

    fn written(&self) -> Capture {
        let levels: String = self.lines.iter().map(level_line_of).collect();
        Capture { levels: levels.into_bytes(), trace: self.trace.clone().into_bytes() }
    }
}

fn walked(random: &mut Random) -> Walk {
    let moves = Moves {
        cs: random.pick(&[1, 3, 10, 40]),
        sck: random.pick(&[40, 80]),
        hold: random.pick(&[0, 2, 15]),
        scl: random.pick(&[50, 80]),
        sda_low: random.pick(&[20, 60]),
        sda_high: random.pick(&[1, 2, 5, 60]),
    };
    let ties = random.pick(&[0, 20, 70]);
    let records = random.pick(&[0, 2, 10]);
    let mut stamp: u32 = random.pick(&[0, 1, 98, 4_294_000_000]);
    let mut walk = Walk { lines: vec![LevelLine { stamp, levels: AT_REST }], taken: Vec::new(), trace: String::new() };
    walk.trace = board_line_of(board_line(random));
    let mut passed_over = PASSED_OVER.iter().cycle();
    for _ in 0..random.pick(&[3, 30, 150, 400]) {
        if random.percent(records) {
            stamp += 1;
            walk.taken.push(stamp);
            walk.trace += &line_of(u64::from(stamp), random.pick(&TAKEN));
            stamp += 1;
        } else if !random.percent(ties) {
            stamp += random.pick(&[1, 1, 2, 30]);
        }
        let before = walk.lines[walk.lines.len() - 1].levels;
        walk.lines.push(LevelLine { stamp, levels: moves.after(random, before) });
        if random.percent(records) {
            let event = passed_over.next().copied();
            walk.trace += &event.map_or(String::new(), |event| line_of(u64::from(stamp), event));
        }
    }
    walk
}

impl Moves {
    fn after(&self, random: &mut Random, before: Levels) -> Levels {
        let mut now = before;
        now.so ^= random.percent(20);
        if random.percent(self.sck) {
            now.sck = !now.sck;
        } else {
            now.cs ^= random.percent(self.cs);
            now.hold ^= random.percent(self.hold);
            now.si ^= random.percent(40);
        }
        let sda = if before.scl { self.sda_high } else { self.sda_low };
        if random.percent(sda) {
            now.sda = !now.sda;
        } else {
            now.scl ^= random.percent(self.scl);
        }
        now
    }
}
