//! The wires of each bus, moved so that a given record comes of it (request 4/12), with what may come between: pauses by HOLD,
//! clocks that no chip minds, a line that moves for nothing. Each step is what a bus' wires show on one more level line.

use super::random::Random;
use crate::model::record::{EepromEvent, FlashEvent};
use std::collections::VecDeque;

#[derive(Clone, Copy)]
pub struct FlashWires {
    pub cs: bool,
    pub sck: bool,
    pub si: bool,
    pub so: bool,
    pub hold: bool,
}

#[derive(Clone, Copy)]
pub struct EepromWires {
    pub scl: bool,
    pub sda: bool,
}

/// As the first line must show them.
pub const FLASH_AT_REST: FlashWires = FlashWires { cs: true, sck: false, si: false, so: false, hold: true };
pub const EEPROM_AT_REST: EepromWires = EepromWires { scl: true, sda: true };

pub struct FlashPen {
    wires: FlashWires,
    /// How often, in hundredths, something comes between that makes no record.
    between: usize,
    pub steps: VecDeque<FlashWires>,
}

impl FlashPen {
    pub fn new(between: usize) -> FlashPen {
        FlashPen { wires: FLASH_AT_REST, between, steps: VecDeque::new() }
    }

    /// An `end` is no matter of the wires, and a `cut` shows at the `des` behind it.
    pub fn write(&mut self, random: &mut Random, event: FlashEvent) {
        match event {
            FlashEvent::Sel => self.select(random),
            FlashEvent::X { si, so } => bits(8).for_each(|bit| self.bit(random, si >> bit & 1 == 1, so >> bit & 1 == 1)),
            FlashEvent::Cut => {
                for _ in 0..random.between(1, 7) {
                    let (si, so) = (random.percent(50), random.percent(50));
                    self.bit(random, si, so);
                }
            }
            FlashEvent::Des => self.deselect(random),
            FlashEvent::End => (),
        }
    }

    fn step(&mut self, change: impl FnOnce(&mut FlashWires)) {
        change(&mut self.wires);
        self.steps.push_back(self.wires);
    }

    fn clock(&mut self, random: &mut Random, level: bool) {
        let so = if random.percent(self.between) { !self.wires.so } else { self.wires.so };
        self.step(|wires| (wires.sck, wires.so) = (level, so));
    }

    /// Clocks with CS high, and SCK left as it is: CS may fall while it is high. HOLD may be low then.
    fn select(&mut self, random: &mut Random) {
        while random.percent(self.between) {
            self.ignored(random);
        }
        let turned = self.turned(random);
        self.step(|wires| *wires = FlashWires { cs: false, ..turned });
    }

    fn deselect(&mut self, random: &mut Random) {
        if random.percent(70) && self.wires.sck {
            self.clock(random, false);
        }
        if random.percent(self.between) {
            self.hold_low(random);
        }
        let turned = self.turned(random);
        self.step(|wires| *wires = FlashWires { cs: true, ..turned });
    }

    /// SI, SO and HOLD may move on the line on which CS does.
    fn turned(&self, random: &mut Random) -> FlashWires {
        let mut wires = self.wires;
        if random.percent(self.between) {
            wires.si = random.percent(50);
            wires.so = random.percent(50);
            wires.hold = random.percent(60);
        }
        wires
    }

    /// A bit counts at SCK's rise, with SI and SO as they are on its line.
    fn bit(&mut self, random: &mut Random, si: bool, so: bool) {
        if random.percent(self.between / 3) {
            self.hold_low(random);
        }
        if self.wires.sck {
            self.clock(random, false);
        }
        if !self.wires.hold {
            self.step(|wires| wires.hold = true);
        }
        if self.wires.si != si {
            let so_now = if random.percent(50) { so } else { self.wires.so };
            self.step(|wires| (wires.si, wires.so) = (si, so_now));
        }
        self.step(|wires| (wires.sck, wires.so) = (true, so));
    }

    /// HOLD falls, and clocks come and go.
    fn hold_low(&mut self, random: &mut Random) {
        if self.wires.hold {
            self.step(|wires| wires.hold = false);
        }
        while random.percent(60) {
            self.ignored(random);
        }
    }

    /// A move that makes no record while CS is high or HOLD low.
    fn ignored(&mut self, random: &mut Random) {
        match random.below(5) {
            0 => self.step(|wires| wires.si = !wires.si),
            1 if self.wires.cs => self.step(|wires| wires.hold = !wires.hold),
            _ => {
                let level = !self.wires.sck;
                self.clock(random, level);
            }
        }
    }
}

pub struct EepromPen {
    wires: EepromWires,
    between: usize,
    /// Whether the last record was a start: the clock that is high then is no bit.
    after_start: bool,
    open: bool,
    pub steps: VecDeque<EepromWires>,
}

impl EepromPen {
    pub fn new(between: usize) -> EepromPen {
        EepromPen { wires: EEPROM_AT_REST, between, after_start: false, open: false, steps: VecDeque::new() }
    }

    pub fn write(&mut self, random: &mut Random, event: EepromEvent) {
        match event {
            EepromEvent::Sta => self.start(random),
            EepromEvent::B { byte, not_acknowledged } => {
                bits(8).for_each(|bit| self.bit(random, byte >> bit & 1 == 1));
                self.bit(random, not_acknowledged);
            }
            EepromEvent::Cut => {
                for _ in 0..random.between(1, 8) {
                    let level = random.percent(50);
                    self.bit(random, level);
                }
            }
            EepromEvent::Sto => self.stop(random),
            EepromEvent::End => (),
        }
    }

    fn step(&mut self, change: impl FnOnce(&mut EepromWires)) {
        change(&mut self.wires);
        self.steps.push_back(self.wires);
    }

    fn start(&mut self, random: &mut Random) {
        while !self.open && random.percent(self.between) {
            self.passed_over(random);
        }
        self.come_to(random, true);
        self.step(|wires| wires.sda = false);
        (self.open, self.after_start) = (true, true);
    }

    fn stop(&mut self, random: &mut Random) {
        self.come_to(random, false);
        self.step(|wires| wires.sda = true);
        (self.open, self.after_start) = (false, false);
    }

    /// SCL high with this level of SDA, by a clock in whose high time the start or stop is then to come.
    fn come_to(&mut self, random: &mut Random, sda: bool) {
        let may_stay = self.wires.scl && self.wires.sda == sda;
        if may_stay && !(self.after_start && random.percent(40)) {
            return;
        }
        self.go_low();
        self.move_low(random, sda);
        self.step(|wires| wires.scl = true);
    }

    /// A bit has SDA's level at SCL's rise and counts at its fall.
    fn bit(&mut self, random: &mut Random, level: bool) {
        self.go_low();
        self.move_low(random, level);
        self.step(|wires| wires.scl = true);
        self.step(|wires| wires.scl = false);
        self.after_start = false;
    }

    fn go_low(&mut self) {
        if self.wires.scl {
            self.step(|wires| wires.scl = false);
        }
    }

    /// SDA may move while SCL is low, and must then show this level.
    fn move_low(&mut self, random: &mut Random, level: bool) {
        while random.percent(self.between / 2) {
            self.step(|wires| wires.sda = !wires.sda);
        }
        if self.wires.sda != level {
            self.step(|wires| wires.sda = level);
        }
    }

    /// A clock, or a stop, with no start open. SDA does not fall while SCL is high: that would be one.
    fn passed_over(&mut self, random: &mut Random) {
        match (self.wires.scl, self.wires.sda) {
            (true, false) if random.percent(70) => self.step(|wires| wires.sda = true),
            (false, _) if random.percent(50) => self.step(|wires| wires.sda = !wires.sda),
            _ => self.step(|wires| wires.scl = !wires.scl),
        }
    }
}

/// Places of bits, the most significant first.
fn bits(count: u32) -> impl Iterator<Item = u32> {
    (0..count).rev()
}
