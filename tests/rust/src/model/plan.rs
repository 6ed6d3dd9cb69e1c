//! The list of cycles that refills the flash (request 6/12), without thrift: each choice of erases is tried out, every page that
//! is then not as wanted is programmed, and of the lists that yield the wanted content the shortest is taken.

use super::fields::STATUS_BITS;
use super::flash::Status;

/// A chip's measures. Beside the flash there are chips in the tests, so small that every list can be tried out on them.
#[derive(Clone, Copy, Debug)]
pub struct Chip {
    pub sectors: usize,
    /// The pages of a sector.
    pub pages: usize,
    /// The bytes of a page.
    pub page: usize,
    /// What an erase makes of a byte.
    pub erased: u8,
}

pub const FLASH: Chip = Chip { sectors: 4, pages: 128, page: 256, erased: 0xff };

/// One cycle. `first` is the address at which its sector or page begins.
#[derive(Clone, Debug, PartialEq, Eq)]
pub enum Entry {
    SectorErase { first: usize },
    ChipErase,
    Program { first: usize, data: Vec<u8> },
}

/// Whether each sector is locked out.
pub type Locks = Vec<bool>;

pub fn locks_of(status: u8) -> Locks {
    (1..=4).map(|sector| Status::of_byte(status, false).locks_out(sector)).collect()
}

impl Chip {
    pub fn sector(&self) -> usize {
        self.pages * self.page
    }

    pub fn bytes(&self) -> usize {
        self.sectors * self.sector()
    }

    /// What a cycle makes of a content. One that is locked out starts nothing; a chip erase clears the unlocked sectors.
    pub fn play(&self, content: &mut [u8], locks: &Locks, entry: &Entry) {
        for (sector, bytes) in content.chunks_mut(self.sector()).enumerate().filter(|(sector, _)| !locks[*sector]) {
            match entry {
                Entry::ChipErase => bytes.fill(self.erased),
                Entry::SectorErase { first } if first / self.sector() == sector => bytes.fill(self.erased),
                Entry::Program { first, data } if first / self.sector() == sector => {
                    let page = &mut bytes[first % self.sector()..][..self.page];
                    page.iter_mut().zip(data).for_each(|(value, sent)| *value &= sent);
                }
                Entry::SectorErase { .. } | Entry::Program { .. } => (),
            }
        }
    }

    /// Whether a byte that differs stands in a locked sector.
    pub fn differs_locked(&self, present: &[u8], wanted: &[u8], locks: &Locks) -> bool {
        (0..self.bytes()).any(|place| present[place] != wanted[place] && locks[place / self.sector()])
    }

    /// The shortest list, one without chip erase before one with it; None where no choice of erases leads to the content.
    pub fn plan(&self, present: &[u8], wanted: &[u8], locks: &Locks) -> Option<Vec<Entry>> {
        let lists = self.choices().into_iter().filter_map(|erases| self.completed(present, wanted, locks, erases));
        lists.min_by_key(|list| (list.len(), list.contains(&Entry::ChipErase)))
    }

    /// Any of the sectors by rising address, or the chip.
    fn choices(&self) -> Vec<Vec<Entry>> {
        let chosen = |set: usize| (0..self.sectors).filter(move |sector| set >> sector & 1 == 1);
        let erases = |set: usize| chosen(set).map(|sector| Entry::SectorErase { first: sector * self.sector() }).collect();
        let mut choices: Vec<Vec<Entry>> = (0..1 << self.sectors).map(erases).collect();
        choices.push(vec![Entry::ChipErase]);
        choices
    }

    /// The erases, and behind them a program for every page that they do not leave as wanted; None where that does not yield
    /// the wanted content.
    pub fn completed(&self, present: &[u8], wanted: &[u8], locks: &Locks, erases: Vec<Entry>) -> Option<Vec<Entry>> {
        let mut content = present.to_vec();
        let mut list = erases;
        list.iter().for_each(|erase| self.play(&mut content, locks, erase));
        for (number, data) in wanted.chunks(self.page).enumerate() {
            let first = number * self.page;
            if content[first..first + self.page] != *data {
                let program = Entry::Program { first, data: data.to_vec() };
                self.play(&mut content, locks, &program);
                list.push(program);
            }
        }
        if content == wanted {
            Some(list)
        } else {
            None
        }
    }
}

impl Entry {
    /// A kind, three address bytes with the high one first, and a program's page.
    pub fn bytes(&self) -> Vec<u8> {
        let (kind, first, data): (u8, usize, &[u8]) = match self {
            Entry::SectorErase { first } => (1, *first, &[]),
            Entry::ChipErase => (2, 0, &[]),
            Entry::Program { first, data } => (3, *first, data),
        };
        let mut bytes = vec![kind, (first >> 16) as u8, (first >> 8) as u8, first as u8];
        bytes.extend(data);
        bytes
    }
}

pub const CHIP: usize = 131_072;
pub const PLAN_RESULT: usize = 8;

/// The plan as the C call shows it: buffers of any length, the answer and what each buffer holds afterwards.
#[derive(Clone, Debug, PartialEq, Eq)]
pub struct PlanCall {
    pub present: Vec<u8>,
    pub wanted: Vec<u8>,
    pub status: u8,
    pub list: Vec<u8>,
    pub result: Vec<u8>,
}

impl PlanCall {
    /// Answers, and leaves list and result as the call must.
    pub fn run(&mut self) -> u32 {
        let (answer, entries) = match self.planned() {
            Ok(entries) => (0, entries),
            Err(refusal) => (refusal, Vec::new()),
        };
        let bytes = list_bytes(&entries);
        self.list[..bytes.len()].copy_from_slice(&bytes);
        if self.result.len() == PLAN_RESULT {
            self.result = [answer, entries.len() as u32].iter().flat_map(|number| number.to_le_bytes()).collect();
        }
        answer
    }

    /// The list, or the refusal: 14, 15, 16 in that order.
    fn planned(&self) -> Result<Vec<Entry>, u32> {
        let entries = self.entries()?;
        if list_bytes(&entries).len() > self.list.len() {
            return Err(16);
        }
        Ok(entries)
    }

    /// The list without a look at the room that is lent for it.
    pub fn entries(&self) -> Result<Vec<Entry>, u32> {
        let wrong_length = self.present.len() != CHIP || self.wanted.len() != CHIP || self.result.len() != PLAN_RESULT;
        if wrong_length || self.status & !STATUS_BITS != 0 {
            return Err(14);
        }
        let locks = locks_of(self.status);
        if FLASH.differs_locked(&self.present, &self.wanted, &locks) {
            return Err(15);
        }
        let plan = FLASH.plan(&self.present, &self.wanted, &locks);
        // The tests show on small chips that refusal 15 covers all that can't be reached.
        Ok(plan.expect("what differs is unlocked, so that there is a plan"))
    }
}

pub fn list_bytes(entries: &[Entry]) -> Vec<u8> {
    entries.iter().flat_map(|entry| entry.bytes()).collect()
}
