//! The plan by itself (request 6/12): on chips so small that every list of cycles can be tried out, its number is the least, and
//! on the flash its lists do by document 01's rules what they are for.

use super::flash::Flash;
use super::kept::{Kept, KEPT};
use super::lines::Lines;
use super::plan::{list_bytes, locks_of, Chip, Entry, Locks, PlanCall, CHIP, FLASH};
use super::plan_listing::{plan_listing, PlanFiles};
use super::record::Reply;
use crate::fixed::plans as fixed;
use crate::generate::plan_traces::{entries_of, events};
use crate::generate::plans::{self, Kind};
use crate::generate::random::Random;

/// A content as one number: `bits` for each byte, the first byte lowest.
#[derive(Clone, Copy)]
struct Tiny {
    chip: Chip,
    bits: usize,
}

const fn tiny(sectors: usize, pages: usize, page: usize, bits: usize) -> Tiny {
    Tiny { chip: Chip { sectors, pages, page, erased: (1 << bits) - 1 }, bits }
}

/// Chips of which every pair of contents is tried, and larger ones of which some are: sectors, pages of a sector, bytes of a
/// page, bits of a byte.
const SMALL: [Tiny; 6] =
    [tiny(1, 3, 1, 2), tiny(2, 2, 1, 2), tiny(2, 2, 2, 1), tiny(3, 1, 1, 2), tiny(3, 2, 1, 1), tiny(4, 2, 1, 1)];
const LARGER: [Tiny; 4] = [tiny(4, 3, 1, 1), tiny(3, 2, 2, 1), tiny(3, 2, 1, 2), tiny(4, 2, 1, 2)];

impl Tiny {
    fn contents(&self) -> usize {
        1 << (self.bits * self.chip.bytes())
    }

    fn content(&self, number: usize) -> Vec<u8> {
        (0..self.chip.bytes()).map(|place| (number >> (self.bits * place)) as u8 & self.chip.erased).collect()
    }

    fn number(&self, content: &[u8]) -> usize {
        content.iter().rev().fold(0, |number, &byte| number << self.bits | usize::from(byte))
    }

    /// On a chip with the flash's sectors the flash's locks; on another any of the sectors may be locked.
    fn locks(&self) -> Vec<Locks> {
        if self.chip.sectors == 4 {
            return [0x00, 0x04, 0x08, 0x0c].iter().map(|&status| locks_of(status)).collect();
        }
        (0..1 << self.chip.sectors).map(|set| (0..self.chip.sectors).map(|sector| set >> sector & 1 == 1).collect()).collect()
    }

    /// Every cycle there is: every erase, and every program with every data. What is not sent of a page is as if sent erased.
    fn entries(&self) -> Vec<Entry> {
        let sectors = (0..self.chip.sectors).map(|sector| Entry::SectorErase { first: sector * self.chip.sector() });
        let mut entries: Vec<Entry> = sectors.collect();
        entries.push(Entry::ChipErase);
        let page = Tiny { chip: Chip { sectors: 1, pages: 1, ..self.chip }, ..*self };
        for first in (0..self.chip.bytes()).step_by(self.chip.page) {
            entries.extend((0..page.contents()).map(|data| Entry::Program { first, data: page.content(data) }));
        }
        entries
    }

    /// For each of the entries where it leads from each content.
    fn steps(&self, entries: &[Entry], locks: &Locks) -> Vec<Vec<usize>> {
        let led = |entry: &Entry, number: usize| {
            let mut content = self.content(number);
            self.chip.play(&mut content, locks, entry);
            self.number(&content)
        };
        entries.iter().map(|entry| (0..self.contents()).map(|number| led(entry, number)).collect()).collect()
    }

    /// How many steps each content is away from the present one; None where no list leads to it.
    fn distances(&self, present: usize, steps: &[Vec<usize>]) -> Vec<Option<usize>> {
        let mut distances = vec![None; self.contents()];
        distances[present] = Some(0);
        let mut reached = vec![present];
        for distance in 1.. {
            let mut next = Vec::new();
            for (&from, step) in reached.iter().flat_map(|from| steps.iter().map(move |step| (from, step))) {
                if distances[step[from]].is_none() {
                    distances[step[from]] = Some(distance);
                    next.push(step[from]);
                }
            }
            if next.is_empty() {
                break;
            }
            reached = next;
        }
        distances
    }
}

/// How often each thing was met: a refusal, a plan without chip erase, a tie with one that has it, and a plan that needs it.
#[derive(Debug, Default)]
struct Met {
    refused: usize,
    without: usize,
    tied: usize,
    with: usize,
}

/// The plans from one content to others, beside the lists that were searched out.
fn compare(
    tiny: &Tiny,
    locks: &Locks,
    present: usize,
    all: &[Vec<usize>],
    wanted: &mut dyn Iterator<Item = usize>,
    met: &mut Met,
) {
    let chip_erase = tiny.chip.sectors;
    let sectors_only: Vec<Vec<usize>> = [&all[..chip_erase], &all[chip_erase + 1..]].concat();
    let least = tiny.distances(present, all);
    let without = tiny.distances(present, &sectors_only);
    let after_chip_erase = tiny.distances(all[chip_erase][present], all);
    let before = tiny.content(present);
    for number in wanted {
        let content = tiny.content(number);
        let plan = tiny.chip.plan(&before, &content, locks);
        // Refusal 15's ground is exactly that no list leads there.
        assert_eq!(tiny.chip.differs_locked(&before, &content, locks), least[number].is_none());
        assert_eq!(plan.as_ref().map(Vec::len), least[number]);
        let list = match plan {
            Some(list) => list,
            None => {
                met.refused += 1;
                continue;
            }
        };
        let mut yielded = before.clone();
        list.iter().for_each(|entry| tiny.chip.play(&mut yielded, locks, entry));
        assert_eq!(yielded, content);
        let has_chip_erase = list.contains(&Entry::ChipErase);
        assert_eq!(has_chip_erase, without[number] != least[number]);
        assert!(is_in_order(&list) && programs_are_wanted(&list, &content), "{:?}", list);
        met.with += usize::from(has_chip_erase);
        met.without += usize::from(!has_chip_erase);
        met.tied += usize::from(!has_chip_erase && least[number] == after_chip_erase[number].map(|rest| rest + 1));
    }
}

/// All erases before all programs, each kind by rising address.
fn is_in_order(list: &[Entry]) -> bool {
    list.windows(2).all(|pair| match (&pair[0], &pair[1]) {
        (Entry::SectorErase { first }, Entry::SectorErase { first: next }) => first < next,
        (Entry::Program { first, .. }, Entry::Program { first: next, .. }) => first < next,
        (Entry::SectorErase { .. } | Entry::ChipErase, Entry::Program { .. }) => true,
        _ => false,
    })
}

fn programs_are_wanted(list: &[Entry], wanted: &[u8]) -> bool {
    list.iter().all(|entry| match entry {
        Entry::Program { first, data } => wanted[*first..*first + data.len()] == **data,
        Entry::SectorErase { .. } | Entry::ChipErase => true,
    })
}

/// From every content to every other, under every lock.
#[test]
fn no_list_on_a_small_chip_is_shorter() {
    let mut met = Met::default();
    for tiny in &SMALL {
        for locks in tiny.locks() {
            let steps = tiny.steps(&tiny.entries(), &locks);
            for present in 0..tiny.contents() {
                compare(tiny, &locks, present, &steps, &mut (0..tiny.contents()), &mut met);
            }
        }
    }
    assert!([met.refused, met.without, met.tied, met.with].iter().all(|&count| count > 1000), "{:?}", met);
}

/// From some contents to some others of chips on which not all pairs can be tried out.
#[test]
fn no_list_on_a_larger_chip_is_shorter() {
    let mut random = Random::seeded(40);
    let mut met = Met::default();
    for tiny in &LARGER {
        for locks in tiny.locks() {
            let steps = tiny.steps(&tiny.entries(), &locks);
            for _ in 0..3 {
                let present = random.below(tiny.contents());
                let wanted: Vec<usize> = (0..300).map(|_| near(&mut random, tiny, present)).collect();
                compare(tiny, &locks, present, &steps, &mut wanted.into_iter(), &mut met);
            }
        }
    }
    assert!([met.refused, met.without, met.tied, met.with].iter().all(|&count| count > 100), "{:?}", met);
}

/// A content that has most pages of another, with some erased and some anyhow.
fn near(random: &mut Random, tiny: &Tiny, present: usize) -> usize {
    let mut content = tiny.content(present);
    for page in content.chunks_mut(tiny.chip.page) {
        match random.below(4) {
            0 => page.fill(tiny.chip.erased),
            1 => page.iter_mut().for_each(|byte| *byte = random.byte() & tiny.chip.erased),
            _ => (),
        }
    }
    tiny.number(&content)
}

/// All lists in the stated order: any erases by rising address, then programs of any pages with their wanted bytes.
fn lists_in_order(tiny: &Tiny, wanted: &[u8]) -> Vec<Vec<Entry>> {
    let sectors = (0..tiny.chip.sectors).map(|sector| Entry::SectorErase { first: sector * tiny.chip.sector() });
    let pages = wanted.chunks(tiny.chip.page).enumerate();
    let programs = pages.map(|(page, data)| Entry::Program { first: page * tiny.chip.page, data: data.to_vec() });
    let mut all: Vec<Entry> = sectors.collect();
    all.push(Entry::ChipErase);
    all.extend(programs);
    let chosen = |set: usize| (0..all.len()).filter(|place| set >> place & 1 == 1).map(|place| all[place].clone()).collect();
    (0..1 << all.len()).map(chosen).collect()
}

/// Of the lists in the stated order that yield the content the plan is the only one of its number that is preferred.
#[test]
fn no_other_list_would_do() {
    let mut random = Random::seeded(41);
    let tiny = tiny(2, 2, 1, 2);
    for locks in tiny.locks() {
        for _ in 0..400 {
            let present = random.below(tiny.contents());
            let (before, wanted) = (tiny.content(present), tiny.content(near(&mut random, &tiny, present)));
            let plan = match tiny.chip.plan(&before, &wanted, &locks) {
                Some(plan) => plan,
                None => continue,
            };
            let mut lists = lists_in_order(&tiny, &wanted);
            lists.retain(|list| {
                let mut content = before.clone();
                list.iter().for_each(|entry| tiny.chip.play(&mut content, &locks, entry));
                content == wanted && list.len() == plan.len()
            });
            if lists.iter().any(|list| !list.contains(&Entry::ChipErase)) {
                lists.retain(|list| !list.contains(&Entry::ChipErase));
            }
            assert_eq!(lists, [plan]);
        }
    }
}

/// Every entry, whatever its data and whether it is locked out, does on the flash what the replay's rules make of its records.
#[test]
fn entries_do_what_their_records_do() {
    let mut random = Random::seeded(42);
    let mut seen = [0; 2];
    for status in [0x00, 0x04, 0x08, 0x0c, 0x80, 0x84, 0x88, 0x8c] {
        for number in 0..12 {
            let before = random.bytes(CHIP);
            let first = random.below(FLASH.sectors) * KEPT;
            let page = first + random.below(128) * 256;
            let entry = match number % 3 {
                0 => Entry::SectorErase { first },
                1 => Entry::Program { first: page, data: random.bytes(256) },
                _ => Entry::ChipErase,
            };
            let (after, started) = played_by_records(&before, status, &entry);
            let mut due = before.clone();
            FLASH.play(&mut due, &locks_of(status), &entry);
            assert!(after == due, "{:02x} {:?}", status, entry);
            assert_eq!(started, after != before);
            seen[usize::from(started)] += 1;
        }
    }
    assert!(seen[0] > 20 && seen[1] > 20, "{:?}", seen);
}

/// The content after an entry's records, with each sector watched in turn, and whether they start a cycle.
fn played_by_records(before: &[u8], status: u8, entry: &Entry) -> (Vec<u8>, bool) {
    let mut after = Vec::new();
    let mut started = false;
    for (sector, bytes) in before.chunks(KEPT).enumerate() {
        let mut flash = Flash::at_start(status, sector as u8 + 1, Kept::sure(bytes.to_vec()));
        let replies = events(entry).into_iter().map(|event| flash.bus(event, Lines::at_start(), 0));
        started = replies.filter(|reply| *reply == Reply::Starts).count() == 1;
        assert!(flash.kept.mask.iter().all(|&doubt| doubt == 0x00));
        after.extend(flash.kept.value);
    }
    (after, started)
}

#[test]
fn hand_written_plans() {
    for case in fixed::all().into_iter().chain(fixed::every_status()) {
        let mut after = case.call.clone();
        assert_eq!(after.run(), case.answer, "{}", case.name);
        assert!(after == case.after(), "{}", case.name);
    }
}

#[test]
fn hand_written_plans_have_names_of_their_own() {
    let mut names: Vec<String> = fixed::all().into_iter().map(|case| case.name).collect();
    names.sort();
    for pair in names.windows(2) {
        assert_ne!(pair[0], pair[1]);
    }
}

#[test]
fn the_longest_plan_and_its_bytes() {
    assert_eq!(FLASH.bytes(), CHIP);
    let wanted: Vec<u8> = (0..CHIP).map(|place| (place % 253) as u8 + 1).collect();
    let plan = FLASH.plan(&vec![0x00; CHIP], &wanted, &locks_of(0x00)).unwrap();
    let bytes = list_bytes(&plan);
    assert_eq!((plan.len(), bytes.len()), (513, 133_124));
    assert_eq!(entries_of(&bytes, 513), Some(plan));
    assert_eq!(entries_of(&bytes, 514), None);
}

/// Each kind of generated call is met with the answers that it is made for.
#[test]
fn generated_plans_meet_every_answer() {
    let kinds: [(Kind, &[u32]); 7] = [
        (plans::changed_bytes, &[0, 15, 16]),
        (plans::changed_pages, &[0, 15, 16]),
        (plans::ties, &[0, 16]),
        (plans::whole, &[0, 15, 16]),
        (plans::at_locks, &[0, 15, 16]),
        (plans::spoilt, &[14]),
        (plans::few_entries, &[0]),
    ];
    let mut random = Random::seeded(43);
    for (kind, due) in kinds {
        let answers: Vec<u32> = (0..60).map(|number| kind(&mut random, number).run()).collect();
        for answer in due {
            assert!(answers.contains(answer), "{:?} {:?}", due, answers);
        }
    }
}

/// By how many entries the list that erases the chip is shorter than the one that does not.
fn gained_by_chip_erase(call: &PlanCall) -> i64 {
    let locks = locks_of(call.status);
    let without = (0..16).filter_map(|set| {
        let erases = (0..4).filter(|sector| set >> sector & 1 == 1).map(|sector| Entry::SectorErase { first: sector * KEPT });
        FLASH.completed(&call.present, &call.wanted, &locks, erases.collect())
    });
    let with = FLASH.completed(&call.present, &call.wanted, &locks, vec![Entry::ChipErase]).unwrap();
    without.map(|list| list.len()).min().unwrap() as i64 - with.len() as i64
}

/// Numbers that are the same, and one apart either way, are met often enough for a wrong choice to be seen.
#[test]
fn generated_ties_are_ties() {
    let mut random = Random::seeded(44);
    let mut seen = [0; 3];
    for number in 0..200 {
        let gained = gained_by_chip_erase(&plans::ties(&mut random, number));
        if (-1..=1).contains(&gained) {
            seen[(gained + 1) as usize] += 1;
        }
    }
    assert!(seen.iter().all(|&count| count > 10), "{:?}", seen);
}

fn listed(present: &[u8], wanted: &[u8], status: &str) -> String {
    let status = Some(status.as_bytes().to_vec());
    plan_listing(&PlanFiles { present: Some(present.to_vec()), wanted: Some(wanted.to_vec()), status })
}

#[test]
fn listings_of_plans() {
    let erased = vec![0xff; CHIP];
    let mut one = erased.clone();
    one[0x1_ffff] = 0x0a;
    let page = format!("{}0a", "ff".repeat(255));
    assert_eq!(listed(&erased, &erased, "8c\n"), "cycles\t0\n");
    assert_eq!(listed(&erased, &one, "00\n"), format!("program\t01ff00\t{}\ncycles\t1\n", page));
    assert_eq!(listed(&one, &erased, "80\n"), "sector-erase\t018000\ncycles\t1\n");
    let zeros = vec![0x00; CHIP];
    assert_eq!(listed(&zeros, &one, "00\n"), format!("chip-erase\t000000\nprogram\t01ff00\t{}\ncycles\t2\n", page));
    assert_eq!(listed(&erased, &one, "04\n"), "refused\t15\n");
    assert_eq!(listed(&erased, &one, "05\n"), "refused\t14\n");
    assert_eq!(listed(&erased, &one, "00"), "refused\t14\n");
    assert_eq!(listed(&erased, &one[1..], "00\n"), "refused\t14\n");
    assert_eq!(plan_listing(&PlanFiles { present: None, wanted: None, status: None }), "refused\t14\n");
}
