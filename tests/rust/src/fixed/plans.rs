//! Plans with their whole outcome written by hand (request 6/12), from the rules and not from the model.

use crate::generate::random::Random;
use crate::model::plan::PlanCall;

const CHIP: usize = 131_072;
const SECTOR: usize = 32_768;
const PAGE: usize = 256;

/// A plan's call, what it must answer, and the entries that it must list.
pub struct FixedPlan {
    pub name: String,
    pub call: PlanCall,
    pub answer: u32,
    /// Whether the length of the list is what the case is about.
    pub has_own_list: bool,
    due: Vec<Due>,
}

/// An entry by its address.
#[derive(Clone, Copy)]
enum Due {
    Sector(usize),
    Chip,
    /// A program of the whole wanted page.
    Page(usize),
}

use Due::{Chip, Page, Sector};

impl FixedPlan {
    /// All buffers as they must be afterwards.
    pub fn after(&self) -> PlanCall {
        let mut after = self.call.clone();
        let bytes = list_of(&self.due, &self.call.wanted);
        after.list[..bytes.len()].copy_from_slice(&bytes);
        if after.result.len() == 8 {
            after.result = vec![self.answer as u8, 0, 0, 0, self.due.len() as u8, (self.due.len() >> 8) as u8, 0, 0];
        }
        after
    }

    /// The same with a list of another length.
    fn lent(mut self, length: usize) -> FixedPlan {
        self.name += &format!(", list of {} bytes", length);
        self.call.list = before(length);
        self.has_own_list = true;
        self
    }
}

fn list_of(due: &[Due], wanted: &[u8]) -> Vec<u8> {
    let mut list = Vec::new();
    for entry in due {
        let (kind, address) = match *entry {
            Sector(address) => (1, address),
            Chip => (2, 0),
            Page(address) => (3, address),
        };
        list.extend([kind, (address / 0x1_0000) as u8, (address / 0x100 % 0x100) as u8, (address % 0x100) as u8]);
        if kind == 3 {
            list.extend(&wanted[address..address + PAGE]);
        }
    }
    list
}

/// What a list holds before the call.
fn before(length: usize) -> Vec<u8> {
    Random::seeded(length as u64).bytes(length)
}

/// What is lent behind the plan by default.
const SPARE: usize = 300;

fn call(present: Vec<u8>, wanted: Vec<u8>, status: u8, list: usize) -> PlanCall {
    PlanCall { present, wanted, status, list: before(list), result: vec![0xa5; 8] }
}

fn planned(name: &str, present: Vec<u8>, wanted: Vec<u8>, status: u8, due: &[Due]) -> FixedPlan {
    let length = list_of(due, &wanted).len() + SPARE;
    let name = format!("{} (status {:02x})", name, status);
    FixedPlan { name, call: call(present, wanted, status, length), answer: 0, has_own_list: false, due: due.to_vec() }
}

fn refused(name: &str, call: PlanCall, answer: u32) -> FixedPlan {
    FixedPlan { name: String::from(name), call, answer, has_own_list: false, due: Vec::new() }
}

/// A content of one value.
fn full(value: u8) -> Vec<u8> {
    vec![value; CHIP]
}

/// Place p holds p modulo 251: no page is erased.
fn counting() -> Vec<u8> {
    (0..CHIP).map(|place| (place % 251) as u8).collect()
}

fn with(mut content: Vec<u8>, changed: &[(usize, u8)]) -> Vec<u8> {
    changed.iter().for_each(|&(place, value)| content[place] = value);
    content
}

/// A sector, counted from 1, with one value.
fn sector_with(mut content: Vec<u8>, sector: usize, value: u8) -> Vec<u8> {
    content[(sector - 1) * SECTOR..sector * SECTOR].fill(value);
    content
}

fn pages(first: usize, count: usize) -> Vec<Due> {
    (0..count).map(|page| Page(first + page * PAGE)).collect()
}

/// The sectors' first addresses.
const S1: usize = 0x00000;
const S2: usize = 0x08000;
const S3: usize = 0x10000;
const S4: usize = 0x18000;

pub fn all() -> Vec<FixedPlan> {
    let mut cases = Vec::new();
    cases.extend(equal_contents());
    cases.extend(falls());
    cases.extend(rises_to_erased());
    cases.extend(rises_in_full());
    cases.extend(rises_among_pages());
    cases.extend(chip_or_sectors());
    cases.extend(two_sectors_and_a_page());
    cases.extend(three_sectors_and_pages());
    cases.extend(locked_plans());
    cases.extend(locked_differences());
    cases.extend(wrong_lengths());
    cases.extend(wrong_status());
    cases.extend(several_grounds());
    cases.extend(list_lengths());
    cases
}

const STATUSES: [u8; 8] = [0x00, 0x04, 0x08, 0x0c, 0x80, 0x84, 0x88, 0x8c];

fn equal_contents() -> Vec<FixedPlan> {
    let equal = |status: u8| planned("equal contents", counting(), counting(), status, &[]);
    let mut cases: Vec<FixedPlan> = STATUSES.into_iter().map(equal).collect();
    cases.extend(STATUSES.into_iter().map(|status| equal(status).lent(0)));
    cases.push(planned("both erased", full(0xff), full(0xff), 0x00, &[]));
    cases.push(planned("both 00", full(0x00), full(0x00), 0x0c, &[]));
    cases
}

/// Bits that only fall: programs alone.
fn falls() -> Vec<FixedPlan> {
    let places =
        [0x00000, 0x00001, 0x000ff, 0x00100, 0x07fff, 0x08000, 0x0ffff, 0x10000, 0x12345, 0x17fff, 0x18000, 0x1fe00, 0x1ffff];
    let falls_at = |place: usize| {
        let changed = with(counting(), &[(place, 0x55)]);
        planned(
            &format!("one bit falls at {:05x}", place),
            changed.clone(),
            with(changed, &[(place, 0x51)]),
            0x00,
            &[Page(place / PAGE * PAGE)],
        )
    };
    let mut cases: Vec<FixedPlan> = places.into_iter().map(falls_at).collect();
    let fall = |name: &str, changed: &[(usize, u8)], due: &[Due]| planned(name, full(0xff), with(full(0xff), changed), 0x00, due);
    cases.extend([
        fall("a page falls in its first and last byte", &[(0x0300, 0x00), (0x03ff, 0xfe)], &[Page(0x0300)]),
        fall("both sides of a page's border fall", &[(0x03ff, 0x7f), (0x0400, 0xfe)], &[Page(0x0300), Page(0x0400)]),
        fall("both sides of a sector's border fall", &[(0x0ffff, 0x7f), (0x10000, 0xfe)], &[Page(0x0ff00), Page(0x10000)]),
        fall(
            "a byte falls in each sector",
            &[(0x1ff00, 0x00), (0x10080, 0x00), (0x0ff80, 0x00), (0x00000, 0x00)],
            &[Page(0x00000), Page(0x0ff00), Page(0x10000), Page(0x1ff00)],
        ),
    ]);
    cases.push(planned("an erased chip is filled", full(0xff), counting(), 0x00, &pages(0, 512)));
    cases.push(planned("everything falls to 00", counting(), full(0x00), 0x80, &pages(0, 512)));
    let last = sector_with(full(0x0f), 4, 0x1f);
    cases.push(planned("the last sector falls", last, full(0x0f), 0x00, &pages(S4, 128)));
    cases
}

/// A bit that rises in a chip that is then erased: its sector alone.
fn rises_to_erased() -> Vec<FixedPlan> {
    let rise = |(place, first): (usize, usize)| {
        let name = format!("one bit rises to an erased sector at {:05x}", place);
        planned(&name, with(full(0xff), &[(place, 0xfe)]), full(0xff), 0x00, &[Sector(first)])
    };
    let borders =
        [(0x00000, S1), (0x07fff, S1), (0x08000, S2), (0x0ffff, S2), (0x10000, S3), (0x17fff, S3), (0x18000, S4), (0x1ffff, S4)];
    borders.into_iter().map(rise).collect()
}

/// A bit that rises in a full sector: it is erased, and each of its pages programmed again.
fn rises_in_full() -> Vec<FixedPlan> {
    let again = |first: usize| [vec![Sector(first)], pages(first, 128)].concat();
    let low = with(counting(), &[(0x08123, 0x00), (0x1ffff, 0x00)]);
    let falls = with(sector_with(full(0xff), 3, 0x7e), &[(0x17fff, 0x00)]);
    let fallen = with(sector_with(full(0xff), 3, 0x3c), &[(0x17fff, 0x80)]);
    vec![
        planned("one bit rises in a full sector", low.clone(), with(low.clone(), &[(0x08123, 0x01)]), 0x00, &again(S2)),
        planned("the chip's last bit rises", low.clone(), with(low, &[(0x1ffff, 0x01)]), 0x00, &again(S4)),
        planned("many pages fall and the sector's last byte rises", falls, fallen, 0x00, &again(S3)),
    ]
}

/// A bit that rises among a few full pages: only they are programmed again.
fn rises_among_pages() -> Vec<FixedPlan> {
    let two: &[(usize, u8)] = &[(0x00000, 0x12), (0x07fff, 0x34)];
    let case = |name: &str, present: &[(usize, u8)], wanted: &[(usize, u8)], due: &[Due]| {
        planned(name, with(full(0xff), present), with(full(0xff), wanted), 0x00, due)
    };
    let first = [Sector(S1), Page(0x00000), Page(0x07f00)];
    vec![
        case("an erased page is not programmed again", &[two, &[(0x04000, 0x00)]].concat(), two, &first),
        case("a bit rises where others of its byte fall", &[(0x08800, 0xf0)], &[(0x08800, 0x0f)], &[Sector(S2), Page(0x08800)]),
        case(
            "a page differs only where ff is wanted",
            &[(0x08800, 0x12), (0x08801, 0x00)],
            &[(0x08800, 0x12)],
            &[Sector(S2), Page(0x08800)],
        ),
        case(
            "two pages differ only where ff is wanted",
            &[(0x08800, 0x12), (0x08801, 0x00), (0x18000, 0x34), (0x180ff, 0x00)],
            &[(0x08800, 0x12), (0x18000, 0x34)],
            &[Chip, Page(0x08800), Page(0x18000)],
        ),
        case("a page falls and rises", &[(0x08800, 0xf0)], &[(0x08801, 0x0f)], &[Sector(S2), Page(0x08800)]),
        case(
            "one sector rises, another falls",
            &[two, &[(0x04000, 0x00)]].concat(),
            &[two, &[(0x1fe00, 0x00)]].concat(),
            &[&first[..], &[Page(0x1fe00)]].concat(),
        ),
    ]
}

/// Nothing but one bit of each sector differs.
pub fn longest() -> FixedPlan {
    let filled = with(counting(), &[(S1, 0x01), (S2, 0x80), (S3, 0x10), (S4, 0x08)]);
    let emptied = with(filled.clone(), &[(S1, 0x00), (S2, 0x00), (S3, 0x00), (S4, 0x00)]);
    planned("the longest plan: all four rise, all filled", emptied, filled, 0x00, &[vec![Chip], pages(0, 512)].concat())
}

fn chip_or_sectors() -> Vec<FixedPlan> {
    let low = |sectors: &[usize]| sectors.iter().fold(full(0xff), |content, &sector| sector_with(content, sector, 0x00));
    vec![
        planned("a chip of 00 is erased", full(0x00), full(0xff), 0x00, &[Chip]),
        planned("the same with WPEN", full(0x00), full(0xff), 0x80, &[Chip]),
        planned("sector 1 alone to be erased: a tie", low(&[1]), full(0xff), 0x00, &[Sector(S1)]),
        planned("sector 2 alone to be erased: a tie", low(&[2]), full(0xff), 0x00, &[Sector(S2)]),
        planned("sector 3 alone to be erased: a tie", low(&[3]), full(0xff), 0x00, &[Sector(S3)]),
        planned("sector 4 alone to be erased: a tie", low(&[4]), full(0xff), 0x00, &[Sector(S4)]),
        planned("sectors 1 and 2 to be erased", low(&[1, 2]), full(0xff), 0x00, &[Chip]),
        planned("sectors 2 and 4 to be erased", low(&[2, 4]), full(0xff), 0x00, &[Chip]),
        planned("three sectors to be erased", low(&[1, 3, 4]), full(0xff), 0x00, &[Chip]),
        longest(),
        planned("00 to a full chip", full(0x00), full(0x55), 0x00, &[vec![Chip], pages(0, 512)].concat()),
        planned(
            "two rise, two are full as wanted",
            low(&[1, 2, 3, 4]),
            sector_with(low(&[1, 2]), 4, 0xff),
            0x00,
            &[Sector(S3), Sector(S4)],
        ),
    ]
}

/// Sectors 1 and 3 rise to ff; what stands in sectors 2 and 4 decides.
fn two_sectors_and_a_page() -> Vec<FixedPlan> {
    let case = |name: &str, status: u8, present: &[(usize, u8)], wanted: &[(usize, u8)], due: &[Due]| {
        let low = with(full(0xff), &[(0x00000, 0x7f), (0x17fff, 0xfe)]);
        planned(&format!("two sectors rise, {}", name), with(low, present), with(full(0xff), wanted), status, due)
    };
    let one: &[(usize, u8)] = &[(0x0ff00, 0x77)];
    let last: &[(usize, u8)] = &[(0x1ffff, 0x77)];
    vec![
        case("the others are erased", 0x00, &[], &[], &[Chip]),
        case("one page is full as wanted: a tie", 0x00, one, one, &[Sector(S1), Sector(S3)]),
        case("the last page is full as wanted: a tie", 0x00, last, last, &[Sector(S1), Sector(S3)]),
        case("two pages are full as wanted", 0x00, &[one, last].concat(), &[one, last].concat(), &[Sector(S1), Sector(S3)]),
        case("one page falls", 0x00, &[], one, &[Chip, Page(0x0ff00)]),
        case("one page falls further", 0x00, one, &[(0x0ff00, 0x71)], &[Chip, Page(0x0ff00)]),
        case(
            "one falls and one is as wanted: a tie",
            0x00,
            last,
            &[one, last].concat(),
            &[Sector(S1), Sector(S3), Page(0x0ff00)],
        ),
        case("a locked page is full as wanted", 0x04, last, last, &[Chip]),
        case(
            "a locked page is full and one is as wanted: a tie",
            0x84,
            &[one, last].concat(),
            &[one, last].concat(),
            &[Sector(S1), Sector(S3)],
        ),
        case(
            "and full pages in them count for both",
            0x00,
            &[(0x00100, 0x01), (0x10000, 0x02)],
            &[(0x00100, 0x01), (0x10000, 0x02)],
            &[Chip, Page(0x00100), Page(0x10000)],
        ),
    ]
}

/// Sectors 2, 3 and 4 rise, and sector 1 has so many pages that are full as wanted.
fn three_sectors_and_pages() -> Vec<FixedPlan> {
    let case = |name: &str, count: usize, due: Vec<Due>| {
        let kept: Vec<(usize, u8)> = (0..count).map(|page| (0x7fff - page * PAGE, 0x3f)).collect();
        let low = with(full(0xff), &[(0x08000, 0x00), (0x14444, 0x00), (0x1ffff, 0x00)]);
        planned(name, with(low, &kept), with(with(full(0xff), &kept), &[(0x18888, 0x0f)]), 0x00, &due)
    };
    let sectors = vec![Sector(S2), Sector(S3), Sector(S4), Page(0x18800)];
    vec![
        case("three rise, none is kept: two fewer", 0, vec![Chip, Page(0x18800)]),
        case("three rise, one page is kept: one fewer", 1, vec![Chip, Page(0x07f00), Page(0x18800)]),
        case("three rise, two pages are kept: a tie", 2, sectors.clone()),
        case("three rise, three pages are kept", 3, sectors.clone()),
        case("three rise, all pages are kept", 128, sectors),
    ]
}

/// A chip erase leaves what is locked, and counts no page there.
fn locked_plans() -> Vec<FixedPlan> {
    let kept = |sectors: &[usize]| sectors.iter().fold(full(0xff), |content, &sector| sector_with(content, sector, 0x00));
    vec![
        planned("three unlocked sectors to be erased", full(0x00), kept(&[4]), 0x04, &[Chip]),
        planned("two unlocked sectors to be erased", full(0x00), kept(&[3, 4]), 0x08, &[Chip]),
        planned("two unlocked sectors to be erased", full(0x00), kept(&[3, 4]), 0x88, &[Chip]),
        planned("one of two unlocked sectors to be erased", full(0x00), kept(&[2, 3, 4]), 0x08, &[Sector(S1)]),
        planned("the last unlocked sector to be erased", full(0x00), kept(&[1, 2, 4]), 0x04, &[Sector(S3)]),
        planned(
            "two unlocked sectors filled",
            full(0x00),
            sector_with(sector_with(full(0x00), 1, 0xf0), 2, 0x0f),
            0x08,
            &[vec![Chip], pages(S1, 256)].concat(),
        ),
        planned(
            "the byte before the locked sector 4 falls",
            full(0xff),
            with(full(0xff), &[(0x17fff, 0x00)]),
            0x04,
            &[Page(0x17f00)],
        ),
        planned(
            "the byte before the locked sectors 3 and 4 falls",
            full(0xff),
            with(full(0xff), &[(0x0ffff, 0x00)]),
            0x08,
            &[Page(0x0ff00)],
        ),
        planned(
            "the sector before the locked one to be erased",
            full(0x00),
            sector_with(full(0x00), 3, 0xff),
            0x84,
            &[Sector(S3)],
        ),
    ]
}

/// Refusal 15.
fn locked_differences() -> Vec<FixedPlan> {
    let differs = |status: u8, changed: &[(usize, u8)]| {
        let places: Vec<String> = changed.iter().map(|(place, _)| format!("{:05x}", place)).collect();
        let name = format!("differs at {} with status {:02x}", places.join(" and "), status);
        refused(&name, call(full(0xff), with(full(0xff), changed), status, 1000), 15)
    };
    let mut cases: Vec<FixedPlan> = vec![
        differs(0x04, &[(0x18000, 0xfe)]),
        differs(0x04, &[(0x1ffff, 0x7f)]),
        differs(0x84, &[(0x1abcd, 0x00)]),
        differs(0x08, &[(0x10000, 0xfe)]),
        differs(0x08, &[(0x1ffff, 0xfe)]),
        differs(0x88, &[(0x17fff, 0xfe)]),
        differs(0x0c, &[(0x00000, 0xfe)]),
        differs(0x0c, &[(0x0ffff, 0xfe)]),
        differs(0x8c, &[(0x1ffff, 0xfe)]),
        differs(0x04, &[(0x1ffff, 0xfe), (0x00000, 0x00), (0x08000, 0x00)]),
        differs(0x08, &[(0x10000, 0xfe), (0x0ffff, 0x00)]),
    ];
    cases.push(refused("a locked bit to rise", call(with(full(0xff), &[(0x18000, 0xfe)]), full(0xff), 0x04, 1000), 15));
    cases.push(refused("all locked and all differs", call(full(0x00), full(0xff), 0x0c, 1000), 15));
    cases.push(refused("all locked and one bit differs", call(counting(), with(counting(), &[(1, 0x00)]), 0x8c, 1000), 15));
    cases
}

/// Refusal 14. A program of one page would be the plan.
fn wrong_lengths() -> Vec<FixedPlan> {
    let good = || call(full(0xff), with(full(0xff), &[(0x00000, 0x00)]), 0x00, 1000);
    let mut cases = Vec::new();
    for length in [0, 1, 8, 256, 32_768, CHIP - 1, CHIP + 1, 2 * CHIP] {
        let mut one = good();
        one.present.resize(length, 0xff);
        let mut other = good();
        other.wanted.resize(length, 0xff);
        let mut both = good();
        both.present.resize(length, 0xff);
        both.wanted.resize(length, 0xff);
        cases.push(refused(&format!("present content of {} bytes", length), one, 14));
        cases.push(refused(&format!("wanted content of {} bytes", length), other, 14));
        cases.push(refused(&format!("both contents of {} bytes", length), both, 14));
    }
    for length in [0, 1, 4, 7, 9, 12, 16, 1000] {
        let mut call = good();
        call.result = vec![0xa5; length];
        cases.push(refused(&format!("result of {} bytes", length), call, 14));
    }
    cases
}

fn wrong_status() -> Vec<FixedPlan> {
    let with_status = |status: u8| {
        refused(&format!("equal contents with status {:02x}", status), call(counting(), counting(), status, 1000), 14)
    };
    [0x01, 0x02, 0x10, 0x20, 0x40, 0x8d, 0x0e, 0x1c, 0x2c, 0x4c, 0x73, 0xff].into_iter().map(with_status).collect()
}

/// 14 comes before 15, and 15 before 16.
fn several_grounds() -> Vec<FixedPlan> {
    let locked = |status: u8, list: usize| call(full(0xff), with(full(0xff), &[(0x1ffff, 0x00)]), status, list);
    let mut shorter = locked(0x04, 1000);
    shorter.present.pop();
    let mut longer = locked(0x04, 0);
    longer.wanted.push(0x00);
    let mut seven = locked(0x04, 0);
    seven.result.pop();
    let mut nine = locked(0x06, 259);
    nine.result.push(0xa5);
    let nothing = PlanCall { present: Vec::new(), wanted: Vec::new(), status: 0x00, list: Vec::new(), result: Vec::new() };
    let mut only_result = nothing.clone();
    only_result.result = vec![0xa5; 8];
    vec![
        refused("a wrong length and a locked difference", shorter, 14),
        refused("a wrong length, a locked difference and no room", longer, 14),
        refused("a wrong result, a locked difference and no room", seven, 14),
        refused("a wrong result and status, a locked difference and no room", nine, 14),
        refused("a wrong status and a locked difference", locked(0x0d, 1000), 14),
        refused("a wrong status and no room", locked(0x01, 0), 14),
        refused("a locked difference and no room", locked(0x04, 0), 15),
        refused("a locked difference and room for it but a byte", locked(0x8c, 259), 15),
        refused("nothing but a status", nothing, 14),
        refused("nothing but a status and a result", only_result, 14),
    ]
}

/// Refusal 16, exactly where the list is too short for the plan.
fn list_lengths() -> Vec<FixedPlan> {
    let program = || planned("a program", full(0xff), with(full(0xff), &[(0x12345, 0x00)]), 0x00, &[Page(0x12300)]);
    let erase = || planned("an erase", with(full(0xff), &[(0x12345, 0x00)]), full(0xff), 0x00, &[Sector(S3)]);
    let both = || {
        planned(
            "both",
            with(full(0xff), &[(0x12345, 0x00)]),
            with(full(0xff), &[(0x12345, 0x80)]),
            0x00,
            &[Sector(S3), Page(0x12300)],
        )
    };
    let longest = || planned("the longest", full(0x00), full(0x80), 0x00, &[vec![Chip], pages(0, 512)].concat());
    let short = |case: FixedPlan, length: usize| {
        let case = case.lent(length);
        FixedPlan { answer: 16, due: Vec::new(), ..case }
    };
    let mut cases: Vec<FixedPlan> = [0, 1, 4, 256, 259].iter().map(|&length| short(program(), length)).collect();
    cases.extend([260, 261, 519, 520, 200_000].iter().map(|&length| program().lent(length)));
    cases.extend([0, 1, 3].iter().map(|&length| short(erase(), length)));
    cases.extend([4, 5, 8, 260].iter().map(|&length| erase().lent(length)));
    cases.extend([0, 4, 260, 263].iter().map(|&length| short(both(), length)));
    cases.extend([264, 265].iter().map(|&length| both().lent(length)));
    cases.extend([0, 4, 132_864, 133_120, 133_123].iter().map(|&length| short(longest(), length)));
    cases.extend([133_124, 133_125].iter().map(|&length| longest().lent(length)));
    cases
}

/// One bit of sector 1 falls, under every status.
pub fn every_status() -> impl Iterator<Item = FixedPlan> {
    (0..=0xff).map(|status| {
        let name = format!("every status: {:02x}", status);
        let due = match status {
            0x00 | 0x04 | 0x08 | 0x80 | 0x84 | 0x88 => 0,
            0x0c | 0x8c => 15,
            _ => 14,
        };
        let (present, wanted) = (full(0xff), with(full(0xff), &[(0x00000, 0xfe)]));
        match due {
            0 => planned(&name, present, wanted, status, &[Page(0x00000)]),
            _ => refused(&name, call(present, wanted, status, 1000), due),
        }
    })
}
