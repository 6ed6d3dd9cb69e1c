//! Calls for a plan (request 6/12): contents that are alike in most places, contents at which erasing the chip and erasing
//! sectors come to the same number or nearly, locks, lists of any length, and what is to be refused.

use super::random::Random;
use crate::model::plan::{list_bytes, locks_of, PlanCall, CHIP, FLASH, PLAN_RESULT};

/// Makes the call number `number` of its kind.
pub type Kind = fn(&mut Random, usize) -> PlanCall;

const SECTOR: usize = 32_768;
const PAGE: usize = 256;
const STATUSES: [u8; 8] = [0x00, 0x04, 0x08, 0x0c, 0x80, 0x84, 0x88, 0x8c];

/// Some bytes changed: bits that fall, that rise, or both.
pub fn changed_bytes(random: &mut Random, number: usize) -> PlanCall {
    let present = content(random);
    let mut wanted = present.clone();
    let how = random.pick(&[Change::Fall, Change::Fall, Change::Rise, Change::Any]);
    for _ in 0..random.pick(&[1, 1, 2, 5, 40]) {
        let place = place(random, 0, CHIP);
        change(random, &mut wanted[place], how);
    }
    finished(random, number, present, wanted)
}

/// Some pages erased, filled or changed in one of the two.
pub fn changed_pages(random: &mut Random, number: usize) -> PlanCall {
    let mut present = content(random);
    let mut wanted = present.clone();
    for _ in 0..random.pick(&[1, 3, 10, 100]) {
        let one = if random.percent(50) { &mut present } else { &mut wanted };
        change_page(random, one);
    }
    finished(random, number, present, wanted)
}

/// Sectors that rise, and elsewhere so many pages kept that the numbers are the same, or one or two apart.
pub fn ties(random: &mut Random, number: usize) -> PlanCall {
    let status = random.pick(&[0x00, 0x00, 0x80, 0x04, 0x84, 0x08]);
    let unlocked = locks_of(status).iter().filter(|&&locked| !locked).count();
    let (mut present, mut wanted) = (vec![0xff; CHIP], vec![0xff; CHIP]);
    // With three that rise a page is kept although the chip is erased.
    let rising = if random.percent(30) { unlocked.min(3) } else { random.between(1, unlocked) };
    let sectors = shuffled(random, unlocked);
    for &sector in &sectors[..rising] {
        part_filled(random, sector, &mut present, &mut wanted);
        let place = place(random, sector * SECTOR, SECTOR);
        present[place] = 0x00;
        wanted[place] = random.pick(&[0x01, 0x80, 0xff]);
    }
    if rising < unlocked {
        let kept = (rising - 1 + random.below(4)).saturating_sub(1);
        let quiet = &sectors[rising..];
        keep_pages(random, quiet, kept, &mut present, &mut wanted);
    }
    if unlocked < FLASH.sectors {
        let locked = random.bytes(PAGE);
        present[CHIP - PAGE..].copy_from_slice(&locked);
        wanted[CHIP - PAGE..].copy_from_slice(&locked);
    }
    with_list(random, number, present, wanted, status)
}

/// Every byte at random, in the whole chip or in some sectors.
pub fn whole(random: &mut Random, number: usize) -> PlanCall {
    let present = content(random);
    let mut wanted = present.clone();
    for sector in 0..FLASH.sectors {
        if random.percent(60) {
            let bytes = content(random);
            wanted[sector * SECTOR..(sector + 1) * SECTOR].copy_from_slice(&bytes[..SECTOR]);
        }
    }
    finished(random, number, present, wanted)
}

/// A difference beside the border of what is locked, on either side.
pub fn at_locks(random: &mut Random, number: usize) -> PlanCall {
    let status = STATUSES[number % STATUSES.len()];
    let unlocked = locks_of(status).iter().filter(|&&locked| !locked).count();
    let border = unlocked * SECTOR;
    let near = [border.saturating_sub(1), border, border.saturating_sub(PAGE), border + PAGE, 0, CHIP - 1];
    let present = content(random);
    let mut wanted = present.clone();
    for _ in 0..random.between(1, 2) {
        let place = random.pick(&near).min(CHIP - 1);
        change(random, &mut wanted[place], Change::Any);
    }
    with_list(random, number, present, wanted, status)
}

/// One ground or more for refusal 14, often beside others.
pub fn spoilt(random: &mut Random, number: usize) -> PlanCall {
    let mut call = if random.percent(50) { changed_bytes(random, number) } else { at_locks(random, number) };
    for _ in 0..random.between(1, 2) {
        match random.below(5) {
            0 => resize(random, &mut call.present),
            1 => resize(random, &mut call.wanted),
            2 | 3 => resize(random, &mut call.result),
            _ => call.status = random.byte() | random.pick(&[0x01, 0x02, 0x10, 0x20, 0x40]),
        }
    }
    call
}

/// Plans of few entries, whose trace fits a text.
pub fn few_entries(random: &mut Random, number: usize) -> PlanCall {
    let erased = sparse(random);
    let mut wanted = erased.clone();
    let how = random.pick(&[Change::Fall, Change::Rise, Change::Any]);
    for _ in 0..random.between(1, 3) {
        let place = place(random, 0, CHIP);
        change(random, &mut wanted[place], how);
    }
    let (present, wanted) = if number % 3 == 0 { (wanted, erased) } else { (erased, wanted) };
    let status = allowed_status(random, &present, &wanted);
    let mut call = with_list(random, number, present, wanted, status);
    let length = call.list.len().max(40 * 260);
    call.list = random.bytes(length);
    call
}

/// A chip with a few full pages, and now and then a sector of 00.
fn sparse(random: &mut Random) -> Vec<u8> {
    let mut content = vec![0xff; CHIP];
    for _ in 0..random.below(3) {
        let first = random.below(CHIP / PAGE) * PAGE;
        let bytes = random.bytes(PAGE);
        content[first..first + PAGE].copy_from_slice(&bytes);
    }
    if random.percent(30) {
        let sector = random.below(FLASH.sectors);
        content[sector * SECTOR..(sector + 1) * SECTOR].fill(0x00);
    }
    content
}

#[derive(Clone, Copy)]
enum Change {
    Fall,
    Rise,
    Any,
}

fn change(random: &mut Random, byte: &mut u8, how: Change) {
    let bit = 1 << random.below(8);
    match how {
        Change::Fall => *byte &= !bit,
        Change::Rise => *byte |= bit,
        Change::Any => *byte ^= bit,
    }
}

/// A place of a part, often at a page's border or at the part's own.
fn place(random: &mut Random, first: usize, length: usize) -> usize {
    let page = random.below(length / PAGE) * PAGE;
    first + random.pick(&[0, length - 1, page, page + PAGE - 1, page + 77, page + 128])
}

fn content(random: &mut Random) -> Vec<u8> {
    match random.below(6) {
        0 => vec![0xff; CHIP],
        1 => vec![0x00; CHIP],
        2 => random.bytes(CHIP),
        3 => (0..CHIP).map(|place| (place % 251) as u8).collect(),
        _ => partly_erased(random),
    }
}

/// Pages at random, some of them erased.
fn partly_erased(random: &mut Random) -> Vec<u8> {
    let erased = random.pick(&[20, 50, 90, 98]);
    let mut content = random.bytes(CHIP);
    content.chunks_mut(PAGE).filter(|_| random.percent(erased)).for_each(|page| page.fill(0xff));
    content
}

fn change_page(random: &mut Random, content: &mut [u8]) {
    let first = random.below(CHIP / PAGE) * PAGE;
    let page = &mut content[first..first + PAGE];
    match random.below(4) {
        0 => page.fill(0xff),
        1 => page.fill(0x00),
        2 => page.copy_from_slice(&random.bytes(PAGE)),
        _ => page.iter_mut().zip(random.bytes(PAGE)).for_each(|(byte, other)| *byte &= other),
    }
}

fn shuffled(random: &mut Random, count: usize) -> Vec<usize> {
    let mut numbers: Vec<usize> = (0..count).collect();
    for place in (1..count).rev() {
        numbers.swap(place, random.below(place + 1));
    }
    numbers
}

/// A few pages of a sector, equal or not; they count the same for either way to erase it.
fn part_filled(random: &mut Random, sector: usize, present: &mut [u8], wanted: &mut [u8]) {
    for _ in 0..random.below(3) {
        let first = sector * SECTOR + random.below(FLASH.pages) * PAGE;
        let bytes = random.bytes(PAGE);
        wanted[first..first + PAGE].copy_from_slice(&bytes);
        if random.percent(50) {
            present[first..first + PAGE].copy_from_slice(&bytes);
        }
    }
}

/// Full pages that are as wanted, and some that fall, in sectors where nothing rises.
fn keep_pages(random: &mut Random, sectors: &[usize], kept: usize, present: &mut [u8], wanted: &mut [u8]) {
    let falling = random.below(3);
    let pages = shuffled(random, FLASH.pages);
    for (number, page) in pages.into_iter().take(kept + falling).enumerate() {
        let first = random.pick(sectors) * SECTOR + page * PAGE;
        let place = first + random.pick(&[0, PAGE - 1]);
        wanted[place] = 0x70;
        present[place] = if number < kept { 0x70 } else { 0x71 };
    }
}

/// A status that mostly locks no difference.
fn allowed_status(random: &mut Random, present: &[u8], wanted: &[u8]) -> u8 {
    let mut choices = STATUSES.to_vec();
    choices.retain(|&status| !FLASH.differs_locked(present, wanted, &locks_of(status)));
    random.pick(&choices)
}

fn finished(random: &mut Random, number: usize, present: Vec<u8>, wanted: Vec<u8>) -> PlanCall {
    let status = if random.percent(10) { random.pick(&STATUSES) } else { allowed_status(random, &present, &wanted) };
    with_list(random, number, present, wanted, status)
}

/// A list as long as the plan, a byte shorter, or otherwise; what it holds before the call is anything.
fn with_list(random: &mut Random, number: usize, present: Vec<u8>, wanted: Vec<u8>, status: u8) -> PlanCall {
    let result = random.bytes(PLAN_RESULT);
    let mut call = PlanCall { present, wanted, status, list: Vec::new(), result };
    let due = call.entries().map_or(300, |entries| list_bytes(&entries).len());
    let length = match number % 6 {
        0 => due,
        1 => due.saturating_sub(1),
        2 => due + 1,
        3 => due + random.between(2, 600),
        4 => random.below(due + 1),
        _ => due + 260,
    };
    call.list = random.bytes(length);
    call
}

fn resize(random: &mut Random, buffer: &mut Vec<u8>) {
    let right = buffer.len();
    let length = random.pick(&[0, 1, right.saturating_sub(1), right + 1, right + 8, 7, 9, 4, 16, SECTOR]);
    buffer.resize(length, 0xff);
}
