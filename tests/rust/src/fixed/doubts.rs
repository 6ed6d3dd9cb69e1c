//! What each bit can be after cycles that ended and cycles that were cut (request 8/12), bit 7 first: `?` where it can be 0
//! and 1. A place that a case does not name can be what it could be before.

use super::script::{doubtful_page, everywhere, script, Changed, Script, Start};
use super::Fixed;

pub fn cases() -> Vec<Fixed> {
    let mut cases = Vec::new();
    cases.extend(programs_over_doubt());
    cases.extend(programs_over_ones());
    cases.extend(programs_of_what_is());
    cases.extend(sector_erases());
    cases.extend(chip_erases());
    cases.extend(page_writes());
    cases.extend(both_chips());
    cases.extend(stops());
    cases
}

fn can_be(place: usize, bits: &str) -> Changed {
    let with = |sign: char| bits.chars().fold(0, |byte, bit| byte << 1 | u8::from(bit == sign));
    assert!(bits.len() == 8 && bits.chars().all(|bit| "01?".contains(bit)), "no bits {:?}", bits);
    (place, with('1'), with('?'))
}

fn flash_can_be(script: Script, place: usize, bits: &str) -> Script {
    script.flash_is(&[can_be(place, bits)])
}

fn board(name: &str, start: Start, line: &str) -> Script {
    script(&format!("doubt: {}", name), start, line)
}

/// Every byte ????0101.
fn half(name: &str) -> Script {
    board(name, Start::Half, "board 00 1 0")
}

fn erased(name: &str) -> Script {
    board(name, Start::Erased, "board 00 1 0")
}

fn doubtful(name: &str) -> Script {
    board(name, Start::Doubtful, "board 00 1 0")
}

/// A cycle that starts: ten records with one byte of data.
fn program(script: Script, stamp: u32, sent: &str) -> Script {
    script.wren(stamp).frame(stamp + 1, &format!("02 {}", sent), "starts .")
}

fn erase(script: Script, stamp: u32, sent: &str) -> Script {
    script.wren(stamp).frame(stamp + 1, sent, "starts .")
}

fn cut(script: Script, stamp: u32) -> Script {
    script.add(&format!("{} L off | {} L on", stamp, stamp + 1))
}

/// 1100 1001 over ????0101, whole: every pair of a bit that is there with a bit of data.
fn whole_over_half(name: &str) -> Script {
    flash_can_be(program(half(name), 10, "00 00 10 c9").end(20), 0x10, "??000001").written("flash 0 20")
}

/// The same cut: a 0 makes a 1 open and leaves open what is.
fn cut_over_half(name: &str) -> Script {
    flash_can_be(cut(program(half(name), 10, "00 00 10 c9"), 20), 0x10, "????0?01").written("flash 0 20")
}

fn programs_over_doubt() -> Vec<Fixed> {
    vec![
        whole_over_half("a program's 0 makes a bit sure, its 1 leaves it").read(30, "00 00 0f", "05/f0 01/c0 05/f0").settled(0),
        cut_over_half("a cut program leaves a doubtful bit open, whatever the data")
            .read(30, "00 00 10", "01/f4 05/f0")
            .settled(0),
        flash_can_be(program(cut_over_half("cut, then whole"), 30, "00 00 10 c9").end(40), 0x10, "??000001")
            .written("flash 0 40")
            .settled(0),
        flash_can_be(cut(program(cut_over_half("cut, then cut in other bits"), 30, "00 00 10 3f"), 40), 0x10, "????0?01")
            .written("flash 0 40")
            .settled(0),
        flash_can_be(cut(program(whole_over_half("whole, then cut"), 30, "00 00 10 7e"), 40), 0x10, "??00000?")
            .read(50, "00 00 10", "00/c1")
            .written("flash 0 40")
            .settled(0),
        flash_can_be(program(doubtful("a program of 00 where all is in doubt"), 10, "00 00 10 00").end(20), 0x10, "00000000")
            .written("flash 0 20")
            .settled(0),
        flash_can_be(program(doubtful("a program of 5a where all is in doubt"), 10, "00 00 10 5a").end(20), 0x10, "0?0??0?0")
            .written("flash 0 20")
            .settled(0),
        flash_can_be(
            cut(program(doubtful("a cut program of 00 where all is in doubt"), 10, "00 00 10 00"), 20),
            0x10,
            "????????",
        )
        .written("flash 0 20")
        .settled(0),
    ]
}

/// 0f over ff, cut: the high half can be old or new.
fn cut_over_ones(name: &str) -> Script {
    flash_can_be(cut(program(erased(name), 10, "00 00 10 0f"), 20), 0x10, "????1111").written("flash 0 20")
}

fn programs_over_ones() -> Vec<Fixed> {
    vec![
        cut_over_ones("0f over ff, cut").read(30, "00 00 10", "0f/f0 ff/00").settled(0),
        flash_can_be(cut(program(cut_over_ones("and f0, cut"), 30, "00 00 10 f0"), 40), 0x10, "????????")
            .written("flash 0 40")
            .settled(0),
        flash_can_be(program(cut_over_ones("and 3c, whole"), 30, "00 00 10 3c").end(40), 0x10, "00??1100")
            .written("flash 0 40")
            .settled(0),
        flash_can_be(erase(cut_over_ones("and the sector erased"), 30, "52 00 00 00").end(40), 0x10, "11111111")
            .written("flash all 40")
            .settled(0),
        cut(program(erased("two bytes rolled in their page, cut"), 10, "00 00 ff 0f f0"), 20)
            .flash_is(&[can_be(0xff, "????1111"), can_be(0x00, "1111????")])
            .written("flash 0 20")
            .settled(0),
        cut_over_ones("what was recorded excludes nothing")
            .add("30 F sel | 30 F x 03 ff | 30 F x 00 ff | 30 F x 00 ff | 30 F x 10 ff | 30 F x 00 af > 0f/f0 = | 30 F des")
            .add("40 F sel | 40 F x 03 ff | 40 F x 00 ff | 40 F x 00 ff | 40 F x 10 ff | 40 F x 00 5f > 0f/f0 = | 40 F des")
            .settled(0),
    ]
}

/// Old and new are the same, so that a cut leaves nothing open.
fn programs_of_what_is() -> Vec<Fixed> {
    let counting = |name: &str, sent: &str| program(board(name, Start::Counting, "board 00 1 0"), 10, sent);
    vec![
        cut(counting("a cut program of 00 where 00 is", "00 00 00 00"), 20).written("flash 0 20").settled(0),
        cut(counting("a cut program of ff", "00 00 35 ff"), 20).written("flash 0 20").settled(0),
        cut(counting("a cut program of what is there", "00 00 35 35"), 20).written("flash 0 20").settled(0),
        // 0011 0101 under 1111 0000: the zeros stay.
        flash_can_be(cut(counting("a cut program over zeros and ones", "00 00 35 f0"), 20), 0x35, "00110?0?")
            .written("flash 0 20")
            .settled(0),
    ]
}

fn cut_erase(name: &str) -> Script {
    let counting = board(name, Start::Counting, "board 00 1 0");
    cut(erase(counting, 10, "52 00 12 34"), 20).flash_is(&everywhere(0x00, 0xff)).written("flash all 20")
}

fn sector_erases() -> Vec<Fixed> {
    let counting = |name: &str| board(name, Start::Counting, "board 00 1 0");
    vec![
        cut_erase("a cut erase").read(30, "00 7f ff", "00/ff ff").settled(0),
        flash_can_be(program(cut_erase("a cut erase, and a program of 0f"), 30, "00 00 10 0f").end(40), 0x10, "0000????")
            .written("flash all 20 | flash 0 40")
            .settled(0),
        cut(program(cut_erase("a cut erase, and a cut program of 0f"), 30, "00 00 10 0f"), 40)
            .written("flash all 20 | flash 0 40")
            .settled(0),
        erase(cut_erase("a cut erase, and a whole one"), 30, "52 00 00 00")
            .end(40)
            .flash_is(&everywhere(0xff, 0x00))
            .written("flash all 40")
            .settled(0),
        cut(erase(cut_erase("two cut erases"), 30, "52 00 00 00"), 40).written("flash all 40").settled(0),
        cut(erase(counting("a cut erase of another sector"), 10, "52 00 80 00"), 20).settled(0),
        cut(program(counting("a cut program in another sector"), 10, "00 80 35 00"), 20).settled(0),
    ]
}

fn chip_erases() -> Vec<Fixed> {
    let free = |name: &str| erase(board(name, Start::Half, "board 04 3 0"), 10, "62");
    let locked = |name: &str| erase(board(name, Start::Half, "board 04 4 0"), 10, "62");
    vec![
        free("a chip erase").end(20).flash_is(&everywhere(0xff, 0x00)).written("flash all 20").settled(0),
        cut(free("a cut chip erase"), 20).flash_is(&everywhere(0x00, 0xff)).written("flash all 20").settled(0),
        locked("a chip erase, the watched sector locked").end(20).read(30, "01 80 10", "05/f0").settled(0),
        cut(locked("a cut chip erase, the watched sector locked"), 20).read(30, "01 80 10", "05/f0").settled(0),
    ]
}

/// One byte for 0041, cut: all 64 bytes from 0040 on can be anything.
fn cut_page(name: &str) -> Script {
    cut(half(name).write(10, "a0 00 41 55", "starts ."), 20).eeprom_is(&doubtful_page(0x40)).written("eeprom 1 20")
}

fn page_writes() -> Vec<Fixed> {
    vec![
        half("a store makes every bit of the bytes sent sure")
            .write(10, "a0 00 41 55 c9", "starts .")
            .eeprom_end(20)
            .eeprom_is(&[can_be(0x41, "01010101"), can_be(0x42, "11001001")])
            .random_read(30, "00 40", "05/f0 55/00 c9/00 05/f0")
            .written("eeprom 1 20")
            .settled(0),
        cut_page("a cut page, bytes that were not sent too")
            .random_read(30, "00 3f", "05/f0 00/ff 00/ff 00/ff")
            .random_read(40, "00 7f", "00/ff 05/f0")
            .settled(0),
        cut_page("a cut page, rewritten in part")
            .write(30, "a0 00 7f 12 34", "starts .")
            .eeprom_end(40)
            .eeprom_is(&[can_be(0x7f, "00010010"), can_be(0x40, "00110100")])
            .random_read(50, "00 40", "34/00 00/ff")
            .written("eeprom 1 40")
            .settled(0),
        cut(cut_page("a page rewritten in part and cut again").write(30, "a0 00 7f 12", "starts .").eeprom_end(40), 50)
            .write(60, "a0 00 40 34", "starts .")
            .add("70 L off")
            .written("eeprom 1 70")
            .settled(0),
    ]
}

/// Both chips in a cycle: c9 over ????0101, and a byte for 0041.
fn both_started(name: &str) -> Script {
    program(half(name), 10, "00 00 10 c9").write(12, "a0 00 41 55", "starts .")
}

fn both_chips() -> Vec<Fixed> {
    let cut_both = |script: Script| flash_can_be(script, 0x10, "????0?01").eeprom_is(&doubtful_page(0x40));
    vec![
        cut_both(cut(both_started("one off cuts both"), 20)).written("flash 0 20 | eeprom 1 20").settled(0),
        cut_both(both_started("an off among other records of its stamp").add("20 F sel | 20 L off | 20 E sta"))
            .add("30 F des | 30 L on | 30 E sto")
            .read(40, "00 00 10", "01/f4")
            .written("flash 0 20 | eeprom 1 20")
            .settled(0),
        flash_can_be(
            both_started("both ends at one stamp").add("20 F end > ends . | 20 L lock | 20 E end > ends ."),
            0x10,
            "??000001",
        )
        .eeprom_is(&[can_be(0x41, "01010101")])
        .written("flash 0 20 | eeprom 1 20")
        .settled(0),
    ]
}

/// Doubt as it was before the stamp of the stop.
fn stops() -> Vec<Fixed> {
    vec![
        program(cut_over_half("end and off after a cut"), 30, "00 00 10 00").add("40 F end | 40 L off").stops(7, 40, 0, 22),
        cut_page("a crowded stamp after a cut page").add("30 L on | 30 L off | 30 L on").stops(6, 30, 0, 8),
        cut_over_half("a lost status after a cut")
            .wren(30)
            .frame(31, "01 00", "starts .")
            .add("40 L off | 50 L on")
            .stops(8, 40, 0, 19),
        both_started("end and off in the first cycles").add("20 E end | 20 L off").stops(7, 20, 0, 16),
    ]
}
