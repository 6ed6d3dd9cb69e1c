//! The EEPROM by itself.

use super::script::{doubtful_page, script, Changed, Script, Start};
use super::Fixed;

pub fn cases() -> Vec<Fixed> {
    let mut cases = Vec::new();
    cases.extend(addresses());
    cases.extend(counters());
    cases.extend(reads());
    cases.extend(writes());
    cases.extend(polling());
    cases.extend(lock_and_supply());
    cases
}

fn eeprom(name: &str) -> Script {
    script(&format!("EEPROM: {}", name), Start::Counting, "board 00 1 0")
}

fn addresses() -> Vec<Fixed> {
    vec![
        eeprom("another address is silent and voids the frame")
            .add("10 E sta | 20 E b a2 1 | 30 E b 00 1 | 40 E b a0 1 | 50 E sto")
            .add("60 E sta | 70 E b b0 1 | 80 E sta | 90 E b 20 1 | 100 E sto")
            .settled(0),
        script("EEPROM: wired to address 5", Start::Counting, "board 00 1 5")
            .write(10, "aa 00 10", "- .")
            .add("20 E sta | 20 E b ab 0 > ack = | 20 E b 10 1 > 10/00 = | 20 E sto | 30 E sta | 30 E b a1 1 | 30 E sto")
            .settled(0),
        script("EEPROM: wired to address 7", Start::Counting, "board 00 1 7")
            .add("10 E sta | 10 E b ae 0 > ack = | 20 E sta | 20 E b af 0 > ack = | 30 E sta | 30 E b be 1 | 40 E sto")
            .settled(0),
        eeprom("the address byte's own bit does not void the frame")
            .random_read(10, "00 05", "05/00")
            .add("30 E sta | 30 E b a1 1 > ack ! | 30 E b 06 0 > 06/00 = | 30 E sto")
            .settled(1),
        eeprom("the top address bit is ignored")
            .random_read(10, "80 05", "05/00")
            .random_read(20, "ff ff", "89/00 00/00")
            .settled(0),
    ]
}

fn counters() -> Vec<Fixed> {
    vec![
        eeprom("a lost counter: acknowledged, then silent")
            .add("10 E sta | 10 E b a1 0 > ack = | 10 E b ff 0 | 10 E b ff 1 | 10 E b ff 0 | 10 E sto")
            .add("20 E sta | 20 E b a1 0 > ack = | 20 E b ff 0 | 20 E sto")
            .settled(0),
        eeprom("one address byte leaves the counter lost").write(10, "a0 00", "- .").current_read(20, "-").settled(0),
        eeprom("one address byte leaves the counter as it was")
            .random_read(10, "00 20", "20/00")
            .write(20, "a0 00", "- .")
            .current_read(30, "21/00")
            .settled(0),
        eeprom("two address bytes set the counter").write(10, "a0 01 02", "- .").current_read(20, "07/00 08/00").settled(0),
        eeprom("the counter rolls over in a written page")
            .write(10, "a0 00 7e 11 22", "starts .")
            .eeprom_end(20)
            .current_read(30, "40/00 41/00")
            .eeprom_is(&[(0x7e, 0x11, 0), (0x7f, 0x22, 0)])
            .written("eeprom 1 20")
            .settled(0),
        eeprom("the counter passes a page's end in a read")
            .random_read(10, "00 3f", "3f/00")
            .current_read(20, "40/00")
            .settled(0),
        eeprom("unsaved data is dropped, its count stays")
            .add("10 E sta | 10 E b a0 0 > ack = | 10 E b 00 0 > ack = | 10 E b 20 0 > ack = | 10 E b 55 0 > ack =")
            .current_read(20, "21/00")
            .random_read(30, "00 20", "20/00")
            .settled(0),
        eeprom("a byte that is not acknowledged moves the counter")
            .add("10 E sta | 10 E b a0 0 > ack = | 10 E b 00 0 > ack = | 10 E b 05 0 > ack = | 10 E sta | 10 E b a1 0 > ack =")
            .add("20 E b 05 1 > 05/00 = | 20 E sto")
            .current_read(30, "06/00")
            .settled(0),
    ]
}

fn reads() -> Vec<Fixed> {
    vec![
        eeprom("nothing after a byte that is not acknowledged")
            .write(10, "a0 00 05", "- .")
            .add("20 E sta | 20 E b a1 0 > ack = | 20 E b 05 0 > 05/00 = | 20 E b 06 1 > 06/00 = | 20 E b 07 0 | 20 E b 08 1 | 20 E sto")
            .current_read(30, "07/00")
            .settled(0),
        script("EEPROM: doubt is not compared", Start::Doubtful, "board 00 1 0").random_read(10, "00 00", "00/ff 00/ff").settled(0),
        script("EEPROM: sure bits are compared, doubtful ones are not", Start::Half, "board 00 1 0")
            .write(10, "a0 00 05", "- .")
            .add("20 E sta | 20 E b a1 0 > ack = | 20 E b f5 0 > 05/f0 = | 20 E b 04 0 > 05/f0 ! | 20 E b a5 1 > 05/f0 = | 20 E sto")
            .settled(1),
        eeprom("a wrong byte counts, and changes nothing")
            .write(10, "a0 00 05", "- .")
            .add("20 E sta | 20 E b a1 0 > ack = | 20 E b 04 0 > 05/00 ! | 20 E b 07 0 > 06/00 ! | 20 E sto")
            .random_read(30, "00 05", "05/00")
            .settled(2),
        eeprom("a read frame's sto starts nothing")
            .write(10, "a0 00 05", "- .")
            .add("20 E sta | 20 E b a1 0 > ack = | 20 E b 05 0 > 05/00 = | 20 E sto > - . | 30 E end > idle .")
            .settled(0),
    ]
}

fn writes() -> Vec<Fixed> {
    let sixty_four: Vec<String> = (0x80..0xc0).map(|byte| format!("{:02x}", byte)).collect();
    let mut rolled: Vec<Changed> = (0..64).map(|place| (0x40 + place, 0x80 + place as u8, 0)).collect();
    rolled[0] = (0x40, 0xee, 0);
    vec![
        eeprom("sixty-five bytes: the last replaces the first")
            .write(10, &format!("a0 00 40 {} ee", sixty_four.join(" ")), "starts .")
            .eeprom_end(50)
            .current_read(60, "81/00")
            .eeprom_is(&rolled)
            .written("eeprom 1 50").settled(0),
        script("EEPROM: a write makes sure", Start::Doubtful, "board 00 1 0")
            .write(10, "a0 7f c0 a5", "starts .")
            .eeprom_end(20)
            .random_read(30, "7f c0", "a5/00 00/ff")
            .eeprom_is(&[(0x7fc0, 0xa5, 0)])
            .written("eeprom 511 20").settled(0),
        eeprom("sto without data starts nothing").write(10, "a0 00 00", "- .").add("20 E end > idle .").settled(0),
        eeprom("a cut write starts nothing")
            .add("10 E sta | 10 E b a0 0 > ack = | 10 E b 00 0 > ack = | 10 E b 10 0 > ack = | 10 E b 55 0 > ack = | 10 E cut | 10 E sto > - .")
            .current_read(20, "11/00")
            .settled(0),
        eeprom("a cut and a fresh sta")
            .add("10 E sta | 10 E b a0 0 > ack = | 10 E cut")
            .write(20, "a0 00 10 55", "starts .")
            .eeprom_end(30)
            .eeprom_is(&[(0x10, 0x55, 0)])
            .written("eeprom 0 30").settled(0),
        eeprom("a wrong acknowledge counts, and the write goes on")
            .add("10 E sta | 10 E b a0 1 > ack ! | 10 E b 00 1 > ack ! | 10 E b 10 1 > ack ! | 10 E b 55 1 > ack ! | 10 E sto > starts .")
            .eeprom_end(20)
            .eeprom_is(&[(0x10, 0x55, 0)])
            .written("eeprom 0 20").settled(4),
        eeprom("two frames without sto between: only the second is written")
            .add("10 E sta | 10 E b a0 0 > ack = | 10 E b 00 0 > ack = | 10 E b 10 0 > ack = | 10 E b 55 0 > ack =")
            .write(20, "a0 00 11 66", "starts .")
            .eeprom_end(30)
            .eeprom_is(&[(0x11, 0x66, 0)])
            .written("eeprom 0 30").settled(0),
    ]
}

fn started(name: &str) -> Script {
    eeprom(name).write(10, "a0 00 10 55", "starts .")
}

const WRITTEN: [Changed; 1] = [(0x10, 0x55, 0x00)];

fn polling() -> Vec<Fixed> {
    vec![
        started("polling in a cycle and after it")
            .add(
                "20 E sta | 20 E b a0 1 > no = | 20 E b 00 1 | 20 E sto | 30 E sta | 30 E b a1 0 > no ! | 30 E b 11 0 | 30 E sto",
            )
            .eeprom_end(40)
            .add("50 E sta | 50 E b a1 0 > ack = | 50 E b 11 1 > 11/00 = | 50 E sto")
            .eeprom_is(&WRITTEN)
            .written("eeprom 0 40")
            .settled(1),
        started("one frame is refused once")
            .add("20 E sta | 20 E b a0 1 > no = | 20 E b a0 1 | 20 E b a1 1 | 20 E sto")
            .eeprom_end(30)
            .eeprom_is(&WRITTEN)
            .written("eeprom 0 30")
            .settled(0),
        started("a sta in the cycle gets no acknowledge after the end")
            .add("20 E sta | 30 E end > ends . | 40 E b a0 1 > no = | 50 E b 00 1 | 60 E sta | 70 E b a0 0 > ack = | 80 E sto")
            .eeprom_is(&WRITTEN)
            .written("eeprom 0 30")
            .settled(0),
        started("another address is silent in a cycle too")
            .add("20 E sta | 20 E b a2 1 | 20 E sto | 30 E sta | 40 E end > ends . | 50 E b a2 1 | 60 E sto")
            .eeprom_is(&WRITTEN)
            .written("eeprom 0 40")
            .settled(0),
        started("a second sta after the end is heard")
            .add("20 E sta | 30 E end > ends . | 40 E sta | 50 E b a1 0 > ack = | 60 E b 11 1 > 11/00 = | 70 E sto")
            .eeprom_is(&WRITTEN)
            .written("eeprom 0 30")
            .settled(0),
        started("a write tried in a cycle leaves the cycle alone")
            .add("20 E sta | 20 E b a0 1 > no = | 20 E b 00 1 | 20 E b 20 1 | 20 E b 77 1 | 20 E sto > - .")
            .eeprom_end(30)
            .eeprom_is(&WRITTEN)
            .written("eeprom 0 30")
            .settled(0),
    ]
}

fn lock_and_supply() -> Vec<Fixed> {
    vec![
        eeprom("the lock at sto keeps the bytes, not the acknowledge")
            .add("5 L lock")
            .write(10, "a0 00 10 aa bb", "- .")
            .current_read(20, "12/00")
            .add("30 E end > idle .")
            .settled(0),
        eeprom("a lock that is free again at sto")
            .add("5 L lock | 10 E sta | 10 E b a0 0 > ack = | 10 E b 00 0 > ack = | 10 E b 10 0 > ack = | 10 E b 55 0 > ack =")
            .add("20 L free | 30 E sto > starts . | 40 L lock")
            .eeprom_end(50)
            .eeprom_is(&WRITTEN)
            .written("eeprom 0 50")
            .settled(0),
        eeprom("the lock does not hinder a read").add("5 L lock").random_read(10, "00 05", "05/00").settled(0),
        started("off in a cycle: the whole page is doubtful")
            .add("20 L off | 30 E end > idle . | 40 L on | 50 E sta | 50 E b a0 0 > ack = | 60 E sto")
            .random_read(70, "00 0f", "00/ff 00/ff 00/ff")
            .eeprom_is(&doubtful_page(0))
            .written("eeprom 0 20")
            .settled(0),
        eeprom("off loses the counter")
            .random_read(10, "00 05", "05/00")
            .add("20 L off | 30 L on")
            .current_read(40, "- -")
            .settled(0),
        eeprom("off voids the frame")
            .add("10 E sta | 10 E b a0 0 > ack = | 10 E b 00 0 > ack = | 10 E b 10 0 > ack = | 10 E b 55 0 > ack =")
            .add("20 L off | 30 L on | 40 E b 66 0 | 50 E sto > - .")
            .settled(0),
        eeprom("a frame opened without supply stays void")
            .add("10 L off | 20 E sta | 30 L on | 40 E b a0 0 | 50 E sto")
            .settled(0),
        eeprom("the lock is heard while the supply is off")
            .add("10 L off | 20 L lock | 30 L on")
            .write(40, "a0 00 10 55", "- .")
            .settled(0),
    ]
}
