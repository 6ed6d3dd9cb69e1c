//! An EEPROM cycle that `off` cuts puts its whole page in doubt, sent or not (request 3/12). Every case is held to all bytes
//! of the image: a place that it does not name keeps its value and its mask.

use super::script::{doubtful_page, script, Changed, Script, Start};
use super::Fixed;

pub fn cases() -> Vec<Fixed> {
    let mut cases = Vec::new();
    cases.extend(places());
    cases.extend(rolling());
    cases.extend(more_cuts());
    cases.extend(rewritten());
    cases.extend(borders());
    cases.extend(no_cycle());
    cases.extend(lines());
    cases.extend(ties_that_settle());
    cases.extend(stops());
    cases
}

fn from(start: Start, name: &str) -> Script {
    script(&format!("cut page: {}", name), start, "board 00 1 0")
}

fn page(name: &str) -> Script {
    from(Start::Counting, name)
}

/// One byte for 0041, in the page from 0040 on; its cycle runs.
fn started(name: &str) -> Script {
    page(name).write(10, "a0 00 41 55", "starts .")
}

/// That cycle cut, and the supply on again.
fn cut(name: &str) -> Script {
    started(name).add("20 L off | 30 L on").eeprom_is(&doubtful_page(0x40)).written("eeprom 1 20")
}

/// `count` bytes from 80 on.
fn bytes(count: u8) -> String {
    let bytes: Vec<String> = (0x80..0x80 + count).map(|byte| format!("{:02x}", byte)).collect();
    bytes.join(" ")
}

/// One byte sent and its cycle cut; a read over each border of the page, which is in doubt from `first` on.
fn one_byte(name: &str, sent: &str, before: [&str; 2], behind: [&str; 2], first: usize) -> Fixed {
    page(name)
        .write(10, sent, "starts .")
        .add("20 L off | 30 L on")
        .random_read(40, before[0], before[1])
        .random_read(50, behind[0], behind[1])
        .eeprom_is(&doubtful_page(first))
        .written(&format!("eeprom {} 20", first / 64))
        .settled(0)
}

/// The ends of pages and of the chip. Place 7fbf holds 49, 7fff 89, and 0000 a sure 00.
fn places() -> Vec<Fixed> {
    let (before, behind) = (["00 3f", "3f/00 00/ff"], ["00 7f", "00/ff 80/00"]);
    let (before_last, behind_last) = (["7f bf", "49/00 00/ff"], ["7f ff", "00/ff 00/00 01/00"]);
    let (before_first, behind_first) = (["7f ff", "89/00 00/ff"], ["00 3f", "00/ff 40/00"]);
    vec![
        one_byte("the page's last place", "a0 00 7f 55", before, behind, 0x40),
        one_byte("the page's first place", "a0 00 40 55", before, behind, 0x40),
        one_byte("the chip's last place", "a0 7f ff 55", before_last, behind_last, 0x7fc0),
        one_byte("the first place of the chip's last page", "a0 7f c0 55", before_last, behind_last, 0x7fc0),
        one_byte("the chip's first place", "a0 00 00 55", before_first, behind_first, 0),
        one_byte("the last place of the chip's first page", "a0 00 3f 55", before_first, behind_first, 0),
        page("the top address bit is ignored")
            .write(10, "a0 ff e0 55", "starts .")
            .add("20 L off")
            .eeprom_is(&doubtful_page(0x7fc0))
            .written("eeprom 511 20")
            .settled(0),
        from(Start::Half, "bytes that were sure in part")
            .write(10, "a0 01 20 55", "starts .")
            .add("20 L off | 30 L on")
            .random_read(40, "00 ff", "05/f0 00/ff")
            .random_read(50, "01 3f", "00/ff 05/f0")
            .eeprom_is(&doubtful_page(0x100))
            .written("eeprom 4 20")
            .settled(0),
    ]
}

fn rolling() -> Vec<Fixed> {
    vec![
        page("two bytes rolled over the page's end")
            .write(10, "a0 00 7f 11 22", "starts .")
            .add("20 L off | 30 L on")
            .random_read(40, "00 7f", "00/ff 80/00")
            .eeprom_is(&doubtful_page(0x40))
            .written("eeprom 1 20")
            .settled(0),
        page("two bytes rolled at the chip's end")
            .write(10, "a0 7f ff 11 22", "starts .")
            .add("20 L off | 30 L on")
            .random_read(40, "7f ff", "00/ff 00/00 01/00")
            .eeprom_is(&doubtful_page(0x7fc0))
            .written("eeprom 511 20")
            .settled(0),
        page("all bytes of the page sent")
            .write(10, &format!("a0 00 40 {}", bytes(64)), "starts .")
            .add("30 L off")
            .eeprom_is(&doubtful_page(0x40))
            .written("eeprom 1 30")
            .settled(0),
        page("more bytes sent than the page has")
            .write(10, &format!("a0 00 7f {}", bytes(66)), "starts .")
            .add("30 L off")
            .eeprom_is(&doubtful_page(0x40))
            .written("eeprom 1 30")
            .settled(0),
    ]
}

fn more_cuts() -> Vec<Fixed> {
    vec![
        cut("a second cut, of another byte")
            .write(40, "a0 00 7e 66", "starts .")
            .add("50 L off | 60 L on")
            .random_read(70, "00 3f", "3f/00 00/ff")
            .random_read(80, "00 7e", "00/ff 00/ff 80/00")
            .written("eeprom 1 50")
            .settled(0),
        cut("a second cut takes back what was sure again")
            .write(40, "a0 00 50 77", "starts .")
            .eeprom_end(50)
            .random_read(60, "00 50", "77/00 00/ff")
            .write(70, "a0 00 42 66", "starts .")
            .add("80 L off | 90 L on")
            .random_read(100, "00 50", "00/ff 00/ff")
            .written("eeprom 1 80")
            .settled(0),
        cut("two pages, with one between them")
            .write(40, "a0 00 c1 66", "starts .")
            .add("50 L off | 60 L on")
            .random_read(70, "00 7f", "00/ff 80/00")
            .random_read(80, "00 bf", "bf/00 00/ff")
            .random_read(90, "00 ff", "00/ff 05/00")
            .eeprom_is(&doubtful_page(0xc0))
            .written("eeprom 3 50")
            .settled(0),
        cut("two pages side by side")
            .write(40, "a0 00 80 66", "starts .")
            .add("50 L off | 60 L on")
            .random_read(70, "00 7f", "00/ff 00/ff")
            .random_read(80, "00 bf", "00/ff c0/00")
            .eeprom_is(&doubtful_page(0x80))
            .written("eeprom 2 50")
            .settled(0),
    ]
}

/// An `end` changes the bytes sent alone, in a page that was cut as in any other.
fn rewritten() -> Vec<Fixed> {
    let whole: Vec<Changed> = (0..64).map(|place| (0x40 + place, 0x80 + place as u8, 0x00)).collect();
    vec![
        cut("the byte that was sent is written again")
            .write(40, "a0 00 41 55", "starts .")
            .eeprom_end(50)
            .random_read(60, "00 40", "00/ff 55/00 00/ff")
            .eeprom_is(&[(0x41, 0x55, 0x00)])
            .written("eeprom 1 50")
            .settled(0),
        cut("written again in part, then whole")
            .write(40, "a0 00 7f aa bb", "starts .")
            .eeprom_end(50)
            .random_read(60, "00 3f", "3f/00 bb/00 00/ff")
            .random_read(70, "00 7e", "00/ff aa/00 80/00")
            .write(80, &format!("a0 00 40 {}", bytes(64)), "starts .")
            .eeprom_end(100)
            .random_read(110, "00 3f", "3f/00 80/00 81/00")
            .random_read(120, "00 7e", "be/00 bf/00 80/00")
            .eeprom_is(&whole)
            .written("eeprom 1 100")
            .settled(0),
        cut("written again in part, and left so")
            .write(40, "a0 00 7f aa bb", "starts .")
            .eeprom_end(50)
            .eeprom_is(&[(0x7f, 0xaa, 0x00), (0x40, 0xbb, 0x00)])
            .written("eeprom 1 50")
            .settled(0),
    ]
}

/// Reads over the page's borders: inside nothing is compared, whatever was recorded.
fn borders() -> Vec<Fixed> {
    vec![
        cut("a read from before the page to behind it")
            .random_read(40, "00 3e", &format!("3e/00 3f/00 {}80/00 81/00", "00/ff ".repeat(64)))
            .settled(0),
        cut("a wrong recording counts before the page alone")
            .write(40, "a0 00 3e", "- .")
            .add("50 E sta | 50 E b a1 0 > ack = | 50 E b 3e 0 > 3e/00 = | 50 E b 3e 0 > 3f/00 !")
            .add("60 E b 40 0 > 00/ff . | 60 E b 55 0 > 00/ff . | 60 E b bd 1 > 00/ff . | 60 E sto")
            .settled(1),
        cut("a wrong recording counts behind the page alone")
            .write(40, "a0 00 7d", "- .")
            .add("50 E sta | 50 E b a1 0 > ack = | 50 E b 7d 0 > 00/ff . | 50 E b 81 0 > 00/ff . | 50 E b 00 0 > 00/ff .")
            .add("60 E b 80 0 > 80/00 = | 60 E b 01 0 > 81/00 ! | 60 E b 82 1 > 82/00 = | 60 E sto")
            .settled(1),
    ]
}

/// A byte sent for 0041 that no `sto` has followed yet.
fn open_write(script: Script, stamp: u32) -> Script {
    script.add(&format!(
        "{0} E sta | {0} E b a0 0 > ack = | {0} E b 00 0 > ack = | {0} E b 41 0 > ack = | {0} E b 55 0 > ack =",
        stamp
    ))
}

/// Where no cycle runs, `off` puts nothing in doubt.
fn no_cycle() -> Vec<Fixed> {
    vec![
        open_write(page("data without sto"), 10).add("20 L off | 30 L on").random_read(40, "00 40", "40/00 41/00").settled(0),
        open_write(page("data dropped by sta"), 10).add("20 E sta | 30 E sto > - . | 40 L off").settled(0),
        open_write(page("data and cut"), 10).add("20 E cut | 30 E sto > - . | 40 L off").settled(0),
        page("no data").write(10, "a0 00 41", "- .").add("20 L off").settled(0),
        started("off after the end")
            .eeprom_end(20)
            .add("30 L off | 40 L on")
            .random_read(50, "00 40", "40/00 55/00 42/00")
            .eeprom_is(&[(0x41, 0x55, 0x00)])
            .written("eeprom 1 20").settled(0),
        page("the lock on at sto")
            .add("5 L lock")
            .write(10, "a0 00 41 55", "- .")
            .add("20 L off | 30 L on")
            .random_read(40, "00 40", "40/00 41/00")
            .settled(0),
        page("another device's write")
            .add("10 E sta | 10 E b a2 0 | 10 E b 00 0 | 10 E b 41 0 | 10 E b 55 0 | 10 E sto > - . | 20 L off")
            .settled(0),
        page("a write with the supply off")
            .add("5 L off | 10 E sta | 10 E b a0 0 | 10 E b 00 0 | 10 E b 41 0 | 10 E b 55 0 | 10 E sto > - . | 20 L off | 30 L on")
            .random_read(40, "00 40", "40/00 41/00")
            .settled(0),
        page("no data, sto and off at one stamp")
            .add("10 E sta | 10 E b a0 0 > ack = | 10 E b 00 0 > ack = | 10 E b 41 0 > ack = | 20 E sto > - . | 20 L off")
            .settled(0),
        open_write(page("the lock on, sto and off at one stamp").add("5 L lock"), 10).add("20 E sto > - . | 20 L off").settled(0),
        started("a repeated on leaves the cycle").add("20 L on").eeprom_end(30).eeprom_is(&[(0x41, 0x55, 0x00)]).written("eeprom 1 30").settled(0),
    ]
}

fn lines() -> Vec<Fixed> {
    vec![
        started("the lock comes on in the cycle")
            .add("20 L lock | 30 L off")
            .eeprom_is(&doubtful_page(0x40))
            .written("eeprom 1 30")
            .settled(0),
        started("the lock comes and goes in the cycle")
            .add("20 L lock | 25 L free | 30 L off")
            .eeprom_is(&doubtful_page(0x40))
            .written("eeprom 1 30")
            .settled(0),
        started("the lock and off at one stamp")
            .add("20 L lock | 20 L off")
            .eeprom_is(&doubtful_page(0x40))
            .written("eeprom 1 20")
            .settled(0),
        started("off and on at one stamp")
            .add("20 L off | 20 L on | 30 E end > idle .")
            .random_read(40, "00 7f", "00/ff 80/00")
            .eeprom_is(&doubtful_page(0x40))
            .written("eeprom 1 20")
            .settled(0),
        started("off twice")
            .add("20 L off | 30 L off | 40 L off")
            .eeprom_is(&doubtful_page(0x40))
            .written("eeprom 1 20")
            .settled(0),
        started("off twice at one stamp")
            .add("20 L off | 20 L off")
            .eeprom_is(&doubtful_page(0x40))
            .written("eeprom 1 20")
            .settled(0),
        cut("a later off puts nothing more in doubt")
            .write(40, "a0 00 50 77", "starts .")
            .eeprom_end(50)
            .write(60, "a0 00 81 88", "starts .")
            .eeprom_end(70)
            .add("80 L off | 90 L off | 100 L on | 110 L off")
            .eeprom_is(&[(0x50, 0x77, 0x00), (0x81, 0x88, 0x00)])
            .written("eeprom 1 50 | eeprom 2 70")
            .settled(0),
        page("one off cuts both chips: the flash keeps what was not sent")
            .wren(5)
            .frame(6, "02 00 00 24 0f", "starts .")
            .write(10, "a0 00 24 0f", "starts .")
            .add("20 L off")
            .flash_is(&[(0x24, 0x04, 0x20)])
            .eeprom_is(&doubtful_page(0))
            .written("flash 0 20 | eeprom 0 20")
            .settled(0),
    ]
}

/// At `off`'s stamp, records that the chip is deaf to in either order.
fn ties_that_settle() -> Vec<Fixed> {
    vec![
        started("sta and off in the cycle")
            .add("20 E sta | 20 L off | 30 E sto")
            .eeprom_is(&doubtful_page(0x40))
            .written("eeprom 1 20")
            .settled(0),
        started("a byte of a refused frame and off")
            .add("20 E sta | 20 E b a0 1 > no = | 30 E b 00 1 | 30 L off | 40 E sto")
            .eeprom_is(&doubtful_page(0x40))
            .written("eeprom 1 30")
            .settled(0),
        started("another's address and off in the cycle")
            .add("20 E sta | 30 L off | 30 E b a2 1 | 40 E sto")
            .eeprom_is(&doubtful_page(0x40))
            .written("eeprom 1 30")
            .settled(0),
    ]
}

/// What is shown is the state before the stamp: the cycle of that stamp neither stored nor cut.
fn stops() -> Vec<Fixed> {
    vec![
        started("end and off").add("20 E end | 20 L off | 30 L on").stops(7, 20, 0, 6),
        started("off and end, the other way round in the file").add("20 L off | 20 E end").stops(7, 20, 0, 6),
        from(Start::Doubtful, "end and off where nothing is sure")
            .write(10, "a0 00 41 55", "starts .")
            .add("20 E end | 20 L off")
            .stops(7, 20, 0, 6),
        cut("end and off in a page that was cut")
            .write(40, "a0 00 50 77", "starts .")
            .eeprom_end(50)
            .write(60, "a0 00 51 88", "starts .")
            .add("70 E end | 70 L off")
            .eeprom_is(&[(0x50, 0x77, 0x00)])
            .written("eeprom 1 50")
            .stops(7, 70, 0, 21),
        open_write(from(Start::Doubtful, "sto and off where nothing is sure"), 10).add("20 E sto | 20 L off").stops(7, 20, 0, 5),
        cut("sto and off after a cut")
            .add("40 E sta | 40 E b a0 0 > ack = | 40 E b 00 0 > ack = | 40 E b 81 0 > ack = | 40 E b 66 0 > ack =")
            .add("50 E sto | 50 L off | 60 L on")
            .stops(7, 50, 0, 13),
        started("off at a crowded stamp cuts nothing").add("20 L off | 20 L on | 20 L off").stops(6, 20, 0, 6),
        cut("a crowded stamp after a cut").add("40 L off | 40 L on | 40 L off").stops(6, 40, 0, 8),
    ]
}
