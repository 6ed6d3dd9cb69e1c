//! Records that share a stamp: what settles, what does not, and what stops first.

use super::script::{script, Script, Start};
use super::Fixed;

pub fn cases() -> Vec<Fixed> {
    let mut cases = Vec::new();
    cases.extend(crowds());
    cases.extend(lock_facts());
    cases.extend(flash_with_supply());
    cases.extend(flash_with_lock());
    cases.extend(eeprom_with_lines());
    cases.extend(lost_status());
    cases.extend(stops());
    cases
}

fn board(name: &str, status: &str) -> Script {
    script(name, Start::Counting, &format!("board {} 1 0", status))
}

fn repeated(record: &str, times: usize) -> String {
    vec![record; times].join("|")
}

fn crowds() -> Vec<Fixed> {
    let eight_f = "10 F sel | 10 F x 05 ff | 10 F x 00 00 > 00/00 = | 10 F des | 10 F sel | 10 F x 15 ff | 10 F x 00 1f > 1f/00 = | 10 F des";
    let eight_e = "10 E sta | 10 E b a0 0 > ack = | 10 E b 00 0 > ack = | 10 E b 05 0 > ack = | 10 E sta | 10 E b a1 0 > ack = | 10 E b 05 1 > 05/00 = | 10 E sto";
    vec![
        board("8 F records", "00").add(&repeated("10 F end > idle .", 8)).settled(0),
        board("9 F records", "00").add(&repeated("10 F end", 9)).stops(6, 10, 0, 0),
        board("8 E records", "00").add(&repeated("10 E end > idle .", 8)).settled(0),
        board("9 E records", "00").add(&repeated("10 E end", 9)).stops(6, 10, 0, 0),
        board("2 L records", "00").add("10 L on | 10 L on").settled(0),
        board("3 L records", "00").add("10 L on | 10 L on | 10 L on").stops(6, 10, 0, 0),
        board("8 F, 8 E and 2 L records", "00").add(eight_f).add(eight_e).add("10 L lock | 10 L free").settled(0),
        board("8 F and 9 E records", "00")
            .add(&repeated("10 F end", 8))
            .add(&repeated("10 E end", 9))
            .add("10 L on | 10 L on")
            .stops(6, 10, 0, 0),
        board("8 F, 8 E and 3 L records", "00")
            .add("5 L on")
            .add(&repeated("10 F end", 8))
            .add(&repeated("10 E end", 8))
            .add("10 L on | 10 L on | 10 L on | 20 L on")
            .stops(6, 10, 0, 1),
        board("a full stamp and a full stamp after it", "00")
            .add(&repeated("10 F end > idle .", 8))
            .add(&repeated("11 F end > idle .", 8))
            .settled(0),
        board("a crowd keeps the count and the replies before it", "00")
            .add("10 F sel | 20 F x 05 ff | 30 F x 00 01 > 00/00 ! | 40 F x 00 00 > 00/00 = | 50 F x 00 80 > 00/00 !")
            .add(&repeated("60 L lock", 3))
            .add("70 F des")
            .stops(6, 60, 2, 5),
    ]
}

fn lock_facts() -> Vec<Fixed> {
    vec![
        board("sel and free, WPEN 1", "80").add("5 L lock | 10 F sel | 10 L free").stops(7, 10, 0, 1),
        board("free and sel, the other way round in the file", "80").add("5 L lock | 10 L free | 10 F sel").stops(7, 10, 0, 1),
        board("sel and lock, WPEN 1", "80").add("10 F sel | 10 L lock | 20 F des").settled(0),
        board("sel and free, WPEN 0", "0c").add("5 L lock | 10 F sel | 10 L free | 20 F des").settled(0),
        board("sel and lock and free, WPEN 1", "80").add("10 F sel | 10 L lock | 10 L free").stops(7, 10, 0, 0),
        board("the fact counts in a frame of any instruction", "80")
            .add("5 L lock | 10 F sel | 10 F x 05 ff | 10 L free | 20 F des")
            .stops(7, 10, 0, 1),
        board("a whole frame leaves no fact behind", "80")
            .add("5 L lock | 10 F sel | 10 F x 05 ff | 10 F x 00 80 > 80/00 = | 10 F des | 10 L free")
            .settled(0),
        board("an unknown op-code leaves no fact", "80").add("5 L lock | 10 F sel | 10 F x 99 ff | 10 L free | 20 F des").settled(0),
        board("a cut leaves no fact", "80").add("5 L lock | 10 F sel | 10 F cut | 10 L free | 20 F des").settled(0),
        board("no fact with the supply off", "80").add("2 L off | 5 L lock | 10 F sel | 10 L free | 20 F des").settled(0),
        board("lock and free inside an open frame leave one fact", "80")
            .add("5 F sel | 6 F x 03 ff | 10 F x 00 ff | 10 L lock | 10 L free | 20 F des")
            .settled(0),
        script("no fact where sel came in a cycle", Start::Erased, "board 80 1 0")
            .wren(10)
            .frame(20, "02 00 00 00 a5", "starts .")
            .add("30 L lock | 40 F sel | 40 L free | 50 F end > ends . | 60 F x 05 ff | 60 L lock | 70 F x 00 80 > 80/00 = | 80 F des")
            .flash_is(&[(0, 0xa5, 0)])
            .written("flash 0 50").settled(0),
        board("a later return to one state forgives nothing", "80")
            .add("5 L lock | 10 F sel | 10 L free | 20 L lock | 30 F des | 40 L off")
            .stops(7, 10, 0, 1),
    ]
}

fn flash_with_supply() -> Vec<Fixed> {
    vec![
        board("sel, off, on and des settle", "00").add("10 F sel | 10 L off | 10 L on | 10 F des").settled(0),
        board("sel, off and on do not", "00").add("10 F sel | 10 L off | 10 L on").stops(7, 10, 0, 0),
        board("sel and off settle", "00").add("10 F sel | 10 L off | 20 F des").settled(0),
        board("sel and on do not", "00").add("5 L off | 10 F sel | 10 L on").stops(7, 10, 0, 1),
        board("a void frame is void whatever voided it", "00").add("5 F sel | 10 F x ff ff | 10 L off | 20 F des").settled(0),
        board("a status byte and off", "00").add("5 F sel | 6 F x 05 ff | 10 F x 00 00 | 10 L off").stops(7, 10, 0, 2),
        board("an op-code and off settle", "00").add("5 F sel | 10 F x 05 ff | 10 L off | 20 F des").settled(0),
        board("a repeated on leaves a PROGRAM's des alone", "00")
            .wren(10)
            .add("20 F sel | 20 F x 02 ff | 20 F x 00 ff | 20 F x 00 ff | 20 F x 03 ff | 20 F x 01 ff | 30 F des > starts . | 30 L on")
            .end(40)
            .flash_is(&[(3, 0x01, 0x00)])
            .written("flash 0 40").settled(0),
        board("an end and off", "00").wren(10).frame(20, "62", "starts .").add("30 F end | 30 L off").stops(7, 30, 0, 6),
        board("an end and off without a cycle settle", "00").add("10 F end > idle . | 10 L off").settled(0),
        board("a status write's end and off", "00").wren(10).frame(20, "01 0c", "starts .").add("30 F end | 30 L off").stops(7, 30, 0, 7),
        board("WREN's whole frame and off settle", "00").add("10 F sel | 10 F x 06 ff | 10 F des | 10 L off | 20 L on").rdsr(30, "00").settled(0),
        board("WREN's whole frame, off and on do not", "00").add("10 F sel | 10 F x 06 ff | 10 F des | 10 L off | 10 L on").stops(7, 10, 0, 0),
        board("a PROGRAM outside the watched sector and off", "00")
            .wren(10)
            .add("20 F sel | 20 F x 02 ff | 20 F x 01 ff | 20 F x 00 ff | 20 F x 00 ff | 20 F x 00 ff | 30 F des | 30 L off")
            .stops(7, 30, 0, 9),
    ]
}

fn flash_with_lock() -> Vec<Fixed> {
    vec![
        board("a status write's des and lock, WPEN 1", "80")
            .wren(10)
            .add("20 F sel | 20 F x 01 ff | 20 F x 00 ff | 30 F des | 30 L lock")
            .stops(7, 30, 0, 6),
        board("a status write's des and lock, WPEN 0", "00")
            .wren(10)
            .add("20 F sel | 20 F x 01 ff | 20 F x 04 ff | 30 F des > starts . | 30 L lock")
            .end(40)
            .rdsr(50, "04")
            .settled(0),
        board("a status write's des and free, lock seen before", "80")
            .wren(10)
            .add("15 L lock | 20 F sel | 20 F x 01 ff | 20 F x 00 ff | 30 F des > - . | 30 L free")
            .rdsr(40, "82")
            .settled(0),
        board("a PROGRAM's des and lock settle", "80")
            .wren(10)
            .add("20 F sel | 20 F x 02 ff | 20 F x 00 ff | 20 F x 00 ff | 20 F x 03 ff | 20 F x 01 ff | 30 F des > starts . | 30 L lock")
            .end(40)
            .flash_is(&[(3, 0x01, 0x00)])
            .written("flash 0 40").settled(0),
    ]
}

fn open_write(name: &str) -> Script {
    board(name, "00").add("10 E sta | 10 E b a0 0 > ack = | 10 E b 00 0 > ack = | 10 E b 10 0 > ack = | 10 E b 55 0 > ack =")
}

fn eeprom_with_lines() -> Vec<Fixed> {
    vec![
        open_write("sto and lock").add("20 E sto | 20 L lock").stops(7, 20, 0, 5),
        open_write("sto and free, lock on").add("15 L lock | 20 E sto | 20 L free").stops(7, 20, 0, 6),
        open_write("sto and free, lock off")
            .add("20 E sto > starts . | 20 L free")
            .eeprom_end(30)
            .eeprom_is(&[(0x10, 0x55, 0)])
            .written("eeprom 0 30")
            .settled(0),
        open_write("sto, lock and free").add("20 E sto | 20 L lock | 20 L free").stops(7, 20, 0, 5),
        open_write("sto and off").add("20 E sto | 20 L off").stops(7, 20, 0, 5),
        open_write("a fresh sta and lock settle").add("20 E sta | 20 L lock | 30 E sto").settled(0),
        board("sto without data and lock settle", "00")
            .write(10, "a0 00 00", "- .")
            .add("20 E sta | 20 E sto | 20 L lock")
            .settled(0),
        board("an acknowledged byte and off", "00").add("10 E sta | 20 E b a0 0 | 20 L off").stops(7, 20, 0, 1),
        board("another's address and off settle", "00").add("10 E sta | 20 E b a2 1 | 20 L off | 30 E sto").settled(0),
        board("sta and off settle", "00").add("10 E sta | 10 L off | 20 E sto").settled(0),
        board("sta, off and on do not", "00").add("10 E sta | 10 L off | 10 L on").stops(7, 10, 0, 0),
        board("sta, off, on and sto settle", "00").add("10 E sta | 10 L off | 10 L on | 10 E sto").settled(0),
        open_write("the end of a write and off").add("20 E sto > starts . | 30 E end | 30 L off").stops(7, 30, 0, 6),
        open_write("the end of a write and lock settle")
            .add("20 E sto > starts . | 30 E end > ends . | 30 L lock")
            .eeprom_is(&[(0x10, 0x55, 0)])
            .written("eeprom 0 30")
            .settled(0),
        open_write("a sta in a cycle, off and on do not settle")
            .add("20 E sto > starts . | 30 E sta | 30 L off | 30 L on")
            .stops(7, 30, 0, 6),
        open_write("polling in a cycle and off")
            .add("20 E sto > starts . | 30 E sta | 30 E b a0 1 | 30 L off")
            .stops(7, 30, 0, 6),
        board("a read byte and off", "00")
            .write(10, "a0 00 05", "- .")
            .add("20 E sta | 20 E b a1 0 > ack = | 30 E b 05 0 | 30 L off")
            .stops(7, 30, 0, 7),
        board("a read byte of a lost counter and off settle", "00")
            .add("20 E sta | 20 E b a1 0 > ack = | 30 E b ff 1 | 30 L off | 40 E sto")
            .settled(0),
        board("on and a polled address", "00").add("5 L off | 10 E sta | 10 E b a0 1 | 10 E sto | 10 L on").stops(7, 10, 0, 1),
    ]
}

/// A running status write.
fn writing_status(name: &str) -> Script {
    board(name, "00").wren(10).frame(20, "01 8c", "starts .")
}

fn lost_status() -> Vec<Fixed> {
    vec![
        writing_status("off, on and two frames that need a known status")
            .add("30 F sel | 30 F x 06 ff | 30 F des | 30 F sel | 30 F x 62 ff | 30 F des | 30 L off | 30 L on")
            .stops(8, 30, 0, 7),
        writing_status("off, on and RDSR").add("30 F sel | 30 F x 05 ff | 30 F x 00 ff | 30 F des | 30 L off | 30 L on").stops(7, 30, 0, 7),
        writing_status("off, on and RDID: it works with a lost status")
            .add("30 F sel | 30 F x 15 ff | 30 F x 00 1f | 30 F des | 30 L off | 30 L on")
            .stops(7, 30, 0, 7),
        writing_status("off, on and READ: it works with a lost status")
            .add("30 F sel | 30 F x 03 ff | 30 F x 00 ff | 30 F x 00 ff | 30 F x 00 ff | 30 F x 00 00 | 30 F des | 30 L off | 30 L on")
            .stops(7, 30, 0, 7),
        writing_status("off and sel settle into a lost status").add("30 F sel | 30 L off").stops(8, 30, 0, 7),
        writing_status("off, on and sel do not").add("30 F sel | 30 L off | 30 L on").stops(7, 30, 0, 7),
        writing_status("a repeated on does not lose it").add("30 L on | 30 F end > ends .").rdsr(40, "8c").settled(0),
    ]
}

fn stops() -> Vec<Fixed> {
    vec![
        writing_status("crowded comes before orders that differ")
            .add(&repeated("30 F end", 9))
            .add("30 L off")
            .stops(6, 30, 0, 7),
        writing_status("crowded comes before a lost status").add("30 L off | 30 L off | 30 L off").stops(6, 30, 0, 7),
        writing_status("differing EEPROM orders come before a lost status")
            .add("25 E sta | 30 E b a0 0 | 30 L off")
            .stops(7, 30, 0, 8),
        writing_status("a lost status leaves the EEPROM's cycle uncut")
            .write(25, "a0 00 10 55", "starts .")
            .add("30 L off | 40 E end")
            .stops(8, 30, 0, 13),
        writing_status("a wrong reply before a lost status is counted")
            .add("25 F sel | 25 F x 05 ff | 25 F x 00 7f > ff/00 ! | 25 F des | 30 L off")
            .stops(8, 30, 1, 11),
        script("a crowd with the end of a program changes nothing", Start::Erased, "board 00 1 0")
            .wren(10)
            .frame(20, "02 00 00 00 a5", "starts .")
            .add(&repeated("30 F end", 9))
            .stops(6, 30, 0, 10),
        script("orders that differ change nothing", Start::Erased, "board 00 1 0")
            .wren(10)
            .frame(20, "02 00 00 00 a5", "starts .")
            .write(25, "a0 00 10 55", "starts .")
            .add("30 F end | 30 E end | 30 L off")
            .stops(7, 30, 0, 16),
        board("the first stamp that stops decides", "80")
            .add("5 L lock | 10 F sel | 10 L free")
            .add(&repeated("20 F end", 9))
            .stops(7, 10, 0, 1),
        board("the EEPROM's orders count as the flash's do", "00")
            .add("10 E sta | 20 F sel | 20 E b a0 0 | 20 L off | 20 F des")
            .stops(7, 20, 0, 1),
    ]
}
