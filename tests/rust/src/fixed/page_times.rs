//! When each page was last written (request 1/12). Every case is held to the whole table: a page that it does not name was
//! never written. Before the call the table is full of marks and stamps, which say nothing.

use super::script::{doubtful_page, everywhere, script, Changed, Script, Start};
use super::Fixed;

pub fn cases() -> Vec<Fixed> {
    let mut cases = Vec::new();
    cases.extend(programs());
    cases.extend(no_bit_changes());
    cases.extend(pages_of_the_flash());
    cases.extend(no_program());
    cases.extend(sector_erases());
    cases.extend(erases_elsewhere());
    cases.extend(chip_erases());
    cases.extend(status_writes());
    cases.extend(page_writes());
    cases.extend(pages_of_the_eeprom());
    cases.extend(no_page_write());
    cases.extend(supply());
    cases.extend(supply_and_ends());
    cases.extend(stamps());
    cases.extend(one_stamp());
    cases.extend(stops());
    cases.extend(stops_at_the_end());
    cases.extend(refusals());
    cases.extend([layout(), every_flash_page(), every_eeprom_page()]);
    cases
}

fn board(name: &str, start: Start, board: &str) -> Script {
    script(&format!("times: {}", name), start, board)
}

fn erased(name: &str) -> Script {
    board(name, Start::Erased, "board 00 1 0")
}

/// A write enable, and at the next stamp a PROGRAM whose cycle starts.
fn program(script: Script, stamp: u32, sent: &str) -> Script {
    script.wren(stamp).frame(stamp + 1, &format!("02 {}", sent), "starts .")
}

/// a5 programmed to 00507, in page 5; its cycle runs from stamp 11 on.
fn started(name: &str) -> Script {
    program(erased(name), 10, "00 05 07 a5")
}

const A5: [Changed; 1] = [(0x507, 0xa5, 0x00)];
const CUT_A5: [Changed; 1] = [(0x507, 0xa5, 0x5a)];

/// The same whole: page 5 is written at 20.
fn programmed(name: &str) -> Script {
    started(name).end(20).flash_is(&A5).written("flash 5 20")
}

/// The stamp is that of the `end` or of the `off`, and the last one stands.
fn programs() -> Vec<Fixed> {
    vec![
        programmed("a program, not by its des").settled(0),
        started("a program, not by what comes before its end")
            .rdsr(12, "ff")
            .add("13 L lock")
            .end(30)
            .flash_is(&A5)
            .written("flash 5 30")
            .settled(0),
        started("a cut program").add("25 L off").flash_is(&CUT_A5).written("flash 5 25").settled(0),
        program(programmed("two programs of one page"), 30, "00 05 09 3c")
            .end(40)
            .flash_is(&[(0x509, 0x3c, 0)])
            .written("flash 5 40")
            .settled(0),
        program(programmed("two programs of two pages"), 30, "00 04 ff 3c")
            .end(40)
            .flash_is(&[(0x4ff, 0x3c, 0)])
            .written("flash 4 40")
            .settled(0),
        program(programmed("a program, and one of its page cut"), 30, "00 05 09 3c")
            .add("40 L off")
            .flash_is(&[(0x509, 0x3c, 0xc3)])
            .written("flash 5 40")
            .settled(0),
        program(started("a program cut, and one of its page whole").add("20 L off | 21 L on"), 30, "00 05 09 3c")
            .end(40)
            .flash_is(&CUT_A5)
            .flash_is(&[(0x509, 0x3c, 0)])
            .written("flash 5 40")
            .settled(0),
        program(programmed("a program whose cycle still runs"), 30, "00 06 00 3c").settled(0),
    ]
}

/// A program touches its page whatever it leaves of the bits.
fn no_bit_changes() -> Vec<Fixed> {
    let counting = |name: &str, sent: &str| program(board(name, Start::Counting, "board 00 1 0"), 10, sent);
    let doubtful = |name: &str, sent: &str| program(board(name, Start::Doubtful, "board 00 1 0"), 10, sent);
    vec![
        counting("a program of ff", "00 05 07 ff").end(20).written("flash 5 20").settled(0),
        counting("a program of ff cut", "00 05 07 ff").add("20 L off").written("flash 5 20").settled(0),
        counting("a program where every bit is 0", "00 00 00 5a").end(20).written("flash 0 20").settled(0),
        counting("a program where every bit is 0, cut", "00 00 00 5a").add("20 L off").written("flash 0 20").settled(0),
        counting("a program of what is there, twice", "00 05 01 0a")
            .end(20)
            .flash_is(&[(0x501, 0x0a, 0)])
            .wren(30)
            .frame(31, "02 00 05 01 0a", "starts .")
            .end(40)
            .written("flash 5 40")
            .settled(0),
        doubtful("a program of ff where all is in doubt", "00 05 07 ff").end(20).written("flash 5 20").settled(0),
        doubtful("a program cut where all is in doubt", "00 05 07 00").add("20 L off").written("flash 5 20").settled(0),
    ]
}

/// A page's number is that in the watched sector; data that roll stay in the page.
fn pages_of_the_flash() -> Vec<Fixed> {
    let watching =
        |sector: u8| board(&format!("sector {} and its last page", sector), Start::Erased, &format!("board 00 {} 0", sector));
    let last = |sector: u8, address: &str| {
        let changed = [(0x7fff, 0x11, 0), (0x7f00, 0x22, 0)];
        program(watching(sector), 10, &format!("{} 11 22", address)).end(20).flash_is(&changed).written("flash 127 20").settled(0)
    };
    vec![
        last(1, "00 7f ff"),
        last(2, "00 ff ff"),
        last(3, "01 7f ff"),
        last(4, "01 ff ff"),
        program(erased("the bits above A16 don't count"), 10, "fe 05 07 a5")
            .end(20)
            .flash_is(&A5)
            .written("flash 5 20")
            .settled(0),
        program(erased("data rolled over the page's end touch one page"), 10, "00 05 ff 11 22")
            .end(20)
            .flash_is(&[(0x5ff, 0x11, 0), (0x500, 0x22, 0)])
            .written("flash 5 20")
            .settled(0),
        program(board("a page of sector 3 where sector 3 is watched", Start::Erased, "board 04 3 0"), 10, "01 05 07 a5")
            .end(20)
            .flash_is(&A5)
            .written("flash 5 20")
            .settled(0),
    ]
}

/// Another sector's program, and what starts no cycle.
fn no_program() -> Vec<Fixed> {
    vec![
        program(program(erased("programs elsewhere, whole and cut"), 10, "00 85 07 a5").end(20), 30, "01 7f 00 3c")
            .add("40 L off")
            .settled(0),
        program(board("a program in sector 1 where sector 2 is watched", Start::Erased, "board 00 2 0"), 10, "00 05 07 a5")
            .end(20)
            .settled(0),
        programmed("frames that start nothing")
            .frame(30, "02 00 06 07 a5", "- .")
            .wren(40)
            .frame(41, "02 00 06 07", "- .")
            .frame(42, "52 00 00", "- .")
            .frame(43, "62 00", "- .")
            .add("44 F sel | 44 F x 02 ff | 44 F x 00 ff | 44 F x 06 ff | 44 F x 07 ff | 44 F x a5 ff | 44 F cut | 44 F des")
            .add("50 F end > idle . | 60 L off")
            .settled(0),
        board("locked out", Start::Erased, "board 0c 1 0")
            .wren(10)
            .frame(11, "02 00 05 07 a5", "- .")
            .frame(12, "52 00 00 00", "- .")
            .frame(13, "62", "- .")
            .add("20 F end > idle . | 30 L off")
            .settled(0),
    ]
}

/// A write enable, and at the next stamp a sector erase whose cycle starts.
fn erase(script: Script, stamp: u32, address: &str) -> Script {
    script.wren(stamp).frame(stamp + 1, &format!("52 {}", address), "starts .")
}

fn sector_erases() -> Vec<Fixed> {
    let and_program = erase(erased("an erase of the watched sector, and a program after it"), 10, "00 00 00").end(20);
    let after_write = erased("an erase leaves the EEPROM's pages").write(5, "a0 00 c0 ff", "starts .").eeprom_end(6);
    vec![
        erase(programmed("an erase of the watched sector"), 30, "00 7f ff")
            .end(40)
            .flash_is(&everywhere(0xff, 0x00))
            .written("flash all 40")
            .settled(0),
        erase(programmed("an erase of the watched sector cut"), 30, "00 00 00")
            .add("40 L off")
            .flash_is(&everywhere(0x00, 0xff))
            .written("flash all 40")
            .settled(0),
        program(and_program, 30, "00 05 07 a5").end(40).flash_is(&A5).written("flash all 20 | flash 5 40").settled(0),
        erase(after_write, 10, "00 00 00").end(20).written("flash all 20 | eeprom 3 6").settled(0),
    ]
}

fn erases_elsewhere() -> Vec<Fixed> {
    vec![
        erase(erase(programmed("erases of other sectors"), 30, "00 80 00").end(40), 50, "01 7f ff").end(60).settled(0),
        erase(programmed("an erase of another sector cut"), 30, "01 80 00").add("40 L off").settled(0),
        erase(board("an erase of sector 1 where sector 3 is watched", Start::Counting, "board 00 3 0"), 10, "00 00 00")
            .end(20)
            .settled(0),
        erase(board("an erase of sector 3 where it is watched", Start::Erased, "board 04 3 0"), 10, "01 00 00")
            .end(20)
            .written("flash all 20")
            .settled(0),
    ]
}

/// A chip erase touches the watched sector where its status does not lock it.
fn chip_erases() -> Vec<Fixed> {
    let started = |name: &str, line: &str| board(name, Start::Erased, line).wren(10).frame(11, "62", "starts .");
    let whole = |name: &str, line: &str| started(name, line).end(20).settled(0);
    let cut = |name: &str, line: &str| started(name, line).add("20 L off").settled(0);
    let reaching = |name: &str, line: &str| started(name, line).end(20).written("flash all 20").settled(0);
    vec![
        reaching("a chip erase with no sector locked", "board 00 1 0"),
        reaching("a chip erase with another sector locked", "board 04 3 0"),
        reaching("a chip erase with two others locked", "board 08 2 0"),
        started("a chip erase cut with two others locked", "board 88 1 0")
            .add("20 L off")
            .flash_is(&everywhere(0x00, 0xff))
            .written("flash all 20")
            .settled(0),
        whole("a chip erase with the watched sector locked, 04", "board 04 4 0"),
        whole("a chip erase with the watched sector locked, 08", "board 08 3 0"),
        whole("a chip erase with the watched sector locked, 88", "board 88 4 0"),
        cut("a chip erase cut with the watched sector locked, 04", "board 04 4 0"),
        cut("a chip erase cut with the watched sector locked, 08", "board 08 3 0"),
    ]
}

/// WRSR touches no page; what it locks counts for what comes after it.
fn status_writes() -> Vec<Fixed> {
    let locked = |name: &str, byte: &str| {
        program(board(name, Start::Erased, "board 00 4 0"), 10, "01 85 07 a5")
            .end(20)
            .flash_is(&A5)
            .written("flash 5 20")
            .wren(30)
            .frame(31, &format!("01 {}", byte), "starts .")
            .end(40)
    };
    vec![
        locked("a status write", "8c").settled(0),
        locked("a chip erase after a status write locked the watched sector", "04")
            .wren(50)
            .frame(51, "62", "starts .")
            .end(60)
            .settled(0),
        locked("a chip erase after a status write left it open", "80")
            .wren(50)
            .frame(51, "62", "starts .")
            .end(60)
            .flash_is(&everywhere(0xff, 0x00))
            .written("flash all 60")
            .settled(0),
        locked("a chip erase after the lock was taken back", "04")
            .wren(50)
            .frame(51, "01 00", "starts .")
            .end(60)
            .wren(70)
            .frame(71, "62", "starts .")
            .add("80 L off")
            .flash_is(&everywhere(0x00, 0xff))
            .written("flash all 80")
            .settled(0),
    ]
}

/// 55 for 00c7, in page 3; its cycle runs from stamp 10 on.
fn writing(name: &str) -> Script {
    erased(name).write(10, "a0 00 c7 55", "starts .")
}

const B55: [Changed; 1] = [(0xc7, 0x55, 0x00)];

/// The same whole: page 3 is written at 20.
fn wrote(name: &str) -> Script {
    writing(name).eeprom_end(20).eeprom_is(&B55).written("eeprom 3 20")
}

fn page_writes() -> Vec<Fixed> {
    vec![
        wrote("a page write, not by its sto").settled(0),
        wrote("a write whose cycle still runs").write(30, "a0 01 00 66", "starts .").settled(0),
        writing("a cut page write").add("25 L off").eeprom_is(&doubtful_page(0xc0)).written("eeprom 3 25").settled(0),
        wrote("two writes of one page")
            .write(30, "a0 00 ff 66", "starts .")
            .eeprom_end(40)
            .eeprom_is(&[(0xff, 0x66, 0)])
            .written("eeprom 3 40")
            .settled(0),
        wrote("writes of two pages side by side")
            .write(30, "a0 01 00 66", "starts .")
            .eeprom_end(40)
            .eeprom_is(&[(0x100, 0x66, 0)])
            .written("eeprom 4 40")
            .settled(0),
        wrote("a page write, and one of its page cut")
            .write(30, "a0 00 c0 66", "starts .")
            .add("40 L off")
            .eeprom_is(&doubtful_page(0xc0))
            .written("eeprom 3 40")
            .settled(0),
        writing("a page write cut, and one of its page whole")
            .add("20 L off | 21 L on")
            .write(30, "a0 00 c0 66", "starts .")
            .eeprom_end(40)
            .eeprom_is(&doubtful_page(0xc0))
            .eeprom_is(&[(0xc0, 0x66, 0)])
            .written("eeprom 3 40")
            .settled(0),
    ]
}

fn pages_of_the_eeprom() -> Vec<Fixed> {
    vec![
        erased("a page write of what is there")
            .write(10, "a0 00 c7 ff", "starts .")
            .eeprom_end(20)
            .written("eeprom 3 20")
            .settled(0),
        erased("data rolled over the page's end touch one page, of the EEPROM")
            .write(10, "a0 00 ff 11 22", "starts .")
            .eeprom_end(20)
            .eeprom_is(&[(0xff, 0x11, 0), (0xc0, 0x22, 0)])
            .written("eeprom 3 20")
            .settled(0),
        erased("the chip's last page, by the ignored bit too")
            .write(10, "a0 ff ff 11 22", "starts .")
            .eeprom_end(20)
            .eeprom_is(&[(0x7fff, 0x11, 0), (0x7fc0, 0x22, 0)])
            .written("eeprom 511 20")
            .settled(0),
    ]
}

/// What starts no cycle touches nothing.
fn no_page_write() -> Vec<Fixed> {
    vec![
        wrote("the lock on at sto")
            .add("25 L lock")
            .write(30, "a0 01 00 66", "- .")
            .add("40 E end > idle . | 50 L off")
            .settled(0),
        wrote("no data").write(30, "a0 01 00", "- .").add("40 E end > idle . | 50 L off").settled(0),
        wrote("another device's write")
            .add("30 E sta | 30 E b a2 1 | 30 E b 01 1 | 30 E b 00 1 | 30 E b 66 1 | 30 E sto | 40 E end > idle .")
            .settled(0),
        wrote("data dropped by sta, and data cut")
            .add("30 E sta | 30 E b a0 0 > ack = | 30 E b 01 0 > ack = | 30 E b 00 0 > ack = | 30 E b 66 0 > ack =")
            .add("40 E sta | 40 E b a0 0 > ack = | 40 E b 01 0 > ack = | 40 E b 40 0 > ack = | 40 E b 66 0 > ack =")
            .add("40 E cut | 40 E sto | 50 E end > idle .")
            .settled(0),
        writing("a write tried in a cycle")
            .add("15 E sta | 15 E b a0 1 > no = | 15 E b 01 1 | 15 E b 00 1 | 15 E b 66 1 | 15 E sto")
            .eeprom_end(20)
            .eeprom_is(&B55)
            .written("eeprom 3 20")
            .settled(0),
    ]
}

/// 55 for 00c7 and a5 for 00507, both cycles running from stamp 11 on.
fn both(name: &str) -> Script {
    started(name).write(11, "a0 00 c7 55", "starts .")
}

fn both_cut(name: &str, lines: &str) -> Script {
    both(name).add(lines).flash_is(&CUT_A5).eeprom_is(&doubtful_page(0xc0))
}

fn supply() -> Vec<Fixed> {
    vec![
        erased("off with no cycle").add("20 L off | 30 L on | 40 L off").settled(0),
        both("a repeated on cuts nothing").add("20 L on | 30 L lock | 40 L free").settled(0),
        both_cut("one off cuts both", "30 L off").written("flash 5 30 | eeprom 3 30").settled(0),
        both_cut("off cuts once", "30 L off | 40 L off | 50 L on | 60 L off").written("flash 5 30 | eeprom 3 30").settled(0),
        both_cut("off and on at one stamp", "30 L off | 30 L on").written("flash 5 30 | eeprom 3 30").settled(0),
        both_cut(
            "an end with the supply off",
            "30 L off | 40 F end > idle . | 41 E end > idle . | 50 L on | 60 F end > idle . | 61 E end > idle .",
        )
        .written("flash 5 30 | eeprom 3 30")
        .settled(0),
    ]
}

fn supply_and_ends() -> Vec<Fixed> {
    vec![
        both("off after the ends")
            .add("20 F end > ends . | 30 E end > ends . | 40 L off | 50 L on | 60 L off")
            .flash_is(&A5)
            .eeprom_is(&B55)
            .written("flash 5 20 | eeprom 3 30")
            .settled(0),
        both("one ends and the other is cut")
            .add("20 F end > ends . | 30 L off")
            .flash_is(&A5)
            .eeprom_is(&doubtful_page(0xc0))
            .written("flash 5 20 | eeprom 3 30")
            .settled(0),
        both("the other way round")
            .add("20 E end > ends . | 30 L off")
            .flash_is(&CUT_A5)
            .eeprom_is(&B55)
            .written("flash 5 30 | eeprom 3 20")
            .settled(0),
    ]
}

/// Every width of a stamp, and 0, which only the mark tells from never.
fn stamps() -> Vec<Fixed> {
    let wide = [255, 256, 65_535, 65_536, 16_777_215, 16_777_216, 305_419_896, 2_147_483_648, 4_294_967_295_u32];
    let mut each = erased("stamps of every width");
    for (page, end) in wide.iter().enumerate() {
        let sent = format!("a0 {:02x} {:02x} ff", page / 4, page % 4 * 64);
        each = each.write(end - 1, &sent, "starts .").eeprom_end(*end).written(&format!("eeprom {} {}", page, end));
    }
    vec![
        each.settled(0),
        erased("stamp 0")
            .add("0 F sel | 0 F x 06 ff | 0 F des | 0 F sel | 0 F x 62 ff | 0 F des > starts . | 0 F end > ends .")
            .add("0 E sta | 0 E b a0 0 > ack = | 0 E b 00 0 > ack = | 0 E b c0 0 > ack = | 0 E b ff 0 > ack =")
            .add("0 E sto > starts . | 0 E end > ends .")
            .written("flash all 0 | eeprom 3 0")
            .settled(0),
        program(erased("the last stamp, an end"), 4_294_967_290, "00 05 07 a5")
            .end(4_294_967_295)
            .flash_is(&A5)
            .written("flash 5 4294967295")
            .settled(0),
        program(erased("the last stamp, an off"), 4_294_967_290, "00 05 07 a5")
            .write(4_294_967_292, "a0 00 c7 55", "starts .")
            .add("4294967295 L off")
            .flash_is(&CUT_A5)
            .eeprom_is(&doubtful_page(0xc0))
            .written("flash 5 4294967295 | eeprom 3 4294967295")
            .settled(0),
    ]
}

/// More than one cycle ended or cut at a stamp.
fn one_stamp() -> Vec<Fixed> {
    let ended = |name: &str, records: &str| {
        both(name).add(records).flash_is(&A5).eeprom_is(&B55).written("flash 5 30 | eeprom 3 30").settled(0)
    };
    vec![
        ended("both end at one stamp", "30 F end > ends . | 30 E end > ends ."),
        ended("both end at one stamp, the EEPROM first in the file", "30 E end > ends . | 30 F end > ends ."),
        ended("both end at one stamp with the lock", "30 L lock | 30 F end > ends . | 30 L free | 30 E end > ends ."),
        started("a program ends, and a chip erase starts and ends")
            .add("30 F end > ends . | 30 F sel | 30 F x 06 ff | 30 F des")
            .add("30 F sel | 30 F x 62 ff | 30 F des > starts . | 30 F end > ends .")
            .written("flash all 30")
            .settled(0),
        erased("a page write starts and ends at one stamp")
            .add("30 E sta | 30 E b a0 0 > ack = | 30 E b 00 0 > ack = | 30 E b c7 0 > ack = | 30 E b 55 0 > ack =")
            .add("30 E sto > starts . | 30 E end > ends .")
            .eeprom_is(&B55)
            .written("eeprom 3 30")
            .settled(0),
        writing("a write ends and another page's starts at one stamp")
            .add("30 E end > ends . | 30 E sta | 30 E b a0 0 > ack = | 30 E b 01 0 > ack = | 30 E b 00 0 > ack =")
            .add("30 E b 66 0 > ack = | 30 E sto > starts . | 40 L off")
            .eeprom_is(&B55)
            .eeprom_is(&doubtful_page(0x100))
            .written("eeprom 3 30 | eeprom 4 40")
            .settled(0),
    ]
}

/// Page 5 written at 20, the EEPROM's page 3 at 30.
fn wrote_both(name: &str) -> Script {
    programmed(name).write(25, "a0 00 c7 55", "starts .").eeprom_end(30).eeprom_is(&B55).written("eeprom 3 30")
}

/// What was written before a stop stands; nothing of its stamp, and nothing after it.
fn stops() -> Vec<Fixed> {
    let after = "60 F sel | 60 F x 06 ff | 60 F des | 61 F sel | 61 F x 62 ff | 61 F des | 62 F end";
    let in_status_write = |name: &str| wrote_both(name).wren(40).frame(41, "01 0c", "starts .");
    vec![
        wrote_both("writes before a crowd").add("50 L on | 50 L on | 50 L on").add(after).stops(6, 50, 0, 18),
        wrote_both("writes before orders that differ")
            .add("50 F sel | 50 L off | 50 L on | 51 F des")
            .add(after)
            .stops(7, 50, 0, 18),
        in_status_write("writes before a lost status").add("50 L off").add(after).stops(8, 50, 0, 25),
        in_status_write("off loses the status: the EEPROM's page is not cut in it")
            .write(45, "a0 01 00 66", "starts .")
            .add("50 L off")
            .stops(8, 50, 0, 31),
        erased("a stop with nothing written").add("50 L on | 50 L on | 50 L on").stops(6, 50, 0, 0),
    ]
}

/// The stop is at the very stamp of the `end`, or of the `off`, that would have written.
fn stops_at_the_end() -> Vec<Fixed> {
    let both_again = |name: &str| program(wrote_both(name), 40, "00 05 09 3c").write(45, "a0 00 c8 66", "starts .");
    let crowd = ["50 E end"; 9].join("|");
    vec![
        both_again("a crowd at the ends").add("50 F end").add(&crowd).stops(6, 50, 0, 34),
        both_again("an end and off").add("50 F end | 50 L off").stops(7, 50, 0, 34),
        both_again("the EEPROM's end and off").add("50 E end | 50 L off").stops(7, 50, 0, 34),
        both_again("both ends, with a status byte and off")
            .add("46 F sel | 47 F x 05 ff | 50 F end | 50 F x 00 ff | 50 E end | 50 L off")
            .stops(7, 50, 0, 36),
        both_again("the flash's end, where the EEPROM's orders differ")
            .add("46 E sta | 50 F end | 50 E end | 50 E b a0 0 | 50 L off")
            .stops(7, 50, 0, 35),
        both_again("off, where another order differs").add("49 E sta | 50 E b a0 1 | 50 L off").stops(7, 50, 0, 35),
        // Cut at 10 or at 20, and the same in all else at the end: what differs by 10 stops there.
        erased("a whole page write with off and on, cut by a later off else")
            .add("10 E sta | 10 E b a0 0 | 10 E b 00 0 | 10 E b c7 0 | 10 E b 55 0 | 10 E sto | 10 L off | 10 L on | 20 L off")
            .stops(7, 10, 0, 0),
    ]
}

/// A refused text leaves the table, whatever its good lines would write.
fn refusals() -> Vec<Fixed> {
    vec![
        wrote_both("a line of wrong form below writes").add("40 F sle").refused([3, 20, 3]),
        wrote_both("a falling stamp below writes").add("29 L on").refused([4, 20, 0]),
        wrote_both("an impossible record below writes").add("40 F des").refused([5, 20, 0]),
        wrote_both("a wrong line below a stop").add("40 L on | 40 L on | 40 L on | 50 F sle").refused([3, 23, 3]),
    ]
}

/// The table's bytes, by their places: flash page 1, the EEPROM's pages 0 and 511.
fn layout() -> Fixed {
    let mut case = program(erased("the table byte for byte"), 10, "00 01 00 ff")
        .end(0x1234_5678)
        .write(0x1234_5679, "a0 00 00 ff", "starts .")
        .eeprom_end(0x89ab_cdef)
        .write(0xfffe_fdfb, "a0 7f c0 ff", "starts .")
        .eeprom_end(0xfffe_fdfc)
        .settled(0);
    case.after.times[5..10].copy_from_slice(&[1, 0x78, 0x56, 0x34, 0x12]);
    case.after.times[640..645].copy_from_slice(&[1, 0xef, 0xcd, 0xab, 0x89]);
    case.after.times[3195..3200].copy_from_slice(&[1, 0xfc, 0xfd, 0xfe, 0xff]);
    case
}

/// Each page programmed from its last place on, so that the second byte rolls, with a stamp of its own.
fn every_flash_page() -> Fixed {
    let mut script = erased("every page of the watched sector");
    for page in 0..128 {
        let end = 10 * page as u32 + 5;
        script = program(script, end - 5, &format!("00 {:02x} ff 11 22", page))
            .end(end)
            .flash_is(&[(256 * page + 255, 0x11, 0), (256 * page, 0x22, 0)])
            .written(&format!("flash {} {}", page, end));
    }
    script.settled(0)
}

fn every_eeprom_page() -> Fixed {
    let mut script = erased("every page of the EEPROM");
    for page in 0..512 {
        let place = 64 * page + 63;
        let end = 2 * page as u32 + 1;
        script = script
            .write(end - 1, &format!("a0 {:02x} {:02x} 11 22", place / 256, place % 256), "starts .")
            .eeprom_end(end)
            .eeprom_is(&[(place, 0x11, 0), (place - 63, 0x22, 0)])
            .written(&format!("eeprom {} {}", page, end));
    }
    script.settled(0)
}
