//! The flash by itself.

use super::script::{everywhere, script, Script, Start};
use super::Fixed;

pub fn cases() -> Vec<Fixed> {
    let mut cases = Vec::new();
    cases.extend(op_codes());
    cases.extend(status());
    cases.extend(reads());
    cases.extend(in_cycles());
    cases.extend(write_status());
    cases.extend(nothing_starts());
    cases.extend(erases());
    cases.extend(programs());
    cases.extend(supply());
    cases
}

fn flash(name: &str, start: Start, board: &str) -> Script {
    script(&format!("flash: {}", name), start, board)
}

fn op_codes() -> Vec<Fixed> {
    vec![
        flash("the don't-care bit", Start::Erased, "board 00 1 0")
            .frame(10, "0e", "- .")
            .add("20 F sel | 20 F x 0d ff | 20 F x 00 02 > 02/00 = | 20 F des")
            .frame(30, "0a 00 00 07 81", "starts .")
            .end(40)
            .add("50 F sel | 50 F x 0b ff | 50 F x 00 ff | 50 F x 00 ff | 50 F x 07 ff | 50 F x 00 81 > 81/00 = | 50 F des")
            .frame(60, "0e", "- .")
            .frame(70, "0c", "- .")
            .rdsr(80, "00")
            .frame(90, "06", "- .")
            .frame(100, "09 84", "starts .")
            .end(110)
            .rdsr(120, "84")
            .flash_is(&[(7, 0x81, 0x00)])
            .written("flash 0 40").settled(0),
        flash("identification, then silence", Start::Erased, "board 00 1 0")
            .add("10 F sel | 10 F x 15 ff | 10 F x 00 1f > 1f/00 = | 10 F x 00 60 > 60/00 = | 10 F x 00 1f | 10 F x 00 60 | 10 F des")
            .add("20 F sel | 20 F x 1d ff | 20 F x 00 1e > 1f/00 ! | 20 F x 00 60 > 60/00 = | 20 F des")
            .settled(1),
        flash("the second-rank erase op-codes are none", Start::Counting, "board 00 1 0")
            .wren(10)
            .frame(20, "56 00 00 00", "- .")
            .frame(30, "5e 00 00 00", "- .")
            .frame(40, "66", "- .")
            .frame(50, "6e", "- .")
            .rdsr(60, "02")
            .settled(0),
        flash("an unknown op-code is silent to the end of its frame", Start::Counting, "board 00 1 0")
            .frame(10, "85 05 05 00", "- .")
            .frame(20, "25 00", "- .")
            .frame(30, "00", "- .")
            .frame(40, "ff 03 00 00", "- .")
            .settled(0),
        flash("an empty frame", Start::Counting, "board 00 1 0").add("10 F sel | 20 F des | 30 F end > idle .").settled(0),
    ]
}

fn status() -> Vec<Fixed> {
    vec![
        flash("write enable on and off", Start::Counting, "board 8c 1 0")
            .rdsr(10, "8c")
            .wren(20)
            .rdsr(30, "8e")
            .frame(40, "04", "- .")
            .rdsr(50, "8c")
            .settled(0),
        flash("WREN and WRDI of two bytes do nothing", Start::Counting, "board 00 1 0")
            .frame(10, "06 00", "- .")
            .rdsr(20, "00")
            .wren(30)
            .frame(40, "04 00", "- .")
            .rdsr(50, "02")
            .settled(0),
        flash("each further status byte afresh", Start::Erased, "board 00 1 0")
            .wren(10)
            .frame(20, "02 00 00 00 00", "starts .")
            .add("30 F sel | 31 F x 05 ff | 32 F x 00 ff > ff/00 = | 33 F x 00 ff > ff/00 = | 34 F end > ends .")
            .add("35 F x 00 00 > 00/00 = | 36 F x 00 02 > 00/00 ! | 37 F des")
            .flash_is(&[(0, 0x00, 0x00)])
            .written("flash 0 34")
            .settled(1),
    ]
}

fn reads() -> Vec<Fixed> {
    vec![
        flash("read runs out of sector 4 over the end", Start::Counting, "board 00 4 0")
            .read(10, "01 ff fe", "88/00 89/00 - -")
            .settled(0),
        flash("read over the end into sector 1", Start::Counting, "board 00 1 0").read(10, "01 ff fe", "- - 00/00 01/00").settled(0),
        flash("read from sector 1 into sector 2", Start::Counting, "board 00 2 0").read(10, "00 7f ff", "- 00/00 01/00").settled(0),
        flash("read from sector 2 into sector 3", Start::Counting, "board 00 2 0").read(10, "00 ff ff", "89/00 -").settled(0),
        flash("doubt is not compared", Start::Doubtful, "board 00 1 0").read(10, "00 00 00", "00/ff 00/ff").settled(0),
        flash("sure bits are compared, doubtful ones are not", Start::Half, "board 00 1 0")
            .add("10 F sel | 10 F x 03 ff | 10 F x 00 ff | 10 F x 00 ff | 10 F x 00 ff | 20 F x 00 05 > 05/f0 = | 20 F x 00 f5 > 05/f0 =")
            .add("20 F x 00 55 > 05/f0 = | 20 F x 00 04 > 05/f0 ! | 20 F x 00 f7 > 05/f0 ! | 20 F des")
            .settled(2),
        flash("a READ without its whole address", Start::Counting, "board 00 1 0").frame(10, "03 00 00", "- .").settled(0),
        flash("what comes in during a READ does not count", Start::Counting, "board 00 1 0")
            .add("10 F sel | 10 F x 03 ff | 10 F x fe ff | 10 F x 00 ff | 10 F x 05 ff | 10 F x ff 05 > 05/00 = | 10 F x 02 06 > 06/00 =")
            .add("20 F x 00 08 > 07/00 ! | 20 F des")
            .settled(1),
    ]
}

fn started_program(name: &str) -> Script {
    flash(name, Start::Erased, "board 00 1 0").wren(10).frame(20, "02 00 00 00 a5", "starts .").flash_is(&[(0, 0xa5, 0x00)])
}

fn in_cycles() -> Vec<Fixed> {
    vec![
        started_program("only RDSR is served in a cycle")
            .frame(30, "03 00 00 00 00", "- .")
            .frame(40, "15 00 00", "- .")
            .wren(50)
            .frame(60, "04", "- .")
            .rdsr(70, "ff")
            .end(80)
            .rdsr(90, "00")
            .written("flash 0 80").settled(0),
        started_program("a frame refused in a cycle stays void past the end")
            .add("30 F sel | 40 F x 03 ff | 50 F end > ends . | 60 F x 00 ff | 60 F x 00 ff | 60 F x 00 ff | 60 F x 00 ff | 70 F des")
            .written("flash 0 50").settled(0),
        started_program("an end before the op-code gives full service")
            .add("30 F sel | 40 F end > ends . | 50 F x 03 ff | 50 F x 00 ff | 50 F x 00 ff | 50 F x 00 ff | 50 F x 00 a5 > a5/00 =")
            .add("60 F des")
            .written("flash 0 40").settled(0),
        started_program("WREN after an end in its frame")
            .add("30 F sel | 40 F end > ends . | 50 F x 06 ff | 60 F des")
            .rdsr(70, "02")
            .written("flash 0 40").settled(0),
        started_program("a second end finds no cycle").end(30).add("40 F end > idle .").written("flash 0 30").settled(0),
        flash("a cycle outside the watched sector is a cycle", Start::Counting, "board 00 1 0")
            .wren(10)
            .frame(20, "02 00 80 05 00", "starts .")
            .rdsr(30, "ff")
            .end(40)
            .rdsr(50, "00")
            .wren(60)
            .frame(70, "52 01 00 00", "starts .")
            .add("80 L off | 90 L on")
            .rdsr(100, "00")
            .settled(0),
    ]
}

fn write_status() -> Vec<Fixed> {
    vec![
        flash("WPEN 0 does not ask for the lock, WPEN 1 does", Start::Counting, "board 00 1 0")
            .add("5 L lock")
            .wren(10)
            .frame(20, "01 8c", "starts .")
            .rdsr(30, "ff")
            .end(40)
            .rdsr(50, "8c")
            .wren(60)
            .frame(70, "01 00", "- .")
            .rdsr(80, "8e")
            .settled(0),
        flash("lock on at sel, free again at des", Start::Counting, "board 80 1 0")
            .wren(10)
            .add("20 L lock | 30 F sel | 40 F x 01 ff | 50 L free | 60 F x 00 ff | 70 F des")
            .rdsr(80, "82")
            .settled(0),
        flash("lock on for a while inside the frame", Start::Counting, "board 80 1 0")
            .wren(10)
            .add("30 F sel | 40 L lock | 50 L free | 60 F x 01 ff | 61 F x 00 ff | 70 F des")
            .rdsr(80, "82")
            .settled(0),
        flash("lock on before the frame only", Start::Counting, "board 80 1 0")
            .wren(10)
            .add("20 L lock | 30 L free")
            .frame(40, "01 00", "starts .")
            .add("50 L lock")
            .end(60)
            .rdsr(70, "00")
            .settled(0),
        flash("lock on in another frame only", Start::Counting, "board 80 1 0")
            .add("5 F sel | 6 L lock | 7 F x 06 ff | 8 F des | 9 L free")
            .frame(10, "01 04", "starts .")
            .end(20)
            .rdsr(30, "04")
            .settled(0),
        flash("only bits 7, 3 and 2 are written", Start::Counting, "board 00 1 0")
            .wren(10)
            .frame(20, "01 ff", "starts .")
            .end(30)
            .rdsr(40, "8c")
            .settled(0),
        flash("WRSR of one and of three bytes", Start::Counting, "board 00 1 0")
            .wren(10)
            .frame(20, "01", "- .")
            .frame(30, "01 8c 00", "- .")
            .rdsr(40, "02")
            .settled(0),
        flash("WRSR without write enable", Start::Counting, "board 00 1 0").frame(10, "01 8c", "- .").rdsr(20, "00").settled(0),
        flash("WRSR cut", Start::Counting, "board 00 1 0")
            .wren(10)
            .add("20 F sel | 20 F x 01 ff | 20 F x 8c ff | 20 F cut | 20 F des")
            .rdsr(30, "02")
            .settled(0),
    ]
}

fn nothing_starts() -> Vec<Fixed> {
    vec![
        flash("nothing without write enable", Start::Counting, "board 00 1 0")
            .frame(10, "02 00 00 00 00", "- .")
            .frame(20, "52 00 00 00", "- .")
            .frame(30, "62", "- .")
            .add("40 F end > idle .")
            .settled(0),
        flash("wrong lengths leave write enable", Start::Counting, "board 00 1 0")
            .wren(10)
            .frame(20, "02 00 00 00", "- .")
            .frame(30, "02", "- .")
            .frame(40, "52 00 00", "- .")
            .frame(50, "52 00 00 00 00", "- .")
            .frame(60, "62 00", "- .")
            .rdsr(70, "02")
            .settled(0),
        flash("locked out leaves write enable", Start::Counting, "board 0c 1 0")
            .wren(10)
            .frame(20, "02 00 00 00 00", "- .")
            .frame(30, "52 00 00 00", "- .")
            .frame(40, "62", "- .")
            .rdsr(50, "0e")
            .settled(0),
        flash("status 04 locks sector 4 and no other", Start::Counting, "board 04 3 0")
            .wren(10)
            .frame(20, "52 01 80 00", "- .")
            .frame(30, "02 01 ff ff 00", "- .")
            .frame(40, "02 01 7f ff 00", "starts .")
            .end(50)
            .flash_is(&[(0x7fff, 0x00, 0x00)])
            .written("flash 127 50")
            .settled(0),
        flash("a cut frame starts nothing", Start::Counting, "board 00 1 0")
            .wren(10)
            .add("20 F sel | 20 F x 02 ff | 20 F x 00 ff | 20 F x 00 ff | 20 F x 00 ff | 20 F x 00 ff | 20 F cut | 20 F des")
            .rdsr(30, "02")
            .settled(0),
    ]
}

fn erases() -> Vec<Fixed> {
    vec![
        flash("sector erase anywhere in the sector", Start::Counting, "board 00 2 0")
            .wren(10)
            .frame(20, "52 ff ff ff", "starts .")
            .end(30)
            .wren(40)
            .frame(50, "5a 00 ff ff", "starts .")
            .end(60)
            .rdsr(70, "00")
            .flash_is(&everywhere(0xff, 0x00))
            .written("flash all 60")
            .settled(0),
        flash("sector erase clears doubt", Start::Doubtful, "board 00 1 0")
            .wren(10)
            .frame(20, "52 00 00 00", "starts .")
            .end(30)
            .read(40, "00 12 34", "ff/00")
            .flash_is(&everywhere(0xff, 0x00))
            .written("flash all 30")
            .settled(0),
        flash("sector erase cut", Start::Counting, "board 00 1 0")
            .wren(10)
            .frame(20, "52 00 00 00", "starts .")
            .add("30 L off")
            .flash_is(&everywhere(0x00, 0xff))
            .written("flash all 30")
            .settled(0),
        flash("chip erase passes by a locked sector", Start::Counting, "board 04 4 0")
            .wren(10)
            .frame(20, "62", "starts .")
            .end(30)
            .wren(40)
            .frame(50, "62", "starts .")
            .add("60 L off")
            .settled(0),
        flash("chip erase takes an open sector", Start::Counting, "board 08 2 0")
            .wren(10)
            .frame(20, "62", "starts .")
            .rdsr(25, "ff")
            .end(30)
            .flash_is(&everywhere(0xff, 0x00))
            .written("flash all 30")
            .settled(0),
        flash("chip erase cut in an open sector", Start::Counting, "board 04 3 0")
            .wren(10)
            .frame(20, "6a", "starts .")
            .add("30 L off | 40 L on")
            .rdsr(50, "04")
            .flash_is(&everywhere(0x00, 0xff))
            .written("flash all 30")
            .settled(0),
    ]
}

fn programs() -> Vec<Fixed> {
    vec![
        flash("programming narrows doubt", Start::Doubtful, "board 00 1 0")
            .wren(10)
            .frame(20, "02 00 01 00 0f ff", "starts .")
            .end(30)
            .read(40, "00 01 00", "00/0f 00/ff")
            .flash_is(&[(0x100, 0x00, 0x0f), (0x101, 0x00, 0xff)])
            .written("flash 1 30")
            .settled(0),
        flash("a cut program keeps old doubt", Start::Doubtful, "board 00 1 0")
            .wren(10)
            .frame(20, "02 00 00 00 0f", "starts .")
            .add("30 L off")
            .written("flash 0 30")
            .settled(0),
        flash("a cut program doubts only what it was to change", Start::Counting, "board 00 1 0")
            .wren(10)
            .frame(20, "02 00 00 24 0f", "starts .")
            .add("30 L off")
            .flash_is(&[(0x24, 0x04, 0x20)])
            .written("flash 0 30")
            .settled(0),
        flash("a later byte replaces the earlier before the cells see it", Start::Erased, "board 00 1 0")
            .wren(10)
            .frame(20, &format!("02 00 00 00 0f {} f0", "ff ".repeat(255)), "starts .")
            .end(100)
            .flash_is(&[(0, 0xf0, 0x00)])
            .written("flash 0 100")
            .settled(0),
        flash("a page in the middle of the sector rolls inside", Start::Erased, "board 00 3 0")
            .wren(10)
            .frame(20, "02 01 12 fe 01 02 03 04", "starts .")
            .end(30)
            .flash_is(&[(0x12fe, 1, 0), (0x12ff, 2, 0), (0x1200, 3, 0), (0x1201, 4, 0)])
            .written("flash 18 30")
            .settled(0),
    ]
}

fn supply() -> Vec<Fixed> {
    vec![
        flash("off puts write enable off and voids the frame", Start::Counting, "board 00 1 0")
            .wren(10)
            .add("20 F sel | 20 F x 05 ff | 20 F x 00 02 > 02/00 = | 30 L off | 40 F x 00 02 | 50 L on | 60 F x 00 00 | 70 F des")
            .rdsr(80, "00")
            .settled(0),
        flash("a frame opened without supply stays void", Start::Counting, "board 00 1 0")
            .add("10 L off | 20 F sel | 30 L on | 40 F x 05 ff | 50 F x 00 00 | 60 F des")
            .rdsr(70, "00")
            .settled(0),
        flash("an end without supply finds no cycle", Start::Erased, "board 00 1 0")
            .wren(10)
            .frame(20, "02 00 00 00 0f", "starts .")
            .add("30 L off | 40 F end > idle . | 50 L on | 60 F end > idle .")
            .flash_is(&[(0, 0x0f, 0xf0)])
            .written("flash 0 30")
            .settled(0),
        flash("a second off does nothing, on does nothing to a cycle", Start::Erased, "board 00 1 0")
            .wren(10)
            .frame(20, "02 00 00 00 0f", "starts .")
            .add("30 L on | 40 L free | 50 L lock | 60 L lock")
            .rdsr(70, "ff")
            .end(80)
            .add("90 L off | 91 L off | 92 L on | 93 L on")
            .read(100, "00 00 00", "0f/00")
            .flash_is(&[(0, 0x0f, 0x00)])
            .written("flash 0 80")
            .settled(0),
        flash("a status write that is cut stops the replay", Start::Counting, "board 00 1 0")
            .rdsr(5, "00")
            .wren(10)
            .frame(20, "01 80", "starts .")
            .add("30 L off | 40 L on | 50 F sel")
            .stops(8, 30, 0, 11),
    ]
}
