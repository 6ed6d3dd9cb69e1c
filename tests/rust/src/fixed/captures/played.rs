//! What playing a capture leaves of the images and masks: the merged records in the order written, whatever the replay of the
//! merged text says of it.

use super::sketch::{sketch, FixedCapture, Sketch};
use crate::fixed::script::{doubtful_page, everywhere, Start};

pub fn cases() -> Vec<FixedCapture> {
    let mut cases = Vec::new();
    cases.extend(flash_cycles());
    cases.extend(eeprom_cycles());
    cases.extend(no_cycles());
    cases.extend(where_a_replay_stops());
    cases
}

/// WREN and a PROGRAM of a5 at 00005, each at a stamp of its own.
fn program(name: &str) -> Sketch {
    sketch(name).lines("10 10001 11").frame(11, "06").frame(12, "02 00 00 05 a5")
}

const PROGRAM: &str =
    "11 F sel | 11 F x 06 f9 | 11 F des | 12 F sel | 12 F x 02 fd | 12 F x 00 ff | 12 F x 00 ff | 12 F x 05 fa \
                       | 12 F x a5 5a | 12 F des";

fn flash_cycles() -> Vec<FixedCapture> {
    let behind = |records: &str| format!("{} | {}", PROGRAM, records);
    vec![
        program("a PROGRAM that ends").logger("board 00 1 0 | 20 F end").merges(&behind("20 F end")).flash_is(&[(5, 0xa5, 0x00)]),
        program("a PROGRAM on doubtful bits that ends")
            .starting(Start::Half)
            .logger("board 00 1 0 | 20 F end")
            .merges(&behind("20 F end"))
            .flash_is(&[(5, 0x05, 0xa0)]),
        program("a PROGRAM that does not end").merges(PROGRAM),
        program("a PROGRAM cut by `off`")
            .logger("board 00 1 0 | 20 L off | 21 F end")
            .merges(&behind("20 L off | 21 F end"))
            .flash_is(&[(5, 0xa5, 0x5a)]),
        program("a PROGRAM outside the watched sector").logger("board 00 2 0 | 20 F end").merges(&behind("20 F end")),
        program("a PROGRAM in a locked sector").logger("board 0c 1 0 | 20 F end").merges(&behind("20 F end")),
        program("an `end` before the PROGRAM").logger("board 00 1 0 | 9 F end").merges(&format!("9 F end | {}", PROGRAM)),
        sketch("a sector erase that ends, and a page programmed behind it")
            .starting(Start::Doubtful)
            .logger("board 00 3 0 | 20 F end | 40 F end")
            .lines("10 10001 11")
            .frame(11, "06")
            .frame(12, "52 01 12 34")
            .frame(31, "0e")
            .frame(32, "0a 01 00 ff 11 22")
            .merges(
                "11 F sel | 11 F x 06 f9 | 11 F des | 12 F sel | 12 F x 52 ad | 12 F x 01 fe | 12 F x 12 ed | 12 F x 34 cb \
                 | 12 F des | 20 F end | 31 F sel | 31 F x 0e f1 | 31 F des | 32 F sel | 32 F x 0a f5 | 32 F x 01 fe \
                 | 32 F x 00 ff | 32 F x ff 00 | 32 F x 11 ee | 32 F x 22 dd | 32 F des | 40 F end",
            )
            .flash_is(&everywhere(0xff, 0x00))
            .flash_is(&[(0xff, 0x11, 0x00), (0x00, 0x22, 0x00)]),
        sketch("a chip erase cut by `off`")
            .logger("board 00 4 0 | 20 L off")
            .lines("10 10001 11")
            .frame(11, "06")
            .frame(12, "62")
            .merges("11 F sel | 11 F x 06 f9 | 11 F des | 12 F sel | 12 F x 62 9d | 12 F des | 20 L off")
            .flash_is(&everywhere(0x00, 0xff)),
    ]
}

/// Two bytes for 003f and 0000 of a chip wired to address 5.
fn page_write(name: &str) -> Sketch {
    sketch(name).lines("10 10001 11").eeprom_frame(11, "aa 00 3f 77 88")
}

const PAGE_WRITE: &str = "11 E sta | 11 E b aa 0 | 11 E b 00 0 | 11 E b 3f 0 | 11 E b 77 0 | 11 E b 88 0 | 11 E sto";

fn eeprom_cycles() -> Vec<FixedCapture> {
    let behind = |records: &str| format!("{} | {}", PAGE_WRITE, records);
    vec![
        page_write("a page write that ends")
            .logger("board 00 1 5 | 20 E end")
            .merges(&behind("20 E end"))
            .eeprom_is(&[(0x3f, 0x77, 0x00), (0x00, 0x88, 0x00)]),
        page_write("a page write that ends, on doubt")
            .starting(Start::Doubtful)
            .logger("board 00 1 5 | 20 E end | 21 L off")
            .merges(&behind("20 E end | 21 L off"))
            .eeprom_is(&[(0x3f, 0x77, 0x00), (0x00, 0x88, 0x00)]),
        page_write("a page write cut by `off`")
            .starting(Start::Counting)
            .logger("board 00 1 5 | 20 L off | 30 E end")
            .merges(&behind("20 L off | 30 E end"))
            .eeprom_is(&doubtful_page(0)),
        page_write("a page write to another address").logger("board 00 1 4 | 20 E end").merges(&behind("20 E end")),
        page_write("a page write with the lock on")
            .logger("board 00 1 5 | 9 L lock | 20 E end")
            .merges(&format!("9 L lock | {} | 20 E end", PAGE_WRITE)),
        page_write("a page write with the lock on before and after")
            .logger("board 00 1 5 | 8 L lock | 9 L free | 12 L lock | 20 E end")
            .merges(&format!("8 L lock | 9 L free | {} | 12 L lock | 20 E end", PAGE_WRITE))
            .eeprom_is(&[(0x3f, 0x77, 0x00), (0x00, 0x88, 0x00)]),
        page_write("a page write with the supply off")
            .logger("board 00 1 5 | 9 L off | 20 E end")
            .merges(&format!("9 L off | {} | 20 E end", PAGE_WRITE)),
        page_write("both chips, both ends at one stamp")
            .frame(12, "06")
            .frame(13, "02 00 00 00 0f")
            .logger("board 00 1 5 | 20 E end | 20 F end")
            .merges(&behind(
                "12 F sel | 12 F x 06 f9 | 12 F des | 13 F sel | 13 F x 02 fd | 13 F x 00 ff | 13 F x 00 ff | 13 F x 00 ff \
                 | 13 F x 0f f0 | 13 F des | 20 F end | 20 E end",
            ))
            .flash_is(&[(0, 0x0f, 0x00)])
            .eeprom_is(&[(0x3f, 0x77, 0x00), (0x00, 0x88, 0x00)]),
    ]
}

/// Frames that are void, or too long, or dropped.
fn no_cycles() -> Vec<FixedCapture> {
    vec![
        sketch("a PROGRAM with a part of a byte behind it")
            .logger("board 00 1 0 | 20 F end")
            .lines("10 10001 11")
            .frame(11, "06")
            .lines("12 00001 11")
            .bytes(12, "02 00 00 05 a5")
            .clocks(12, "111")
            .lines("13 10001 11")
            .merges(
                "11 F sel | 11 F x 06 f9 | 11 F des | 12 F sel | 12 F x 02 fd | 12 F x 00 ff | 12 F x 00 ff | 12 F x 05 fa \
                 | 12 F x a5 5a | 13 F cut | 13 F des | 20 F end",
            ),
        sketch("a PROGRAM that HOLD parts, with clocks in the pause")
            .logger("board 00 1 0 | 20 F end")
            .lines("10 10001 11")
            .frame(11, "06")
            .lines("12 00001 11")
            .bytes(12, "02 00 00 05")
            .clocks(12, "1010")
            .lines("13 00000 11")
            .clocks(13, "11111")
            .lines("13 00001 11")
            .clocks(14, "0101")
            .lines("15 10001 11")
            .merges(
                "11 F sel | 11 F x 06 f9 | 11 F des | 12 F sel | 12 F x 02 fd | 12 F x 00 ff | 12 F x 00 ff | 12 F x 05 fa \
                 | 14 F x a5 5a | 15 F des | 20 F end",
            )
            .flash_is(&[(5, 0xa5, 0x00)]),
        sketch("a PROGRAM whose frame is still open at the end")
            .logger("board 00 1 0 | 20 F end")
            .lines("10 10001 11")
            .frame(11, "06")
            .lines("12 00001 11")
            .bytes(12, "02 00 00 05 a5")
            .merges(
                "11 F sel | 11 F x 06 f9 | 11 F des | 12 F sel | 12 F x 02 fd | 12 F x 00 ff | 12 F x 00 ff | 12 F x 05 fa \
                 | 12 F x a5 5a | 20 F end",
            ),
        sketch("a page write with a part of a byte before its stop")
            .logger("board 00 1 0 | 20 E end")
            .lines("10 10001 11")
            .start(11)
            .sends(11, "a0 00 10 5a")
            .bits(11, "0000 0000")
            .stop(12)
            .merges("11 E sta | 11 E b a0 0 | 11 E b 00 0 | 11 E b 10 0 | 11 E b 5a 0 | 12 E cut | 12 E sto | 20 E end"),
        sketch("a page write dropped by a start, and one that ends")
            .logger("board 00 1 0 | 20 E end")
            .lines("10 10001 11")
            .start(11)
            .sends(11, "a0 00 10 5a")
            .start_again(12)
            .sends(12, "a0 7f ff 01")
            .stop(13)
            .merges(
                "11 E sta | 11 E b a0 0 | 11 E b 00 0 | 11 E b 10 0 | 11 E b 5a 0 | 12 E sta | 12 E b a0 0 | 12 E b 7f 0 \
                 | 12 E b ff 0 | 12 E b 01 0 | 13 E sto | 20 E end",
            )
            .eeprom_is(&[(0x7fff, 0x01, 0x00)]),
    ]
}

/// The replay of these merged texts stops: with 6, 7 and 8. The second engine plays on.
fn where_a_replay_stops() -> Vec<FixedCapture> {
    vec![
        // The order written is F, E, L, so the cycles end before the supply falls.
        program("`off` and `end` at one stamp, `off` first at the logger")
            .eeprom_frame(13, "a0 00 02 33")
            .logger("board 00 1 0 | 20 L off | 20 F end | 20 E end")
            .merges(&format!(
                "{} | 13 E sta | 13 E b a0 0 | 13 E b 00 0 | 13 E b 02 0 | 13 E b 33 0 | 13 E sto | 20 F end | 20 E end | 20 L off",
                PROGRAM
            ))
            .flash_is(&[(5, 0xa5, 0x00)])
            .eeprom_is(&[(2, 0x33, 0x00)]),
        sketch("a whole session at one stamp")
            .logger("board 00 1 0 | 12 F end | 12 E end | 12 L off | 12 L on | 12 L lock")
            .lines("10 10001 11")
            .eeprom_frame(11, "a0 00 02 33")
            .frame(11, "06")
            .frame(11, "02 00 00 05 a5")
            .merges(
                "11 F sel | 11 F x 06 f9 | 11 F des | 11 F sel | 11 F x 02 fd | 11 F x 00 ff | 11 F x 00 ff | 11 F x 05 fa \
                 | 11 F x a5 5a | 11 F des | 11 E sta | 11 E b a0 0 | 11 E b 00 0 | 11 E b 02 0 | 11 E b 33 0 | 11 E sto \
                 | 12 F end | 12 E end | 12 L off | 12 L on | 12 L lock",
            )
            .flash_is(&[(5, 0xa5, 0x00)])
            .eeprom_is(&[(2, 0x33, 0x00)]),
        // A lost status stays lost, and nothing starts a flash cycle any more; the EEPROM goes on.
        sketch("the status lost, then a PROGRAM and a page write")
            .logger("board 00 1 0 | 20 L off | 21 L on | 40 F end | 41 E end")
            .lines("10 10001 11")
            .frame(11, "06")
            .frame(12, "01 00")
            .frame(31, "06")
            .frame(32, "02 00 00 05 a5")
            .eeprom_frame(33, "a0 00 02 33")
            .merges(
                "11 F sel | 11 F x 06 f9 | 11 F des | 12 F sel | 12 F x 01 fe | 12 F x 00 ff | 12 F des | 20 L off | 21 L on \
                 | 31 F sel | 31 F x 06 f9 | 31 F des | 32 F sel | 32 F x 02 fd | 32 F x 00 ff | 32 F x 00 ff | 32 F x 05 fa \
                 | 32 F x a5 5a | 32 F des | 33 E sta | 33 E b a0 0 | 33 E b 00 0 | 33 E b 02 0 | 33 E b 33 0 | 33 E sto \
                 | 40 F end | 41 E end",
            )
            .eeprom_is(&[(2, 0x33, 0x00)]),
    ]
}
