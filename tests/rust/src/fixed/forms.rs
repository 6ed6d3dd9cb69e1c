//! The form of a text: refusals 3, 4 and 5 with their lines, and 3 with its field.

use super::script::{refused, script, Start};
use super::Fixed;

pub fn cases() -> Vec<Fixed> {
    let mut cases = Vec::new();
    cases.extend(whole_texts());
    cases.extend(BOARD_LINES.iter().map(|&(line, field)| first_line(line, field)));
    cases.extend(WRONG_LINES.iter().map(|&(line, field)| second_line(line, 3, field)));
    cases.extend(IMPOSSIBLE.iter().map(|line| second_line(line, 5, 0)));
    cases.extend(later_lines());
    cases.extend(good_texts());
    cases
}

fn whole_texts() -> Vec<Fixed> {
    vec![
        refused("no text", b"", [3, 1, 1]),
        refused("one line end", b"\n", [3, 1, 1]),
        refused("a record where the board should be", b"10\tF\tsel\n", [3, 1, 1]),
        refused("board line without its line end", b"board\t00\t1\t0", [3, 1, 5]),
        refused("record without its line end", b"board\t00\t1\t0\n10\tF\tsel", [3, 2, 4]),
        refused("last record without its line end", b"board\t00\t1\t0\n10\tF\tsel\n10\tF\tdes", [3, 3, 4]),
        refused("only a stamp, no line end", b"board\t00\t1\t0\n1", [3, 2, 2]),
        refused("empty line at the end", b"board\t00\t1\t0\n10\tF\tsel\n\n", [3, 3, 1]),
        refused("empty line after the board", b"board\t00\t1\t0\n\n10\tF\tsel\n", [3, 2, 1]),
        refused("carriage returns", b"board\t00\t1\t0\r\n10\tF\tsel\r\n", [3, 1, 4]),
    ]
}

/// Line 1 in each wrong form, and its first bad field.
const BOARD_LINES: [(&str, u32); 29] = [
    ("board\t01\t1\t0\n", 2),
    ("board\t02\t1\t0\n", 2),
    ("board\t10\t1\t0\n", 2),
    ("board\t20\t1\t0\n", 2),
    ("board\t40\t1\t0\n", 2),
    ("board\tff\t1\t0\n", 2),
    ("board\t8C\t1\t0\n", 2),
    ("board\t0\t1\t0\n", 2),
    ("board\t000\t1\t0\n", 2),
    ("board\t\t1\t0\n", 2),
    ("board\t00\t0\t0\n", 3),
    ("board\t00\t5\t0\n", 3),
    ("board\t00\t01\t0\n", 3),
    ("board\t00\t\t0\n", 3),
    ("board\t00\t14\t0\n", 3),
    ("board\t00\t1\t8\n", 4),
    ("board\t00\t1\t00\n", 4),
    ("board\t00\t1\t\n", 4),
    ("board\t00\t1\t-1\n", 4),
    ("board\t00\t1\t+0\n", 4),
    ("board\t00\t1\n", 4),
    ("board\t00\t1\t0\t\n", 5),
    ("board\t00\t1\t0\t0\n", 5),
    ("board 00\t1\t0\n", 1),
    ("board\t\t00\t1\t0\n", 2),
    (" board\t00\t1\t0\n", 1),
    ("Board\t00\t1\t0\n", 1),
    ("board\t00\t1\t0 \n", 4),
    ("0\tboard\t00\t1\t0\n", 1),
];

/// Line 2 of a trace in each wrong form, and its first bad field.
const WRONG_LINES: [(&str, u32); 75] = [
    ("", 1),
    ("\t", 1),
    ("10", 2),
    ("10\t", 2),
    ("10\tF", 3),
    ("10\tF\t", 3),
    ("\tF\tsel", 1),
    ("10\t\tF\tsel", 2),
    ("10\tF\t\tsel", 3),
    ("10\tF\tsel\t", 4),
    ("10\tF\tsel\t00", 4),
    ("10 F\tsel", 1),
    ("10\tF sel", 2),
    ("10\tFsel", 2),
    (" 10\tF\tsel", 1),
    ("10 \tF\tsel", 1),
    ("10\tF\tsel ", 3),
    ("10\tF\tsel\r", 3),
    ("\t10\tF\tsel", 1),
    ("010\tF\tsel", 1),
    ("00\tF\tsel", 1),
    ("+10\tF\tsel", 1),
    ("-10\tF\tsel", 1),
    ("a\tF\tsel", 1),
    ("1a\tF\tsel", 1),
    ("0x1\tF\tsel", 1),
    ("4294967296\tF\tsel", 1),
    ("4294967300\tF\tsel", 1),
    ("9999999999\tF\tsel", 1),
    ("10000000000\tF\tsel", 1),
    ("18446744073709551626\tF\tsel", 1),
    ("10000000000000000010\tF\tsel", 1),
    ("00000000000000000010\tF\tsel", 1),
    ("10\tf\tsel", 2),
    ("10\tG\tsel", 2),
    ("10\tFF\tsel", 2),
    ("10\tF\tSEL", 3),
    ("10\tF\tse", 3),
    ("10\tF\tsell", 3),
    ("10\tF\tsta", 3),
    ("10\tF\tb\t00\t0", 3),
    ("10\tF\tsto", 3),
    ("10\tF\ton", 3),
    ("10\tF\tlock", 3),
    ("10\tE\tsel", 3),
    ("10\tE\tx\t00\t00", 3),
    ("10\tE\tdes", 3),
    ("10\tE\tfree", 3),
    ("10\tL\tend", 3),
    ("10\tL\tcut", 3),
    ("10\tL\tsel", 3),
    ("10\tL\tsta", 3),
    ("10\tL\ton\t", 4),
    ("10\tL\tON", 3),
    ("10\tL\toff\t0", 4),
    ("10\tF\tx", 4),
    ("10\tF\tx\t00", 5),
    ("10\tF\tx\t00\t00\t00", 6),
    ("10\tF\tx\t0\t00", 4),
    ("10\tF\tx\t00\t0", 5),
    ("10\tF\tx\t000\t00", 4),
    ("10\tF\tx\t0F\t00", 4),
    ("10\tF\tx\t00\tF0", 5),
    ("10\tF\tx\t0g\t00", 4),
    ("10\tF\tx\t00 00", 4),
    ("10\tF\tcut\t3", 4),
    ("10\tE\tcut\t3", 4),
    ("10\tE\tb\t00", 5),
    ("10\tE\tb\t00\t2", 5),
    ("10\tE\tb\t00\t00", 5),
    ("10\tE\tb\t00\t", 5),
    ("10\tE\tb\tA0\t0", 4),
    ("10\tE\tsta\ta0", 4),
    ("10\tF\tsel\u{0}", 3),
    ("10\tF\ts\u{e9}l", 3),
];

/// Line 2 as a record that nothing before it makes possible.
const IMPOSSIBLE: [&str; 6] = ["10\tF\tx\t05\tff", "10\tF\tcut", "10\tF\tdes", "10\tE\tb\ta0\t0", "10\tE\tcut", "10\tE\tsto"];

fn first_line(line: &str, field: u32) -> Fixed {
    refused(&format!("board line {:?}", line), line.as_bytes(), [3, 1, field])
}

fn second_line(line: &str, number: u32, field: u32) -> Fixed {
    let text = format!("board\t00\t1\t0\n{}\n", line);
    refused(&format!("line {:?}", line), text.as_bytes(), [number, 2, field])
}

/// Records, with blanks for tabs, below a good board line.
fn below(name: &str, records: &str, told: [u32; 3]) -> Fixed {
    let records: Vec<String> = records.split('|').map(|record| record.trim().replace(' ', "\t")).collect();
    let text = format!("board\t00\t1\t0\n{}\n", records.join("\n"));
    refused(name, text.as_bytes(), told)
}

fn later_lines() -> Vec<Fixed> {
    vec![
        below("a falling stamp", "10 L on | 9 L on", [4, 3, 0]),
        below("a stamp that falls to 0", "4294967295 L on | 0 L on", [4, 3, 0]),
        below("a stamp shorter but higher", "9 L on | 10 L on | 8 L on", [4, 4, 0]),
        below("falling across channels", "10 F sel | 5 E sta", [4, 3, 0]),
        below("wrong form before falling stamp", "10 L on | 9 L onn", [3, 3, 3]),
        below("wrong form before impossible", "10 F sel | 10 F sel 00", [3, 3, 4]),
        below("falling stamp before impossible", "10 F sel | 9 F sel", [4, 3, 0]),
        below("impossible line before a wrong one", "10 F des | 10 F what", [5, 2, 0]),
        below("falling line before a wrong one", "10 F sel | 9 F des | nothing", [4, 3, 0]),
        below("wrong line before a falling one", "10 F sel | nothing | 9 F des", [3, 3, 1]),
        below("selected twice", "10 F sel | 20 F sel", [5, 3, 0]),
        below("deselected twice", "10 F sel | 20 F des | 30 F des", [5, 4, 0]),
        below("byte after deselection", "10 F sel | 20 F des | 30 F x 05 ff", [5, 4, 0]),
        below("cut after deselection", "10 F sel | 20 F des | 30 F cut", [5, 4, 0]),
        below("byte after a cut", "10 F sel | 20 F cut | 30 F x 05 ff", [5, 4, 0]),
        below("cut after a cut", "10 F sel | 20 F cut | 30 F cut", [5, 4, 0]),
        below("sel after a cut", "10 F sel | 20 F cut | 30 F sel", [5, 4, 0]),
        below("byte after a cut and an end", "10 F sel | 20 F cut | 30 F end | 40 F x 05 ff", [5, 5, 0]),
        below("stopped twice", "10 E sta | 20 E sto | 30 E sto", [5, 4, 0]),
        below("EEPROM byte after sto", "10 E sta | 20 E sto | 30 E b a0 0", [5, 4, 0]),
        below("EEPROM cut after sto", "10 E sta | 20 E sto | 30 E cut", [5, 4, 0]),
        below("EEPROM byte after a cut", "10 E sta | 20 E cut | 30 E b a0 0", [5, 4, 0]),
        below("EEPROM cut after a cut", "10 E sta | 20 E cut | 30 E cut", [5, 4, 0]),
        below("EEPROM byte after cut and sto", "10 E sta | 20 E cut | 30 E sto | 40 E b a0 0", [5, 5, 0]),
        below("the other bus does not help", "10 E sta | 20 F x 05 ff", [5, 3, 0]),
        below("the other bus does not help either", "10 F sel | 20 E b a0 0", [5, 3, 0]),
        below("impossible with the supply off", "10 L off | 20 F x 05 ff", [5, 3, 0]),
        below("selected twice with the supply off", "10 L off | 20 F sel | 30 F sel", [5, 4, 0]),
        below("off does not deselect", "10 F sel | 20 L off | 30 L on | 40 F sel", [5, 5, 0]),
        below("the whole text is read before anything is played", "10 F end | 20 L off | 30 L on | 40 F des", [5, 5, 0]),
    ]
}

fn good_texts() -> Vec<Fixed> {
    vec![
        script("only a board line", Start::Counting, "board 00 1 0").settled(0),
        script("every status bit that may be set", Start::Counting, "board 8c 4 7").rdsr(5, "8c").settled(0),
        script("the first stamp is 0", Start::Counting, "board 00 1 0").add("0 L on | 0 L on | 1 L on").settled(0),
        script("the last stamp there is", Start::Counting, "board 00 1 0").add("4294967295 L on | 4294967295 L on").settled(0),
        script("cut, end, des", Start::Counting, "board 00 1 0")
            .add("10 F sel | 20 F cut | 30 F end > idle . | 40 F des | 50 F sel | 60 F des")
            .settled(0),
        script("cut, end, sta and cut, sto", Start::Counting, "board 00 1 0")
            .add("10 E sta | 20 E cut | 30 E end > idle . | 40 E sta | 50 E sta | 60 E b a0 0 > ack = | 70 E cut | 80 E sto")
            .settled(0),
        script("a bus goes on with the supply off", Start::Counting, "board 00 1 0")
            .add("10 L off | 20 F sel | 30 F x 05 ff | 40 F end > idle . | 50 F des | 60 E sta | 70 E b a0 1 | 80 E end > idle .")
            .add("90 E sto")
            .settled(0),
    ]
}
