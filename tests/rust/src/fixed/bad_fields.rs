//! Refusal 3 tells the first bad field (request 2/12), its number written by hand. Where nothing else is said blanks stand for
//! tabs, and a line is given twice: with its LF, and without it at the text's end, which changes no number here.

use super::script::refused;
use super::Fixed;

pub fn cases() -> Vec<Fixed> {
    let mut cases = Vec::new();
    cases.extend(EXAMPLES.iter().map(|&(line, field)| below("a ruled example", &tabbed(line), [3, 2, field])));
    for lines in [FLASH, EEPROM, LINES, EMPTY, NUMBERS, HEX, OTHER_CHANNELS, LETTERS, FIRST_OF_MORE] {
        cases.extend(lines.iter().flat_map(|&(line, field)| second_line(&tabbed(line), field)));
    }
    for lines in [BLANKS, RETURNS] {
        cases.extend(lines.iter().flat_map(|&(line, field)| second_line(line, field)));
    }
    cases.extend(BOARD.iter().flat_map(|&(line, field)| first_line(&tabbed(line), field)));
    cases.push(refused("a bad field: CR behind the board's address", b"board\t00\t1\t0\r\n", [3, 1, 4]));
    cases.extend(LATER.iter().map(|&(lines, told)| below("a later line", &tabbed(lines), told)));
    cases.push(far_below());
    cases.extend(cut_off());
    cases
}

fn tabbed(line: &str) -> String {
    line.replace(' ', "\t")
}

fn below(what: &str, lines: &str, told: [u32; 3]) -> Fixed {
    refused(&format!("a bad field: {} {:?}", what, lines), format!("board\t00\t1\t0\n{}", lines).as_bytes(), told)
}

fn second_line(line: &str, field: u32) -> Vec<Fixed> {
    ["\n", ""].iter().map(|end| below("line 2", &format!("{}{}", line, end), [3, 2, field])).collect()
}

fn first_line(line: &str, field: u32) -> Vec<Fixed> {
    let ended = |end: &str| format!("{}{}", line, end);
    let case = |text: String| refused(&format!("a bad field: board {:?}", text), text.as_bytes(), [3, 1, field]);
    ["\n", ""].iter().map(|end| case(ended(end))).collect()
}

/// A line and the number of its first bad field.
type Bad = (&'static str, u32);

/// Below a board line, as the ruling has them.
const EXAMPLES: [Bad; 8] = [
    ("\n", 1),
    ("10\n", 2),
    ("10 F x 05\n", 5),
    ("10 F sel 7\n", 4),
    ("10 F sel", 4),
    ("10 F se", 3),
    ("010 F sel\n", 1),
    ("10 F x 0", 4),
];

/// Each field of each event bad in turn, then the last ones missing, then one too many.
const FLASH: &[Bad] = &[
    ("1O F sel", 1),
    ("10 f sel", 2),
    ("10 F sle", 3),
    ("10 F", 3),
    ("10 F sel 0", 4),
    ("l0 F x 05 ff", 1),
    ("10 P x 05 ff", 2),
    ("10 F X 05 ff", 3),
    ("10 F x O5 ff", 4),
    ("10 F x 05 tt", 5),
    ("10 F x 05", 5),
    ("10 F x", 4),
    ("10 F x 05 ff 00", 6),
    ("-1 F cut", 1),
    ("10 FE cut", 2),
    ("10 F cur", 3),
    ("10 F cut 7", 4),
    ("10, F des", 1),
    ("10 0 F des", 2),
    ("10 F dse", 3),
    ("10 F des des", 4),
    ("1.0 F end", 1),
    ("10 7 end", 2),
    ("10 F END", 3),
    ("10 F end ff", 4),
];

const EEPROM: &[Bad] = &[
    ("1O E sta", 1),
    ("10 e sta", 2),
    ("10 E sat", 3),
    ("10 E", 3),
    ("10 E sta a0", 4),
    ("l0 E b a0 0", 1),
    ("10 B b a0 0", 2),
    ("10 E d a0 0", 3),
    ("10 E b aO 0", 4),
    ("10 E b a0 O", 5),
    ("10 E b a0", 5),
    ("10 E b", 4),
    ("10 E b a0 0 0", 6),
    ("-1 E cut", 1),
    ("10 EF cut", 2),
    ("10 E cat", 3),
    ("10 E cut 7", 4),
    ("10, E sto", 1),
    ("10 3 sto", 2),
    ("10 E st0", 3),
    ("10 E sto sto", 4),
    ("1.0 E end", 1),
    ("10 end", 2),
    ("10 E End", 3),
    ("10 E end ff", 4),
];

const LINES: &[Bad] = &[
    ("1O L on", 1),
    ("10 l on", 2),
    ("10 L 0n", 3),
    ("10 L", 3),
    ("10 L on on", 4),
    ("l0 L off", 1),
    ("10 I off", 2),
    ("10 L 0ff", 3),
    ("10 L off 0", 4),
    ("-1 L lock", 1),
    ("10 1 lock", 2),
    ("10 L l0ck", 3),
    ("10 L lock 1", 4),
    ("1.0 L free", 1),
    ("10 free", 2),
    ("10 L fere", 3),
    ("10 L free 0", 4),
    ("10", 2),
    ("L on", 1),
];

/// Two tabs in a row, a tab before the first field or behind the last.
const EMPTY: &[Bad] = &[
    (" ", 1),
    ("  ", 1),
    ("10 ", 2),
    ("10  ", 2),
    ("10 F ", 3),
    (" F x 05 ff", 1),
    ("10  x 05 ff", 2),
    ("10 F  05 ff", 3),
    ("10 F x  ff", 4),
    ("10 F x 05 ", 5),
    ("10 F x 05 ff ", 6),
    ("10 E b  0", 4),
    ("10 E b a0 ", 5),
    ("10 E b a0 0 ", 6),
    ("10 L on ", 4),
    ("10 L on  ", 4),
    (" 10 F sel", 1),
    ("10  F sel", 2),
    ("10 F  sel", 3),
    ("10 F x  05 ff", 4),
    ("10 F x 05  ff", 5),
    ("10 E  sto", 3),
    ("10 E b  a0 0", 4),
    ("10 E b a0  0", 5),
    ("10 L  off", 3),
];

/// A good stamp leaves the blame to the word behind it.
const NUMBERS: &[Bad] = &[
    ("0 F sle", 3),
    ("00 F sel", 1),
    ("01 F sle", 1),
    ("4294967295 F sle", 3),
    ("4294967295", 2),
    ("4294967296 F sel", 1),
    ("4294967296", 1),
    ("4294967305 F sel", 1),
    ("5000000000 F sel", 1),
    ("04294967295 F sel", 1),
    ("42949672950 F sel", 1),
    ("+10 F sel", 1),
    ("a F sel", 1),
    ("10 E b a0 00", 5),
    ("10 E b a0 01", 5),
    ("10 E b a0 2", 5),
    ("10 E b a0 10", 5),
    ("10 E b a0 -0", 5),
];

/// Upper case, one digit or three, and the signs beside the digits.
const HEX: &[Bad] = &[
    ("10 F x 0A ff", 4),
    ("10 F x A0 ff", 4),
    ("10 F x 05 fF", 5),
    ("10 F x 05 FF", 5),
    ("10 E b A0 0", 4),
    ("10 E b 0A 0", 4),
    ("10 F x 5 ff", 4),
    ("10 F x 005 ff", 4),
    ("10 F x 05 f", 5),
    ("10 F x 05 fff", 5),
    ("10 E b 0 0", 4),
    ("10 E b a00 0", 4),
    ("10 F x 0/ ff", 4),
    ("10 F x 0: ff", 4),
    ("10 F x 0` ff", 4),
    ("10 F x 05 g0", 5),
    ("10 F x 05 @0", 5),
    ("10 E b 0G 0", 4),
];

const OTHER_CHANNELS: &[Bad] = &[
    ("10 F sta", 3),
    ("10 F b a0 0", 3),
    ("10 F sto", 3),
    ("10 F on", 3),
    ("10 F off", 3),
    ("10 F lock", 3),
    ("10 F free", 3),
    ("10 E sel", 3),
    ("10 E x 05 ff", 3),
    ("10 E des", 3),
    ("10 E on", 3),
    ("10 E off", 3),
    ("10 E lock", 3),
    ("10 E free", 3),
    ("10 L sel", 3),
    ("10 L x 05 ff", 3),
    ("10 L cut", 3),
    ("10 L des", 3),
    ("10 L end", 3),
    ("10 L sta", 3),
    ("10 L b a0 0", 3),
    ("10 L sto", 3),
];

/// A good word with a letter more, and one cut short.
const LETTERS: &[Bad] = &[
    ("10 FF sel", 2),
    ("10 EE sta", 2),
    ("10 LL on", 2),
    ("10 F sell", 3),
    ("10 F se", 3),
    ("10 F xx 05 ff", 3),
    ("10 F cuts", 3),
    ("10 F cu", 3),
    ("10 F desk", 3),
    ("10 F de", 3),
    ("10 F ends", 3),
    ("10 F en", 3),
    ("10 E star", 3),
    ("10 E st", 3),
    ("10 E bb a0 0", 3),
    ("10 E cute", 3),
    ("10 E cu", 3),
    ("10 E stop", 3),
    ("10 E endo", 3),
    ("10 E en", 3),
    ("10 L one", 3),
    ("10 L o", 3),
    ("10 L offs", 3),
    ("10 L of", 3),
    ("10 L locks", 3),
    ("10 L loc", 3),
    ("10 L freed", 3),
    ("10 L fre", 3),
];

/// More is bad than one field.
const FIRST_OF_MORE: &[Bad] = &[
    ("1O f sle 0", 1),
    ("10 f sle 0", 2),
    ("10 F sle 0 0", 3),
    ("10 F sel 0 0", 4),
    ("10 F x O5 tt 0", 4),
    ("10 F x O5", 4),
    ("10 F x 05 tt 0", 5),
    ("10 F x 05 ff 0 0", 6),
    ("10 E b aO O 0", 4),
    ("10 E b a0 O 0", 5),
    ("10 L no no", 3),
];

/// Tabs written out: a blank for a tab, or beside one.
const BLANKS: &[Bad] = &[
    ("10 F sel", 1),
    ("10 F\tsel", 1),
    ("10\tF sel", 2),
    ("10\tF\tx 05\tff", 3),
    ("10\tF\tx\t05 ff", 4),
    ("10\tE\tb a0\t0", 3),
    ("10\tE\tb\ta0 0", 4),
    ("10\tL on", 2),
    (" 10\tF\tsel", 1),
    ("10 \tF\tsel", 1),
    ("10\t F\tsel", 2),
    ("10\tF \tsel", 2),
    ("10\tF\t sel", 3),
    ("10\tF\tsel ", 3),
    ("10\tF\tx\t05\tff ", 5),
    ("10\tF\tsel\t ", 4),
];

/// Tabs written out: a CR before the LF.
const RETURNS: &[Bad] = &[
    ("\r", 1),
    ("10\r", 1),
    ("10\tF\r", 2),
    ("10\tF\tsel\r", 3),
    ("10\tF\tx\r", 3),
    ("10\tF\tx\t05\r", 4),
    ("10\tF\tx\t05\tff\r", 5),
    ("10\tE\tb\ta0\t0\r", 5),
    ("10\tE\tsto\r", 3),
    ("10\tL\tfree\r", 3),
    ("10\tF\tsel\t\r", 4),
];

/// Line 1: `board` 1, status 2, sector 3, address 4.
const BOARD: &[Bad] = &[
    ("baord 00 1 0", 1),
    ("boar 00 1 0", 1),
    ("boards 00 1 0", 1),
    ("board2 00 1 0", 1),
    ("BOARD 00 1 0", 1),
    (" 00 1 0", 1),
    ("00 1 0", 1),
    ("board 01 1 0", 2),
    ("board 02 1 0", 2),
    ("board 10 1 0", 2),
    ("board 9c 1 0", 2),
    ("board cc 1 0", 2),
    ("board 8C 1 0", 2),
    ("board 0O 1 0", 2),
    ("board 8 1 0", 2),
    ("board 008 1 0", 2),
    ("board  1 0", 2),
    ("board 00 0 0", 3),
    ("board 00 5 0", 3),
    ("board 00 01 0", 3),
    ("board 00 11 0", 3),
    ("board 00 l 0", 3),
    ("board 00  0", 3),
    ("board 00 1 8", 4),
    ("board 00 1 00", 4),
    ("board 00 1 07", 4),
    ("board 00 1 10", 4),
    ("board 00 1 O", 4),
    ("board 00 1 ", 4),
    ("board 00 1 0 0", 5),
    ("board 00 1 0 1024", 5),
    ("board 00 1 0 ", 5),
    ("board", 2),
    ("board 00", 3),
    ("board 8c 4", 4),
    ("board 8c 4 7 7", 5),
    ("boar 01 5 8 0", 1),
    ("board 01 5 8 0", 2),
    ("board 00 5 8 0", 3),
    ("board 00 1 8 0", 4),
];

/// Lines 2 and on; what is refused for another reason has no field.
const LATER: [(&str, [u32; 3]); 14] = [
    ("10 F sel\n20 F x 05 ff\n30 F x 0O 00\n40 F des\n", [3, 4, 4]),
    ("10 F sel\n20 F x 05 ff\n30 F x 00 00\n40 F des", [3, 5, 4]),
    ("10 E sta\n20 E b a0 0\n30 E b 00 n\n", [3, 4, 5]),
    ("10 L on\n20 L off\n\n30 L on\n", [3, 4, 1]),
    ("10 L on\n20 L off\n30 L on\n\n", [3, 5, 1]),
    ("10 F sel\n20 F x 05\n30 Q\n", [3, 3, 5]),
    ("10 F sel 20 F des\n", [3, 2, 4]),
    ("10 L on\n9 L onn\n", [3, 3, 3]),
    ("10 F sel\n10 F sel 0\n", [3, 3, 4]),
    ("10 F x 05\n", [3, 2, 5]),
    ("10 L on\n9 L on\n9 L onn\n", [4, 3, 0]),
    ("10 L on\n9 L on\n10 L on", [4, 3, 0]),
    ("10 F des\n10 F sle\n", [5, 2, 0]),
    ("10 E b a0 0\n10", [5, 2, 0]),
];

/// As many lines as a text can have, nearly: the number goes over a byte.
fn far_below() -> Fixed {
    let text = format!("board\t00\t1\t0\n{}0\tL\to\n", "0\tL\ton\n".repeat(9_000));
    refused("a bad field: line 9,002", text.as_bytes(), [3, 9_002, 3])
}

/// Every kind of line; under each of its bytes the field that is told where the text ends behind that byte.
const CUT_OFF: [[&str; 2]; 15] = [
    ["board 00 1 0", "111122233445"],
    ["10 F sel", "22233334"],
    ["20 F x 05 ff", "222334445556"],
    ["30 F cut", "22233334"],
    ["40 F des", "22233334"],
    ["50 F end", "22233334"],
    ["60 E sta", "22233334"],
    ["70 E b a0 0", "22233444556"],
    ["80 E cut", "22233334"],
    ["90 E sto", "22233334"],
    ["100 E end", "222233334"],
    ["100 L on", "22223334"],
    ["100 L off", "222233334"],
    ["1234567 L lock", "22222222333334"],
    ["4294967295 L free", "22222222222333334"],
];

fn cut_off() -> Vec<Fixed> {
    let mut cases = Vec::new();
    let mut above = String::new();
    for (line, [content, told]) in (1..).zip(CUT_OFF) {
        assert_eq!(content.len(), told.len(), "{}", content);
        for (place, field) in (1..).zip(told.bytes()) {
            let text = tabbed(&format!("{}{}", above, &content[..place]));
            let name = format!("a bad field: cut off behind byte {}", text.len());
            cases.push(refused(&name, text.as_bytes(), [3, line, u32::from(field - b'0')]));
        }
        above += &format!("{}\n", content);
    }
    cases
}
