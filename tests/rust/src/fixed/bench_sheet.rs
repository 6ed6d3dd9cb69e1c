//! The twelve bench-sheet cases as traces, the listing's own trace, and the limits that are checked by run.

use super::script::{refused, script, Changed, Script, Start};
use super::Fixed;
use crate::generate::kinds::fit;
use crate::model::text::TEXT_MOST;

pub fn cases() -> Vec<Fixed> {
    let mut cases = vec![
        listing(),
        case_1("1: ff programmed a5").settled(0),
        case_2(),
        case_3("3: ff programmed 0f and cut").settled(0),
        case_4(),
        case_5(),
        case_6(),
        case_7(),
    ];
    cases.extend([case_8_locked(), case_8_open(), case_9(), case_10(), case_11(), case_12()]);
    cases.extend(sectors());
    cases.extend(lengths());
    cases
}

fn listing() -> Fixed {
    script("the listing's trace", Start::Doubtful, "board 00 1 0")
        .add("10 F sel | 10 F x 05 ff | 10 F x 00 00 > 00/00 = | 10 F des | 80 L off")
        .settled(0)
}

fn case_1(name: &str) -> Script {
    script(name, Start::Erased, "board 00 1 0")
        .wren(10)
        .frame(20, "02 00 00 00 a5", "starts .")
        .end(30)
        .read(40, "00 00 00", "a5/00")
        .flash_is(&[(0, 0xa5, 0x00)])
        .written("flash 0 30")
}

fn case_2() -> Fixed {
    case_1("2: then 3c")
        .wren(50)
        .frame(60, "02 00 00 00 3c", "starts .")
        .end(70)
        .read(80, "00 00 00", "24/00")
        .flash_is(&[(0, 0x24, 0x00)])
        .written("flash 0 70")
        .settled(0)
}

fn case_3(name: &str) -> Script {
    script(name, Start::Erased, "board 00 1 0")
        .wren(10)
        .frame(20, "02 00 00 00 0f", "starts .")
        .add("30 L off | 40 L on")
        .read(50, "00 00 00", "0f/f0")
        .flash_is(&[(0, 0x0f, 0xf0)])
        .written("flash 0 30")
}

fn case_4() -> Fixed {
    case_3("4: then programmed 3c")
        .wren(60)
        .frame(70, "02 00 00 00 3c", "starts .")
        .end(80)
        .read(90, "00 00 00", "0c/30")
        .flash_is(&[(0, 0x0c, 0x30)])
        .written("flash 0 80")
        .settled(0)
}

fn case_5() -> Fixed {
    script("5: address fe0005", Start::Erased, "board 00 1 0")
        .wren(10)
        .frame(20, "02 fe 00 05 77", "starts .")
        .end(30)
        .read(40, "00 00 05", "77/00")
        .read(50, "fe 00 05", "77/00")
        .flash_is(&[(5, 0x77, 0x00)])
        .written("flash 0 30")
        .settled(0)
}

fn case_6() -> Fixed {
    script("6: PROGRAM rolls over in its page", Start::Erased, "board 00 1 0")
        .wren(10)
        .frame(20, "02 00 00 ff 11 22", "starts .")
        .end(30)
        .read(40, "00 00 00", "22/00")
        .read(50, "00 00 ff", "11/00 ff/00")
        .flash_is(&[(0xff, 0x11, 0x00), (0, 0x22, 0x00)])
        .written("flash 0 30")
        .settled(0)
}

fn case_7() -> Fixed {
    let sent: Vec<String> = (0..256).map(|byte| format!("{:02x}", byte)).collect();
    let mut places: Vec<Changed> = (0..256).map(|place| (place, place as u8, 0x00)).collect();
    places[0] = (0, 0x5a, 0x00);
    script("7: 257 data bytes", Start::Erased, "board 00 1 0")
        .wren(10)
        .frame(20, &format!("02 00 00 00 {} 5a", sent.join(" ")), "starts .")
        .end(100)
        .read(110, "00 00 00", "5a/00 01/00")
        .flash_is(&places)
        .written("flash 0 100")
        .settled(0)
}

fn case_8_locked() -> Fixed {
    script("8: status 08 locks sector 3", Start::Erased, "board 08 3 0")
        .wren(10)
        .frame(20, "02 01 00 00 a5", "- .")
        .rdsr(30, "0a")
        .settled(0)
}

fn case_8_open() -> Fixed {
    script("8: status 08 leaves sector 2", Start::Erased, "board 08 2 0")
        .wren(10)
        .frame(20, "02 00 80 00 a5", "starts .")
        .end(30)
        .read(40, "00 80 00", "a5/00")
        .flash_is(&[(0, 0xa5, 0x00)])
        .written("flash 0 30")
        .settled(0)
}

fn case_9() -> Fixed {
    script("9: EEPROM write rolls over in its page", Start::Erased, "board 00 1 0")
        .write(10, "a0 00 3f 11 22", "starts .")
        .eeprom_end(20)
        .random_read(30, "00 3f", "11/00 ff/00")
        .random_read(40, "00 00", "22/00")
        .eeprom_is(&[(0x3f, 0x11, 0x00), (0, 0x22, 0x00)])
        .written("eeprom 0 20")
        .settled(0)
}

fn case_10() -> Fixed {
    // 32767 is 130 times 251 and 137 more, which is 89 in hex.
    script("10: EEPROM read goes on from 7fff to 0000", Start::Counting, "board 00 1 0")
        .random_read(10, "7f ff", "89/00 00/00 01/00")
        .settled(0)
}

fn case_11() -> Fixed {
    script("11: WREN's des and off at one stamp", Start::Erased, "board 00 1 0")
        .add("10 F sel | 10 F x 06 ff | 20 F des | 20 L off")
        .settled(0)
}

fn case_12() -> Fixed {
    script("12: a PROGRAM's des and off at one stamp", Start::Erased, "board 00 1 0")
        .wren(10)
        .add("20 F sel | 20 F x 02 ff | 20 F x 00 ff | 20 F x 00 ff | 20 F x 00 ff | 20 F x a5 ff | 30 F des | 30 L off")
        .stops(7, 30, 0, 9)
}

fn sectors() -> Vec<Fixed> {
    vec![
        refused("sector 0", b"board\t00\t0\t0\n", [3, 1, 3]),
        script("sector 1", Start::Counting, "board 00 1 0").read(10, "00 00 02", "02/00").settled(0),
        script("sector 4", Start::Counting, "board 00 4 0").read(10, "01 80 02", "02/00").settled(0),
        refused("sector 5", b"board\t00\t5\t0\n", [3, 1, 3]),
    ]
}

/// Line records on stamps of their own, to exactly `length` bytes.
fn text_of(length: usize) -> Vec<u8> {
    let mut text = b"board\t00\t1\t0\n".to_vec();
    let mut stamp = 0;
    while text.len() < length {
        text.extend(format!("{}\tL\tfree\n", stamp).into_bytes());
        stamp += 1;
    }
    fit(&mut text, length);
    assert_eq!(text.len(), length);
    text
}

fn lengths() -> Vec<Fixed> {
    let longest = String::from_utf8_lossy(&text_of(TEXT_MOST)).into_owned();
    let records: Vec<&str> = longest.lines().skip(1).collect();
    vec![
        script("65,536 bytes", Start::Doubtful, "board 00 1 0").add(&records.join("|")).settled(0),
        refused("65,537 bytes", &text_of(TEXT_MOST + 1), [2, 0, 0]),
        refused("65,537 bytes without form", &[0x41; TEXT_MOST + 1], [2, 0, 0]),
        refused("65,536 bytes without form", &[0x41; TEXT_MOST], [3, 1, 1]),
        refused("65,536 line ends", &[b'\n'; TEXT_MOST], [3, 1, 1]),
    ]
}
