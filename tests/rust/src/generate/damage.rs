//! Damage to a good trace: each way in which a line can be wrong, stamps that fall, impossible records.

use super::random::Random;

/// A trace taken apart into its lines without LF.
pub struct Sheet {
    pub lines: Vec<Vec<u8>>,
    pub last_lf: bool,
}

impl Sheet {
    pub fn of(text: &[u8]) -> Sheet {
        let mut lines: Vec<Vec<u8>> = text.split(|&byte| byte == b'\n').map(|line| line.to_vec()).collect();
        lines.pop();
        Sheet { lines, last_lf: true }
    }

    pub fn text(&self) -> Vec<u8> {
        let mut text = self.lines.join(&b'\n');
        if self.last_lf {
            text.push(b'\n');
        }
        text
    }
}

type Damage = fn(&mut Random, &mut Sheet);

pub const DAMAGES: [(&str, Damage); 53] = [
    ("two tabs", |random, sheet| at_tab(random, sheet, b"\t\t")),
    ("no tab", |random, sheet| at_tab(random, sheet, b"")),
    ("a blank for a tab", |random, sheet| at_tab(random, sheet, b" ")),
    ("a blank beside a tab", |random, sheet| at_tab(random, sheet, b"\t ")),
    ("CR before LF", |random, sheet| any_line(random, sheet).push(b'\r')),
    ("CR in every line", |_, sheet| sheet.lines.iter_mut().for_each(|line| line.push(b'\r'))),
    ("upper-case hex", |random, sheet| other_field(random, sheet, 3, &["A0", "0F", "fF", "Ff"])),
    ("hex of wrong length", |random, sheet| other_field(random, sheet, 3, &["", "0", "000", "0x00", "g0", "0g", "/0", ":0"])),
    ("last field wrong", |random, sheet| last_field(random, sheet, &["", "00", "2", "01", "F0", "-1", "+1", "1 ", "\u{660}"])),
    ("leading zero", |random, sheet| stamp_prefix(random, sheet, "0")),
    ("plus sign", |random, sheet| stamp_prefix(random, sheet, "+")),
    ("minus sign", |random, sheet| stamp_prefix(random, sheet, "-")),
    ("blank before the stamp", |random, sheet| stamp_prefix(random, sheet, " ")),
    ("tab before the stamp", |random, sheet| stamp_prefix(random, sheet, "\t")),
    ("4294967296", |random, sheet| other_field(random, sheet, 0, &["4294967296"])),
    ("4294967295", |random, sheet| other_field(random, sheet, 0, &["4294967295"])),
    ("a long number", |random, sheet| {
        other_field(random, sheet, 0, &["18446744073709551616", "18446744073709551617", "99999999999"])
    }),
    ("a 20-digit number", |random, sheet| other_field(random, sheet, 0, &["10000000000000000010", "18446744073709551610"])),
    ("no stamp", |random, sheet| other_field(random, sheet, 0, &["", "a", "0x1", "1e3", "1.0"])),
    ("unknown channel", |random, sheet| other_field(random, sheet, 1, &["G", "f", "FF", "", "e", "l", "F ", "EL"])),
    ("another channel", |random, sheet| other_field(random, sheet, 1, &["F", "E", "L"])),
    ("unknown event", |random, sheet| {
        other_field(random, sheet, 2, &["se", "sell", "SEL", "", "y", "bb", "stop", "of", "onn", "unlock"])
    }),
    ("another event", |random, sheet| {
        other_field(random, sheet, 2, &["sel", "x", "cut", "des", "end", "sta", "b", "sto", "on", "off", "lock", "free"])
    }),
    ("extra field", |random, sheet| any_line(random, sheet).extend(b"\t00")),
    ("tab at the end", |random, sheet| any_line(random, sheet).push(b'\t')),
    ("missing field", drop_field),
    ("a field twice", double_field),
    ("fields exchanged", exchange_fields),
    ("a byte changed", change_byte),
    ("a byte lost", lose_byte),
    ("a byte twice", double_byte),
    ("letters for digits", |random, sheet| mistype(random, sheet, &[(b'0', b'O'), (b'1', b'l'), (b'5', b'S'), (b'8', b'B')])),
    ("digits for letters", |random, sheet| mistype(random, sheet, &[(b'o', b'0'), (b'l', b'1'), (b's', b'5'), (b'b', b'6')])),
    ("LF lost", |random, sheet| join_lines(random, sheet, b"")),
    ("a tab for LF", |random, sheet| join_lines(random, sheet, b"\t")),
    ("LF for a tab", |random, sheet| at_tab(random, sheet, b"\n")),
    ("cut off in a line", cut_off),
    ("empty line", |random, sheet| insert(random, sheet, &[""])),
    ("empty last line", |_, sheet| sheet.lines.push(Vec::new())),
    ("missing last LF", |_, sheet| sheet.last_lf = false),
    ("NUL", |random, sheet| insert_byte(random, sheet, 0)),
    ("byte above 7f", |random, sheet| {
        let byte = random.byte() | 0x80;
        insert_byte(random, sheet, byte)
    }),
    ("falling stamp", |random, sheet| other_field(random, sheet, 0, &["0", "1", "9"])),
    ("last digit of a stamp lost", lose_digit),
    ("lines exchanged", exchange_lines),
    ("a line lost", lose_line),
    ("a line twice", double_line),
    ("impossible in F", |random, sheet| {
        let pair = random.pick(&[["sel", "sel"], ["des", "x\t00\t00"], ["des", "cut"], ["des", "des"]]);
        insert_events(random, sheet, "F", &pair)
    }),
    ("impossible after cut in F", |random, sheet| {
        let pair = random.pick(&[["cut", "x\t00\t00"], ["cut", "cut"], ["cut", "sel"]]);
        insert_events(random, sheet, "F", &pair)
    }),
    ("impossible in E", |random, sheet| {
        let pair = random.pick(&[["sto", "b\t00\t0"], ["sto", "cut"], ["sto", "sto"]]);
        insert_events(random, sheet, "E", &pair)
    }),
    ("impossible after cut in E", |random, sheet| {
        let pair = random.pick(&[["cut", "b\t00\t0"], ["cut", "cut"]]);
        insert_events(random, sheet, "E", &pair)
    }),
    ("any bus record", |random, sheet| {
        let flash = random.pick(&[["sel"], ["x\t05\tff"], ["cut"], ["des"], ["end"]]);
        insert_events(random, sheet, "F", &flash);
        let eeprom = random.pick(&[["sta"], ["b\ta0\t0"], ["cut"], ["sto"], ["end"]]);
        insert_events(random, sheet, "E", &eeprom)
    }),
    ("two damages", |random, sheet| {
        for _ in 0..2 {
            let place = random.below(DAMAGES.len() - 1);
            DAMAGES[place].1(random, sheet);
        }
    }),
];

fn any_line<'a>(random: &mut Random, sheet: &'a mut Sheet) -> &'a mut Vec<u8> {
    let place = random.below(sheet.lines.len());
    &mut sheet.lines[place]
}

fn at_tab(random: &mut Random, sheet: &mut Sheet, instead: &[u8]) {
    let line = any_line(random, sheet);
    let tabs: Vec<usize> = (0..line.len()).filter(|&place| line[place] == b'\t').collect();
    if !tabs.is_empty() {
        let place = random.pick(&tabs);
        line.splice(place..=place, instead.iter().copied());
    }
}

fn fields_of(line: &[u8]) -> Vec<Vec<u8>> {
    line.split(|&byte| byte == b'\t').map(|field| field.to_vec()).collect()
}

/// Puts another word in the place of a field, in a line that has this field.
fn other_field(random: &mut Random, sheet: &mut Sheet, field: usize, words: &[&str]) {
    let having: Vec<usize> = (0..sheet.lines.len()).filter(|&place| fields_of(&sheet.lines[place]).len() > field).collect();
    if having.is_empty() {
        return;
    }
    let place = random.pick(&having);
    let mut fields = fields_of(&sheet.lines[place]);
    fields[field] = random.pick(words).as_bytes().to_vec();
    sheet.lines[place] = fields.join(&b'\t');
}

fn last_field(random: &mut Random, sheet: &mut Sheet, words: &[&str]) {
    let word = random.pick(words);
    let line = any_line(random, sheet);
    let mut fields = fields_of(line);
    fields.pop();
    fields.push(word.as_bytes().to_vec());
    *line = fields.join(&b'\t');
}

fn stamp_prefix(random: &mut Random, sheet: &mut Sheet, prefix: &str) {
    let line = any_line(random, sheet);
    line.splice(0..0, prefix.bytes());
}

fn drop_field(random: &mut Random, sheet: &mut Sheet) {
    let line = any_line(random, sheet);
    let mut fields = fields_of(line);
    fields.remove(random.below(fields.len()));
    *line = fields.join(&b'\t');
}

fn double_field(random: &mut Random, sheet: &mut Sheet) {
    let line = any_line(random, sheet);
    let mut fields = fields_of(line);
    let place = random.below(fields.len());
    fields.insert(place, fields[place].clone());
    *line = fields.join(&b'\t');
}

fn exchange_fields(random: &mut Random, sheet: &mut Sheet) {
    let line = any_line(random, sheet);
    let mut fields = fields_of(line);
    let one = random.below(fields.len());
    let other = random.below(fields.len());
    fields.swap(one, other);
    *line = fields.join(&b'\t');
}

/// A byte of a line, where the line has one.
fn any_byte<'a>(random: &mut Random, sheet: &'a mut Sheet) -> Option<(&'a mut Vec<u8>, usize)> {
    let line = any_line(random, sheet);
    if line.is_empty() {
        return None;
    }
    let place = random.below(line.len());
    Some((line, place))
}

fn change_byte(random: &mut Random, sheet: &mut Sheet) {
    let bit = 1 << random.below(8);
    if let Some((line, place)) = any_byte(random, sheet) {
        line[place] ^= bit;
    }
}

fn lose_byte(random: &mut Random, sheet: &mut Sheet) {
    if let Some((line, place)) = any_byte(random, sheet) {
        line.remove(place);
    }
}

fn double_byte(random: &mut Random, sheet: &mut Sheet) {
    if let Some((line, place)) = any_byte(random, sheet) {
        line.insert(place, line[place]);
    }
}

/// One byte of a line as someone may type it from paper.
fn mistype(random: &mut Random, sheet: &mut Sheet, pairs: &[(u8, u8)]) {
    let line = any_line(random, sheet);
    let typed = |byte: u8| pairs.iter().find(|pair| pair.0 == byte).map(|pair| pair.1);
    let places: Vec<usize> = (0..line.len()).filter(|&place| typed(line[place]).is_some()).collect();
    if !places.is_empty() {
        let place = random.pick(&places);
        line[place] = typed(line[place]).unwrap_or(line[place]);
    }
}

/// Two lines as one, with this between them.
fn join_lines(random: &mut Random, sheet: &mut Sheet, between: &[u8]) {
    if sheet.lines.len() > 1 {
        let place = random.below(sheet.lines.len() - 1);
        let after = sheet.lines.remove(place + 1);
        sheet.lines[place].extend([between, &after].concat());
    }
}

/// The text ends inside a line.
fn cut_off(random: &mut Random, sheet: &mut Sheet) {
    let count = random.below(sheet.lines.len()) + 1;
    sheet.lines.truncate(count);
    let last = &mut sheet.lines[count - 1];
    last.truncate(random.below(last.len() + 1));
    sheet.last_lf = false;
}

fn insert_byte(random: &mut Random, sheet: &mut Sheet, byte: u8) {
    let line = any_line(random, sheet);
    let place = random.below(line.len() + 1);
    line.insert(place, byte);
}

fn lose_digit(random: &mut Random, sheet: &mut Sheet) {
    let line = any_line(random, sheet);
    if let Some(tab) = line.iter().position(|&byte| byte == b'\t') {
        if tab > 0 {
            line.remove(tab - 1);
        }
    }
}

fn exchange_lines(random: &mut Random, sheet: &mut Sheet) {
    let one = random.below(sheet.lines.len());
    let other = random.below(sheet.lines.len());
    sheet.lines.swap(one, other);
}

fn lose_line(random: &mut Random, sheet: &mut Sheet) {
    let place = random.below(sheet.lines.len());
    if sheet.lines.len() > 1 {
        sheet.lines.remove(place);
    }
}

fn double_line(random: &mut Random, sheet: &mut Sheet) {
    let place = random.below(sheet.lines.len());
    let line = sheet.lines[place].clone();
    sheet.lines.insert(place, line);
}

fn insert(random: &mut Random, sheet: &mut Sheet, lines: &[&str]) {
    let place = random.below(sheet.lines.len() + 1);
    for line in lines.iter().rev() {
        sheet.lines.insert(place, line.as_bytes().to_vec());
    }
}

/// Inserts events with the stamp of the line before them.
fn insert_events(random: &mut Random, sheet: &mut Sheet, channel: &str, events: &[&str]) {
    let place = random.between(1, sheet.lines.len());
    let before = fields_of(&sheet.lines[place - 1]).remove(0);
    let stamp = if place == 1 { String::from("0") } else { String::from_utf8_lossy(&before).into_owned() };
    for event in events.iter().rev() {
        sheet.lines.insert(place, format!("{}\t{}\t{}", stamp, channel, event).into_bytes());
    }
}

/// Changes some bytes of a text without regard to its lines.
pub fn mutate(random: &mut Random, text: &mut Vec<u8>) {
    for _ in 0..random.pick(&[1, 1, 1, 2, 3, 8]) {
        if text.is_empty() {
            return;
        }
        let place = random.below(text.len());
        let byte = likely_byte(random);
        match random.below(6) {
            0 => text[place] ^= 1 << random.below(8),
            1 => text[place] = byte,
            2 => text.insert(place, byte),
            3 => {
                text.remove(place);
            }
            4 => text.truncate(place),
            _ => repeat_part(random, text, place),
        }
    }
}

fn repeat_part(random: &mut Random, text: &mut Vec<u8>, place: usize) {
    let length = random.between(1, 30).min(text.len() - place);
    let part = text[place..place + length].to_vec();
    let target = random.below(text.len());
    text.splice(target..target, part);
}

pub fn likely_byte(random: &mut Random) -> u8 {
    if random.percent(20) {
        return random.byte();
    }
    random.pick(b"\t\t\n\n0123456789abcdefFELbxoardselcutdesndstaofflockfree ")
}
