//! A short way to write a trace down together with its replies. Blanks stand for tabs, `|` parts records, and behind `>`
//! stand the reply and the match as the listing shows them; without `>` the record is silent. A record with none of that
//! at or after a stop is not played. A page that no script names as written was never.

use super::Fixed;
use crate::model::call::{result_bytes, Call, REPLIES, RESULT, TIMES};
use crate::model::kept::KEPT;

#[derive(Clone, Copy)]
pub enum Start {
    /// No dump: 00 with mask ff.
    Doubtful,
    /// Every byte ff and sure.
    Erased,
    /// Place p holds p modulo 251 and is sure.
    Counting,
    /// Every byte 05 in its low half, the high half doubtful.
    Half,
}

impl Start {
    pub fn value(self, place: usize) -> u8 {
        match self {
            Start::Doubtful => 0x00,
            Start::Erased => 0xff,
            Start::Counting => (place % 251) as u8,
            Start::Half => 0x05,
        }
    }

    fn mask(self) -> u8 {
        match self {
            Start::Doubtful => 0xff,
            Start::Erased | Start::Counting => 0x00,
            Start::Half => 0xf0,
        }
    }

    pub fn call(self, text: Vec<u8>) -> Call {
        let values: Vec<u8> = (0..KEPT).map(|place| self.value(place)).collect();
        Call {
            text,
            flash: values.clone(),
            flash_mask: vec![self.mask(); KEPT],
            eeprom: values,
            eeprom_mask: vec![self.mask(); KEPT],
            // As if every page had been written before.
            times: vec![0x01; TIMES],
            replies: vec![0x5a; REPLIES],
            result: vec![0xa5; RESULT],
        }
    }
}

/// A kept byte after the replay: its place, value and mask.
pub type Changed = (usize, u8, u8);

pub struct Script {
    name: String,
    start: Start,
    text: String,
    replies: Vec<Option<[u8; 4]>>,
    flash: Vec<Changed>,
    eeprom: Vec<Changed>,
    times: Vec<u8>,
}

pub fn script(name: &str, start: Start, board: &str) -> Script {
    Script {
        name: String::from(name),
        start,
        text: format!("{}\n", board.replace(' ', "\t")),
        replies: Vec::new(),
        flash: Vec::new(),
        eeprom: Vec::new(),
        times: vec![0; TIMES],
    }
}

impl Script {
    pub fn add(mut self, records: &str) -> Script {
        for record in records.split('|') {
            let mut sides = record.split('>');
            let fields = sides.next().unwrap_or("").trim();
            let reply = sides.next().map(|reply| reply_bytes(reply.trim()));
            self.text += &format!("{}\n", fields.replace(' ', "\t"));
            self.replies.push(reply);
        }
        self
    }

    /// Records of one frame, eight to a stamp.
    fn spread(mut self, stamp: u32, records: &[String]) -> Script {
        for (place, record) in records.iter().enumerate() {
            self = self.add(&format!("{} {}", stamp + place as u32 / 8, record));
        }
        self
    }

    /// A whole flash frame that gets no byte back, and what its `des` does.
    pub fn frame(self, stamp: u32, sent: &str, at_des: &str) -> Script {
        let mut records = vec![String::from("F sel")];
        records.extend(sent.split_whitespace().map(|byte| format!("F x {} ff", byte)));
        records.push(format!("F des > {}", at_des));
        self.spread(stamp, &records)
    }

    pub fn wren(self, stamp: u32) -> Script {
        self.frame(stamp, "06", "- .")
    }

    pub fn end(self, stamp: u32) -> Script {
        self.add(&format!("{} F end > ends .", stamp))
    }

    pub fn rdsr(self, stamp: u32, status: &str) -> Script {
        let byte = format!("F x 00 {} > {}/00 =", status, status);
        self.spread(stamp, &[String::from("F sel"), String::from("F x 05 ff"), byte, String::from("F des")])
    }

    /// A READ whose recorded bytes are the values in `replies`.
    pub fn read(self, stamp: u32, address: &str, replies: &str) -> Script {
        let mut records = vec![String::from("F sel"), String::from("F x 03 ff")];
        records.extend(address.split_whitespace().map(|byte| format!("F x {} ff", byte)));
        records.extend(replies.split_whitespace().map(|reply| read_record("F x 00", "", reply)));
        records.push(String::from("F des"));
        self.spread(stamp, &records)
    }

    /// An EEPROM frame whose every byte is acknowledged, and what its `sto` does.
    pub fn write(self, stamp: u32, sent: &str, at_sto: &str) -> Script {
        let mut records = vec![String::from("E sta")];
        records.extend(sent.split_whitespace().map(|byte| format!("E b {} 0 > ack =", byte)));
        records.push(format!("E sto > {}", at_sto));
        self.spread(stamp, &records)
    }

    pub fn eeprom_end(self, stamp: u32) -> Script {
        self.add(&format!("{} E end > ends .", stamp))
    }

    /// A read from the counter on, of a chip wired to address 0.
    pub fn current_read(self, stamp: u32, replies: &str) -> Script {
        let mut records = vec![String::from("E sta"), String::from("E b a1 0 > ack =")];
        records.extend(replies.split_whitespace().map(|reply| read_record("E b", " 0", reply)));
        records.push(String::from("E sto"));
        self.spread(stamp, &records)
    }

    pub fn random_read(self, stamp: u32, place: &str, replies: &str) -> Script {
        let mut records = vec![String::from("E sta"), String::from("E b a0 0 > ack =")];
        records.extend(place.split_whitespace().map(|byte| format!("E b {} 0 > ack =", byte)));
        self.spread(stamp, &records).current_read(stamp + 1, replies)
    }

    pub fn flash_is(mut self, changed: &[Changed]) -> Script {
        self.flash.extend(changed);
        self
    }

    pub fn eeprom_is(mut self, changed: &[Changed]) -> Script {
        self.eeprom.extend(changed);
        self
    }

    /// Pages with the stamp of their last writing as program `pages` lists them, `|` between two; `flash all` is each page of
    /// the watched sector. What is named later replaces what was before.
    pub fn written(mut self, pages: &str) -> Script {
        for page in pages.split('|') {
            match page.split_whitespace().collect::<Vec<_>>().as_slice() {
                ["flash", "all", stamp] => (0..128).for_each(|place| self.put_time(place, stamp)),
                ["flash", page, stamp] => self.put_time(number(page), stamp),
                ["eeprom", page, stamp] => self.put_time(128 + number(page), stamp),
                _ => panic!("no written page {:?}", page),
            }
        }
        self
    }

    fn put_time(&mut self, place: usize, stamp: &str) {
        let stamp = number(stamp);
        let bytes = [1, stamp % 256, stamp / 0x100 % 256, stamp / 0x1_0000 % 256, stamp / 0x100_0000];
        for (byte, value) in bytes.iter().enumerate() {
            self.times[5 * place + byte] = *value as u8;
        }
    }

    pub fn settled(self, count: u32) -> Fixed {
        let replies = self.replies.iter().map(|reply| reply.unwrap_or(SILENT)).collect();
        self.outcome(0, 0, count, replies)
    }

    /// Stops at the stamp of record number `played`, the first that is not played.
    pub fn stops(self, answer: u32, stamp: u32, count: u32, played: usize) -> Fixed {
        assert!(self.replies[played..].iter().all(|reply| reply.is_none()), "{}", self.name);
        let replies = self.replies[..played].iter().map(|reply| reply.unwrap_or(SILENT)).collect();
        self.outcome(answer, stamp, count, replies)
    }

    /// A text that is refused for what stands below these records.
    pub fn refused(self, told: [u32; 3]) -> Fixed {
        refused(&self.name, self.text.as_bytes(), told)
    }

    fn outcome(self, answer: u32, second: u32, count: u32, replies: Vec<[u8; 4]>) -> Fixed {
        let call = self.start.call(self.text.into_bytes());
        let mut after = call.clone();
        for (place, value, mask) in self.flash {
            after.flash[place] = value;
            after.flash_mask[place] = mask;
        }
        for (place, value, mask) in self.eeprom {
            after.eeprom[place] = value;
            after.eeprom_mask[place] = mask;
        }
        after.times = self.times;
        after.replies = replies.concat();
        after.replies.resize(REPLIES, 0);
        after.result = result_bytes([answer, second, count, 0]);
        Fixed { name: self.name, call, answer, after }
    }
}

/// A text that is refused with number, line and field, as the listing tells them; everything but the result is left alone.
pub fn refused(name: &str, text: &[u8], [number, line, field]: [u32; 3]) -> Fixed {
    let call = Start::Counting.call(text.to_vec());
    let mut after = call.clone();
    after.result = result_bytes([number, line, 0, field]);
    Fixed { name: String::from(name), call, answer: number, after }
}

/// All kept bytes with one value and mask.
pub fn everywhere(value: u8, mask: u8) -> Vec<Changed> {
    (0..KEPT).map(|place| (place, value, mask)).collect()
}

/// The EEPROM's page from `first` on, with nothing sure.
pub fn doubtful_page(first: usize) -> Vec<Changed> {
    (first..first + 64).map(|place| (place, 0x00, 0xff)).collect()
}

const SILENT: [u8; 4] = [1, 0, 0, 0];

fn read_record(before: &str, after: &str, reply: &str) -> String {
    match reply.split_once('/') {
        Some((value, "ff")) => format!("{} {}{} > {} .", before, value, after, reply),
        Some((value, _)) => format!("{} {}{} > {} =", before, value, after, reply),
        None => format!("{} ff{} > - .", before, after),
    }
}

fn reply_bytes(reply: &str) -> [u8; 4] {
    let (word, sign) = reply.split_once(' ').unwrap_or((reply, ""));
    let compared = match sign {
        "." => 0,
        "=" => 1,
        "!" => 2,
        _ => panic!("no match sign in {:?}", reply),
    };
    let kind = match word {
        "-" => 1,
        "ack" => 3,
        "no" => 4,
        "starts" => 5,
        "ends" => 6,
        "idle" => 7,
        _ => 2,
    };
    let (value, mask) = match word.split_once('/') {
        Some((value, mask)) => (hex(value), hex(mask)),
        None => (0, 0),
    };
    assert!(kind != 2 || word.contains('/'), "no reply {:?}", reply);
    [kind, value, mask, compared]
}

fn number(digits: &str) -> usize {
    digits.parse().unwrap_or_else(|_| panic!("no number {:?}", digits))
}

fn hex(digits: &str) -> u8 {
    u8::from_str_radix(digits, 16).unwrap_or_else(|_| panic!("no hex byte {:?}", digits))
}
