//! Records, the two lines, and replies ("The trace", "Replies and stopping").

#[derive(Clone, Copy)]
pub enum FlashEvent {
    Sel,
    X { si: u8, so: u8 },
    Cut,
    Des,
    End,
}

#[derive(Clone, Copy)]
pub enum EepromEvent {
    Sta,
    B { byte: u8, nak: bool },
    Cut,
    Sto,
    End,
}

#[derive(Clone, Copy, PartialEq, Eq)]
pub enum LineEvent {
    On,
    Off,
    Lock,
    Free,
}

#[derive(Clone, Copy)]
pub enum Event {
    Flash(FlashEvent),
    Eeprom(EepromEvent),
    Line(LineEvent),
}

#[derive(Clone, Copy)]
pub struct Record {
    pub stamp: u32,
    pub event: Event,
}

/// Line 1 of a trace.
#[derive(Clone, Copy)]
pub struct Board {
    pub status: u8,
    pub watched: u8,
    pub address: u8,
}

#[derive(Clone, Copy)]
pub struct Lines {
    pub supply: bool,
    pub lock: bool,
}

impl Lines {
    pub const AT_START: Lines = Lines { supply: true, lock: false };

    pub fn after(self, event: LineEvent) -> Lines {
        match event {
            LineEvent::On => Lines { supply: true, ..self },
            LineEvent::Off => Lines { supply: false, ..self },
            LineEvent::Lock => Lines { lock: true, ..self },
            LineEvent::Free => Lines { lock: false, ..self },
        }
    }

    /// Whether the supply falls by this event.
    pub fn falls(self, event: LineEvent) -> bool {
        event == LineEvent::Off && self.supply
    }
}

#[derive(Clone, Copy, PartialEq, Eq)]
pub enum Reply {
    Silent,
    Byte { value: u8, mask: u8 },
    Ack,
    NoAck,
    Starts,
    Ends,
    NoCycle,
}

pub const DISAGREES: u8 = 2;

impl Reply {
    /// The four reply bytes of a record that was played.
    pub fn bytes(self, event: Event) -> [u8; 4] {
        match self {
            Reply::Silent => [1, 0, 0, 0],
            Reply::Byte { value, mask } => [2, value, mask, byte_match(value, mask, event)],
            Reply::Ack => [3, 0, 0, ack_match(false, event)],
            Reply::NoAck => [4, 0, 0, ack_match(true, event)],
            Reply::Starts => [5, 0, 0, 0],
            Reply::Ends => [6, 0, 0, 0],
            Reply::NoCycle => [7, 0, 0, 0],
        }
    }
}

fn agreement(agrees: bool) -> u8 {
    if agrees {
        1
    } else {
        DISAGREES
    }
}

/// A byte is compared with the recorded one on its sure bits, where it has any.
fn byte_match(value: u8, mask: u8, event: Event) -> u8 {
    match event {
        _ if mask == 0xff => 0,
        Event::Flash(FlashEvent::X { so, .. }) => agreement((so ^ value) & !mask == 0),
        Event::Eeprom(EepromEvent::B { byte, .. }) => agreement((byte ^ value) & !mask == 0),
        _ => 0,
    }
}

fn ack_match(expected: bool, event: Event) -> u8 {
    match event {
        Event::Eeprom(EepromEvent::B { nak, .. }) => agreement(nak == expected),
        _ => 0,
    }
}
