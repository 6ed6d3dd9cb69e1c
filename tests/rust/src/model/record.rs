//! Records and their replies ("The trace", "Replies and stopping").

#[derive(Clone, Copy, Debug, PartialEq, Eq)]
pub enum FlashEvent {
    Sel,
    X { si: u8, so: u8 },
    Cut,
    Des,
    End,
}

#[derive(Clone, Copy, Debug, PartialEq, Eq)]
pub enum EepromEvent {
    Sta,
    /// `not_acknowledged` is the recorded ninth bit: true where the trace says 1.
    B {
        byte: u8,
        not_acknowledged: bool,
    },
    Cut,
    Sto,
    End,
}

#[derive(Clone, Copy, Debug, PartialEq, Eq)]
pub enum LineEvent {
    On,
    Off,
    Lock,
    Free,
}

#[derive(Clone, Copy, Debug, PartialEq, Eq)]
pub enum Event {
    F(FlashEvent),
    E(EepromEvent),
    L(LineEvent),
}

#[derive(Clone, Copy, Debug, PartialEq, Eq)]
pub struct Record {
    pub line: u32,
    pub stamp: u32,
    pub event: Event,
}

/// Line 1 of a trace.
#[derive(Clone, Copy, Debug, PartialEq, Eq)]
pub struct BoardLine {
    pub status: u8,
    pub watched: u8,
    pub address: u8,
}

#[derive(Clone, Copy, Debug, PartialEq, Eq)]
pub enum Reply {
    Silent,
    Byte { value: u8, mask: u8 },
    Ack,
    NoAck,
    Starts,
    Ends,
    NoCycle,
}

pub const NOTHING_TO_COMPARE: u8 = 0;
pub const AGREES: u8 = 1;
pub const DISAGREES: u8 = 2;

impl Reply {
    pub fn kind(self) -> u8 {
        match self {
            Reply::Silent => 1,
            Reply::Byte { .. } => 2,
            Reply::Ack => 3,
            Reply::NoAck => 4,
            Reply::Starts => 5,
            Reply::Ends => 6,
            Reply::NoCycle => 7,
        }
    }

    /// The four reply bytes of a record that was played.
    pub fn bytes(self, event: Event) -> [u8; 4] {
        let (value, mask) = match self {
            Reply::Byte { value, mask } => (value, mask),
            _ => (0, 0),
        };
        [self.kind(), value, mask, self.compared_with(event)]
    }

    fn compared_with(self, event: Event) -> u8 {
        match (self, event) {
            (Reply::Byte { mask: 0xff, .. }, _) => NOTHING_TO_COMPARE,
            (Reply::Byte { value, mask }, Event::F(FlashEvent::X { so, .. })) => agreement((so ^ value) & !mask == 0),
            (Reply::Byte { value, mask }, Event::E(EepromEvent::B { byte, .. })) => agreement((byte ^ value) & !mask == 0),
            (Reply::Ack, Event::E(EepromEvent::B { not_acknowledged, .. })) => agreement(!not_acknowledged),
            (Reply::NoAck, Event::E(EepromEvent::B { not_acknowledged, .. })) => agreement(not_acknowledged),
            _ => NOTHING_TO_COMPARE,
        }
    }
}

fn agreement(agrees: bool) -> u8 {
    if agrees {
        AGREES
    } else {
        DISAGREES
    }
}
