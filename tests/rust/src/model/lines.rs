//! The common supply and the lock net.

use super::record::LineEvent;

#[derive(Clone, Copy, Debug, PartialEq, Eq)]
pub struct Lines {
    pub supply: bool,
    pub lock: bool,
}

impl Lines {
    pub fn at_start() -> Lines {
        Lines { supply: true, lock: false }
    }

    pub fn after(self, event: LineEvent) -> Lines {
        match event {
            LineEvent::On => Lines { supply: true, ..self },
            LineEvent::Off => Lines { supply: false, ..self },
            LineEvent::Lock => Lines { lock: true, ..self },
            LineEvent::Free => Lines { lock: false, ..self },
        }
    }
}
