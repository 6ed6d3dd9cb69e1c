//! Seeded traces, captures and calls: what a bench logger would write or an analyser see, ties, damage, and bytes that mean
//! nothing.

pub mod author;
pub mod capture_samples;
pub mod captures;
pub mod cut_pages;
pub mod damage;
pub mod drawn;
pub mod dumps;
pub mod eeprom_frames;
pub mod flash_frames;
pub mod kinds;
pub mod pens;
pub mod plan_traces;
pub mod plans;
pub mod prepared;
pub mod random;
pub mod reorder;
pub mod restamp;
pub mod samples;
pub mod small_doubts;
pub mod spoilt;
pub mod topics;
pub mod walks;
pub mod write_cycles;
