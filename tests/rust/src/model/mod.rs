//! The replay as plain Rust, written from document 01 and requests 1/12, 2/12 and 3/12 alone and without thrift: every order of
//! a stamp starts from a fresh copy of a chip with its image and its pages' times, and everything is compared. The plan is of
//! request 6/12 and document 01; captures, their merge with the logger's trace and its playing are of request 4/12. The chips'
//! control serves the histories of request 8/12 too, on bytes of their own. Nothing here is shared with the proved code.

pub mod call;
pub mod capture_calls;
pub mod cells;
pub mod decode;
pub mod eeprom;
pub mod fields;
pub mod flash;
pub mod kept;
pub mod levels;
pub mod lines;
pub mod listing;
pub mod merge;
pub mod merge_listing;
pub mod plan;
pub mod plan_listing;
pub mod record;
pub mod replay;
pub mod stamp;
pub mod text;
pub mod times;
pub mod written;

#[cfg(test)]
mod capture_kinds_tests;
#[cfg(test)]
mod capture_tests;
#[cfg(test)]
mod plan_tests;
#[cfg(test)]
mod tests;
#[cfg(test)]
mod times_tests;
