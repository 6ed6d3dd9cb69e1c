//! Cases with their whole outcome written by hand, from the rules and not from the model.

mod bad_fields;
mod bench_sheet;
mod buffers;
pub mod captures;
mod cut_pages;
mod doubts;
mod eeprom_cases;
mod flash_cases;
mod forms;
mod page_times;
pub mod plans;
mod script;
mod ties;

use crate::model::call::Call;
pub use script::Start;

/// A call, what it must answer, and all buffers as they must be afterwards.
pub struct Fixed {
    pub name: String,
    pub call: Call,
    pub answer: u32,
    pub after: Call,
}

pub fn all() -> Vec<Fixed> {
    let mut cases = Vec::new();
    cases.extend(bench_sheet::cases());
    cases.extend(forms::cases());
    cases.extend(bad_fields::cases());
    cases.extend(flash_cases::cases());
    cases.extend(eeprom_cases::cases());
    cases.extend(cut_pages::cases());
    cases.extend(page_times::cases());
    cases.extend(doubts::cases());
    cases.extend(ties::cases());
    cases.extend(buffers::cases());
    cases
}
