//! When each page was last written (request 1/12).

pub const FLASH_PAGES: usize = 128;
pub const EEPROM_PAGES: usize = 512;
/// The bytes of an entry.
pub const ENTRY: usize = 5;

/// For each page of a chip the stamp of the last cycle that ended or was cut on it; None is never.
pub type Times = Vec<Option<u32>>;

/// The table of all entries, the flash's first.
pub fn table(flash: &Times, eeprom: &Times) -> Vec<u8> {
    flash.iter().chain(eeprom).flat_map(|&time| entry(time)).collect()
}

/// A mark, and the stamp's four bytes with the low one first.
fn entry(time: Option<u32>) -> Vec<u8> {
    let mut entry = vec![u8::from(time.is_some())];
    entry.extend(time.unwrap_or(0).to_le_bytes());
    entry
}
