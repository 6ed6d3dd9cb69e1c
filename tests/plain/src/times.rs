//! When each page was last written, and the table of it (request 1/12).

pub const FLASH_PAGES: usize = 128;
pub const EEPROM_PAGES: usize = 512;
const ENTRY: usize = 5;
pub const TABLE: usize = ENTRY * (FLASH_PAGES + EEPROM_PAGES);

/// The stamp of the last cycle that ended or was cut on a page, where there was one.
pub type Time = Option<u32>;

/// Lays the entries down, the flash's first; the table is TABLE bytes long.
pub fn give(flash: &[Time; FLASH_PAGES], eeprom: &[Time; EEPROM_PAGES], table: &mut [u8]) {
    table.fill(0);
    for (entry, time) in table.chunks_exact_mut(ENTRY).zip(flash.iter().chain(eeprom)) {
        if let Some(stamp) = time {
            entry[0] = 1;
            entry[1..].copy_from_slice(&stamp.to_le_bytes());
        }
    }
}
