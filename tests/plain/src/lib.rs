//! The replay of document 01 with requests 1/12, 2/12 and 3/12 in plain Rust, to be measured beside the proved one: the text is
//! read once into records, then each order of a stamp is tried from a fresh copy of the chip with its image. It is written from
//! the documents and shares nothing with the proved code.

mod eeprom;
mod flash;
mod image;
mod orders;
mod record;
mod replay;
mod text;
mod times;

pub use replay::{replay, Buffers};
use std::slice;

/// As `hazelcrook_replay` of include/hazelcrook.h, in parameters, answer and what is left in the buffers.
///
/// # Safety
///
/// Each pointer is to as many bytes as its length says, and no two buffers overlap.
#[no_mangle]
#[allow(clippy::too_many_arguments)]
pub unsafe extern "C" fn plain_replay(
    text: *const u8,
    text_len: usize,
    flash: *mut u8,
    flash_len: usize,
    flash_mask: *mut u8,
    flash_mask_len: usize,
    eeprom: *mut u8,
    eeprom_len: usize,
    eeprom_mask: *mut u8,
    eeprom_mask_len: usize,
    times: *mut u8,
    times_len: usize,
    replies: *mut u8,
    replies_len: usize,
    result: *mut u8,
    result_len: usize,
) -> u32 {
    let text = if text_len == 0 { &[] } else { slice::from_raw_parts(text, text_len) };
    let mut buffers = Buffers {
        flash: lent(flash, flash_len),
        flash_mask: lent(flash_mask, flash_mask_len),
        eeprom: lent(eeprom, eeprom_len),
        eeprom_mask: lent(eeprom_mask, eeprom_mask_len),
        times: lent(times, times_len),
        replies: lent(replies, replies_len),
        result: lent(result, result_len),
    };
    replay(text, &mut buffers)
}

/// A caller may lend nothing by any pointer.
unsafe fn lent<'a>(bytes: *mut u8, len: usize) -> &'a mut [u8] {
    if len == 0 {
        &mut []
    } else {
        slice::from_raw_parts_mut(bytes, len)
    }
}
