//! A chip's kept bytes: values, and masks of doubtful bits ("Bytes and doubt").

pub const KEPT: usize = 32_768;

/// Aligned to cache lines, so that copies are quick.
#[derive(Clone, Copy, PartialEq, Eq)]
#[repr(align(64))]
pub struct Image {
    pub values: [u8; KEPT],
    pub masks: [u8; KEPT],
}

impl Image {
    pub const BLANK: Image = Image { values: [0; KEPT], masks: [0; KEPT] };

    /// Both parts are KEPT bytes long.
    pub fn take(&mut self, values: &[u8], masks: &[u8]) {
        self.values.copy_from_slice(values);
        self.masks.copy_from_slice(masks);
    }

    pub fn give(&self, values: &mut [u8], masks: &mut [u8]) {
        values.copy_from_slice(&self.values);
        masks.copy_from_slice(&self.masks);
    }

    pub fn fill(&mut self, value: u8, mask: u8) {
        self.values.fill(value);
        self.masks.fill(mask);
    }
}

/// Whether some bit is set in a value and in its mask.
pub fn has_bit_in_both(values: &[u8], masks: &[u8]) -> bool {
    values.iter().zip(masks).fold(0, |both, (value, mask)| both | (value & mask)) != 0
}
