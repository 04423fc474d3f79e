//! Which bytes of a message are given.

/// The most bytes of a message.
pub const MAX_BYTES: usize = 256;

/// A bit for each byte of a message, set if the byte is given.
#[derive(Clone, Copy, PartialEq)]
pub struct Given([u64; MAX_BYTES / 64]);

impl Given {
    pub const NONE: Given = Given([0; MAX_BYTES / 64]);

    pub fn has(&self, place: usize) -> bool {
        self.0[place / 64] >> (place % 64) & 1 == 1
    }

    pub fn add(&mut self, place: usize) {
        self.0[place / 64] |= 1 << (place % 64);
    }
}
