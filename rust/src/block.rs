//! The block interleaver: `depth` words of n bytes, and as many slots in the order in which they are sent.

use crate::answer::{answered, Refusal};
use crate::ffi;

/// Spreads words, which lie end to end, over the slots: byte i of word w goes to slot i · depth + w.
///
/// `depth` is 1 to 16, n is 3 to 255, both buffers have depth · n bytes. Refused 1 or 2; the slots then stay.
pub fn spread(depth: usize, n: usize, words: &[u8], slots: &mut [u8]) -> Result<(), Refusal> {
    answered(ffi::block_spread(depth, n, words, slots), ())
}

/// The way back: the slots are read, the words written. It serves marks as well as bytes.
pub fn gather(depth: usize, n: usize, slots: &[u8], words: &mut [u8]) -> Result<(), Refusal> {
    answered(ffi::block_gather(depth, n, slots, words), ())
}
