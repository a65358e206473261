//! The cross line: the compact disc's two codes, 24 message bytes a frame, sent as 32 and spread over 109 frames.
//!
//! A message leaves the receiver 108 frames after it went into the sender. Memories of [`MEMORY`] bytes are lent, as on
//! the [delay line](crate::line).

use crate::answer::{answered, Figures, Refusal};
use crate::ffi;

/// The bytes of a message.
pub const MESSAGE: usize = 24;
/// The bytes of a frame on the channel, an inner word.
pub const WORD: usize = 32;
/// The bytes of a memory. A receiver has a second one for its marks.
pub const MEMORY: usize = 1512;
/// The frames between a message's way in and its way out.
pub const DELAY: usize = 108;

/// The sending end over a lent memory.
#[derive(Debug)]
pub struct Sender<'a> {
    position: usize,
    memory: &'a mut [u8],
}

impl<'a> Sender<'a> {
    /// A sender at position 0; fills the memory with zeros. Refused 2 for its length, and it stays as it was.
    pub fn fresh(memory: &'a mut [u8]) -> Result<Sender<'a>, Refusal> {
        let ready = ffi::cross_fresh_sender(memory);
        answered(ready.answer, Sender { position: ready.position, memory })
    }

    /// A sender as it was put away: its memory and its position. Nothing is checked until it sends.
    pub fn resume(position: usize, memory: &'a mut [u8]) -> Sender<'a> {
        Sender { position, memory }
    }

    /// Where the line stands; with the memory it is all there is to keep.
    pub fn position(&self) -> usize {
        self.position
    }

    /// Takes a message of 24 bytes and writes the frame of 32 that is due.
    ///
    /// Refused 1 for a position that no number of frames reaches, 2 for a length; all then stays as it was.
    pub fn send(&mut self, message: &[u8], word: &mut [u8]) -> Result<(), Refusal> {
        let ready = ffi::cross_send(self.position, self.memory, message, word);
        self.position = ready.position;
        answered(ready.answer, ())
    }
}

/// The receiving end over two lent memories, for bytes and for their marks.
#[derive(Debug)]
pub struct Receiver<'a> {
    position: usize,
    memory: &'a mut [u8],
    held: &'a mut [u8],
}

impl<'a> Receiver<'a> {
    /// A receiver at position 0; fills the memory with zeros, and `held`, their marks, with ones. Refused 2 for a
    /// length, and both stay as they were.
    pub fn fresh(memory: &'a mut [u8], held: &'a mut [u8]) -> Result<Receiver<'a>, Refusal> {
        let ready = ffi::cross_fresh_receiver(memory, held);
        answered(ready.answer, Receiver { position: ready.position, memory, held })
    }

    /// A receiver as it was put away: its memories and its position. Nothing is checked until it receives.
    pub fn resume(position: usize, memory: &'a mut [u8], held: &'a mut [u8]) -> Receiver<'a> {
        Receiver { position, memory, held }
    }

    /// Where the line stands. Below 108 the next answer is [`Refusal::NotYet`].
    pub fn position(&self) -> usize {
        self.position
    }

    /// Takes a received frame of 32 bytes and writes the message of 24 that is due, with the outer word's figures.
    ///
    /// Refused 7 for the first 108 frames: the line has taken the frame, and the message bytes stay. Refused 4 where the
    /// outer word is beyond reach: the line has taken the frame, and the message bytes are zeros. Refused 1, 2 and 3 (a
    /// mark above 1 that is held), all stays as it was.
    ///
    /// `map` has 32 bytes. Wherever the line has taken the frame, under 0, 7 and 4, it becomes 1 at each byte of this frame
    /// that the inner code changed and 0 elsewhere; it is zeros where the inner word was beyond reach.
    pub fn receive(&mut self, word: &[u8], message: &mut [u8], map: &mut [u8]) -> Result<Figures, Refusal> {
        let received = ffi::cross_receive(self.position, self.memory, self.held, word, message, map);
        self.position = received.position;
        answered(received.answer, received.figures.into())
    }
}
