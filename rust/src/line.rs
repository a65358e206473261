//! The delay line: every byte goes through one of I branches, each slower than the one before by M turns.
//!
//! A byte that goes into the sender leaves the receiver (I − 1) · M · I steps later. Words go in end to end; a run of
//! damage on the channel then strikes each of them in few places. Memories are lent, and a [`Sender`] or [`Receiver`] is
//! no more than such a loan and a position: it can be put away and made again by `resume`.

use crate::answer::{answered, narrow, Refusal};
use crate::ffi;

/// What a line is set to. Every call checks it.
#[derive(Clone, Copy, Debug, PartialEq, Eq, Hash)]
pub struct Setting {
    /// I: 2 to 16 branches, a divisor of n.
    pub branches: usize,
    /// M: 1 to 128, with M · I at least n.
    pub unit: usize,
    /// Bytes a word: 3 to 255.
    pub n: usize,
}

impl Setting {
    /// ETSI's line for satellite television: memories of 1122 bytes.
    pub const EN_300_421: Setting = Setting { branches: 12, unit: 17, n: 204 };

    /// The bytes of a memory, M · I · (I − 1) / 2. A receiver has a second one as long for its marks.
    ///
    /// For numbers beyond the limits it says something too, which no call will take.
    pub const fn memory(self) -> usize {
        let below = self.branches.saturating_sub(1);
        self.unit.saturating_mul(self.branches.saturating_mul(below)) / 2
    }

    fn line(self) -> ffi::Line {
        ffi::Line { branches: narrow(self.branches), unit: narrow(self.unit), n: narrow(self.n) }
    }
}

/// A line's sending end over a lent memory.
#[derive(Debug)]
pub struct Sender<'a> {
    setting: Setting,
    position: usize,
    memory: &'a mut [u8],
}

impl<'a> Sender<'a> {
    /// A sender at position 0; fills the memory with zeros.
    ///
    /// Refused 1 for the setting, 2 for the memory's length; the memory then stays as it was.
    pub fn fresh(setting: Setting, memory: &'a mut [u8]) -> Result<Sender<'a>, Refusal> {
        let ready = ffi::line_fresh_sender(setting.line(), memory);
        answered(ready.answer, Sender { setting, position: ready.position, memory })
    }

    /// A sender as it was put away: its memory and its position. Nothing is checked until it steps.
    pub fn resume(setting: Setting, position: usize, memory: &'a mut [u8]) -> Sender<'a> {
        Sender { setting, position, memory }
    }

    /// The number of steps so far, modulo the line's period. With the memory it is all there is to keep.
    pub fn position(&self) -> usize {
        self.position
    }

    /// Puts a byte in and gives the one that is due, 0 for the line's first ones.
    ///
    /// Refused 1 for the setting or a position that no number of steps reaches, 2 for the memory's length.
    pub fn step(&mut self, byte: u8) -> Result<u8, Refusal> {
        let sent = ffi::line_send_step(self.setting.line(), self.position, self.memory, byte);
        self.position = sent.position;
        answered(sent.answer, sent.byte)
    }

    /// A step for each byte: what leaves takes the place of what went in. Refused as a step is, and nothing has moved.
    pub fn run(&mut self, bytes: &mut [u8]) -> Result<(), Refusal> {
        let ready = ffi::line_send_run(self.setting.line(), self.position, self.memory, bytes);
        self.position = ready.position;
        answered(ready.answer, ())
    }
}

/// A line's receiving end over two lent memories, for bytes and for their marks.
#[derive(Debug)]
pub struct Receiver<'a> {
    setting: Setting,
    position: usize,
    memory: &'a mut [u8],
    held: &'a mut [u8],
}

impl<'a> Receiver<'a> {
    /// A receiver at position 0; fills the memory with zeros, and `held`, their marks, with ones.
    ///
    /// Refused 1 for the setting, 2 for a length; both then stay as they were.
    pub fn fresh(setting: Setting, memory: &'a mut [u8], held: &'a mut [u8]) -> Result<Receiver<'a>, Refusal> {
        let ready = ffi::line_fresh_receiver(setting.line(), memory, held);
        answered(ready.answer, Receiver { setting, position: ready.position, memory, held })
    }

    /// A receiver as it was put away: its memories and its position. Nothing is checked until it steps.
    pub fn resume(setting: Setting, position: usize, memory: &'a mut [u8], held: &'a mut [u8]) -> Receiver<'a> {
        Receiver { setting, position, memory, held }
    }

    /// The number of steps so far, modulo the line's period.
    pub fn position(&self) -> usize {
        self.position
    }

    /// Puts a byte and its mark in and gives those that are due; the line's first ones are 0 marked 1.
    ///
    /// Refused 1 and 2 as the sender, and 3 for a mark above 1, handed in or held.
    pub fn step(&mut self, byte: u8, mark: u8) -> Result<(u8, u8), Refusal> {
        let line = self.setting.line();
        let received = ffi::line_receive_step(line, self.position, self.memory, self.held, byte, mark);
        self.position = received.position;
        answered(received.answer, (received.byte, received.mark))
    }

    /// A step for each byte with its mark, both in place. Refused as a step is, and 2 where bytes and marks are not
    /// equally many; nothing has moved then.
    pub fn run(&mut self, bytes: &mut [u8], marks: &mut [u8]) -> Result<(), Refusal> {
        let line = self.setting.line();
        let ready = ffi::line_receive_run(line, self.position, self.memory, self.held, bytes, marks);
        self.position = ready.position;
        answered(ready.answer, ())
    }
}
