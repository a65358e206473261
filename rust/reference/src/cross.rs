//! The cross line as queues of frames.

use std::collections::VecDeque;

use crate::code::{changes, Code, Figures};

/// The frames after which a receiver has whole outer words.
pub const HELD_BACK: usize = 108;

/// Both codes have r = 4 and b = 0; outer words have 28 bytes, inner words 32.
fn codes() -> Option<(Code, Code)> {
    Some((Code::new(8, 28, 4, 0)?, Code::new(8, 32, 4, 0)?))
}

pub struct Sender {
    outer: Code,
    inner: Code,
    queues: Vec<VecDeque<u8>>,
}

impl Sender {
    pub fn fresh() -> Option<Sender> {
        let (outer, inner) = codes()?;
        let queues = (0..28).map(|i| VecDeque::from(vec![0; 4 * i])).collect();
        Some(Sender { outer, inner, queues })
    }

    /// The inner word of the bytes that are due once the message's outer word has gone in.
    pub fn frame(&mut self, message: &[u8; 24]) -> [u8; 32] {
        let mut bytes = [0; 28];
        self.outer.encode(message, &mut bytes);
        for (queue, byte) in self.queues.iter_mut().zip(&mut bytes) {
            queue.push_back(*byte);
            *byte = queue.pop_front().unwrap_or(*byte);
        }
        let mut word = [0; 32];
        self.inner.encode(&bytes, &mut word);
        word
    }
}

pub struct Receiver {
    outer: Code,
    inner: Code,
    queues: Vec<VecDeque<(u8, u8)>>,
    frames: usize,
}

impl Receiver {
    pub fn fresh() -> Option<Receiver> {
        let (outer, inner) = codes()?;
        let queues = (0..28).map(|i| VecDeque::from(vec![(0, 1); 4 * (27 - i)])).collect();
        Some(Receiver { outer, inner, queues, frames: 0 })
    }

    /// Answers 7 for the first 108 frames and leaves the message; then 0 with the message, or 4 with zeros. The map is that
    /// of the inner word under each of them; one that is refused stays as received.
    pub fn frame(&mut self, received: &[u8; 32], message: &mut [u8; 24], map: &mut [u8; 32]) -> Result<Figures, u8> {
        let mut word = *received;
        let mark = self.inner.decode(&mut word, &[0; 32]).is_none() as u8;
        map.copy_from_slice(&changes(received, &word));
        let mut bytes = [0; 28];
        let mut marks = [0; 28];
        for (i, queue) in self.queues.iter_mut().enumerate() {
            queue.push_back((word[i], mark));
            (bytes[i], marks[i]) = queue.pop_front().unwrap_or((word[i], mark));
        }
        self.frames += 1;
        if self.frames <= HELD_BACK {
            return Err(7);
        }
        match self.outer.decode(&mut bytes, &marks) {
            Some(figures) => {
                message.copy_from_slice(&bytes[..24]);
                Ok(figures)
            }
            None => {
                *message = [0; 24];
                Err(4)
            }
        }
    }
}
