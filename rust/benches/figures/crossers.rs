//! Who sends on the cross line: the library, and other codecs with queues between their two words.

use std::collections::VecDeque;

use yaxopetzo::cross::{Receiver, Sender, MEMORY, WORD};
use yaxopetzo::word::Setting;

use crate::codecs::{codecs, Codec};

/// Both ends of a cross line. What can be made ready beforehand has been.
pub trait Crosser {
    fn name(&self) -> &'static str;
    fn send(&mut self, message: &[u8; 24], word: &mut [u8; 32]);
    /// False where no message comes out.
    fn receive(&mut self, word: &[u8; 32], message: &mut [u8; 24]) -> bool;
}

/// The library, and a composition of each other codec: libfec has no cross line.
pub fn crossers() -> Option<Vec<Box<dyn Crosser>>> {
    let outer = codecs(Setting { m: 8, n: 28, r: 4, b: 0 })?;
    let inner = codecs(Setting { m: 8, n: 32, r: 4, b: 0 })?;
    let mut crossers: Vec<Box<dyn Crosser>> = vec![Box::new(Proved::fresh()?)];
    for (outer, inner) in outer.into_iter().zip(inner).skip(1) {
        crossers.push(Box::new(Composed::fresh(outer, inner)));
    }
    Some(crossers)
}

/// The library through its Rust face, with all its checks; its ends are put away between calls. It also maps what it changed,
/// which the others do not.
struct Proved {
    sending: usize,
    sent: [u8; MEMORY],
    receiving: usize,
    heard: [u8; MEMORY],
    held: [u8; MEMORY],
    map: [u8; WORD],
}

impl Proved {
    fn fresh() -> Option<Proved> {
        let (mut sent, mut heard, mut held) = ([0; MEMORY], [0; MEMORY], [0; MEMORY]);
        let sending = Sender::fresh(&mut sent).ok()?.position();
        let receiving = Receiver::fresh(&mut heard, &mut held).ok()?.position();
        Some(Proved { sending, sent, receiving, heard, held, map: [0; WORD] })
    }
}

impl Crosser for Proved {
    fn name(&self) -> &'static str {
        "library"
    }

    fn send(&mut self, message: &[u8; 24], word: &mut [u8; 32]) {
        let mut sender = Sender::resume(self.sending, &mut self.sent);
        let _ = sender.send(message, word);
        self.sending = sender.position();
    }

    fn receive(&mut self, word: &[u8; 32], message: &mut [u8; 24]) -> bool {
        let mut receiver = Receiver::resume(self.receiving, &mut self.heard, &mut self.held);
        let answer = receiver.receive(word, message, &mut self.map);
        self.receiving = receiver.position();
        answer.is_ok()
    }
}

/// Two codecs of words, with a queue for each byte of the outer one.
struct Composed {
    outer: Box<dyn Codec>,
    inner: Box<dyn Codec>,
    sent: Vec<VecDeque<u8>>,
    heard: Vec<VecDeque<(u8, u8)>>,
    // Kept between calls, so that no call waits for memory.
    marked: Vec<usize>,
}

impl Composed {
    fn fresh(outer: Box<dyn Codec>, inner: Box<dyn Codec>) -> Composed {
        let sent = (0..28).map(|i| VecDeque::from(vec![0; 4 * i])).collect();
        let heard = (0..28).map(|i| VecDeque::from(vec![(0, 1); 4 * (27 - i)])).collect();
        Composed { outer, inner, sent, heard, marked: Vec::new() }
    }
}

impl Crosser for Composed {
    fn name(&self) -> &'static str {
        self.outer.name()
    }

    fn send(&mut self, message: &[u8; 24], word: &mut [u8; 32]) {
        let mut bytes = [0; 28];
        self.outer.encode(message, &mut bytes);
        for (queue, byte) in self.sent.iter_mut().zip(&mut bytes) {
            queue.push_back(*byte);
            *byte = queue.pop_front().unwrap_or(*byte);
        }
        self.inner.encode(&bytes, word);
    }

    fn receive(&mut self, word: &[u8; 32], message: &mut [u8; 24]) -> bool {
        let mut word = *word;
        let mark = !self.inner.decode(&mut word, &[0; 32], &[]) as u8;
        let (mut bytes, mut marks) = ([0; 28], [0; 28]);
        self.marked.clear();
        for (i, queue) in self.heard.iter_mut().enumerate() {
            queue.push_back((word[i], mark));
            (bytes[i], marks[i]) = queue.pop_front().unwrap_or((word[i], mark));
            if marks[i] == 1 {
                self.marked.push(i);
            }
        }
        let accepted = self.outer.decode(&mut bytes, &marks, &self.marked);
        message.copy_from_slice(&bytes[..24]);
        accepted
    }
}
