//! Who makes frames: the library, and other codecs with a plain loop around them.

use yaxopetzo::frame::Setting;

use crate::codecs::{codecs, Codec};

/// Sends and receives frames of one setting. What can be made ready beforehand has been.
pub trait Framer {
    fn name(&self) -> &'static str;
    fn send(&mut self, payload: &[u8], sequence: u16, slots: &mut [u8]);
    /// Fills the area; false where the frame is refused.
    fn receive(&mut self, slots: &[u8], marks: &[u8], area: &mut [u8]) -> bool;
}

/// The library, and a composition of each other codec.
///
/// libfec has no frames. The reference has, but makes its tables again for each word, while the table of words is taken
/// with tables that are ready. So the reference's frames say what is to come out, and its codec is measured in the same
/// loop as libfec.
pub fn framers(s: Setting) -> Option<Vec<Box<dyn Framer>>> {
    let mut framers: Vec<Box<dyn Framer>> = vec![Box::new(Proved { setting: s, map: vec![0; s.slots()] })];
    for codec in codecs(yaxopetzo::word::Setting { m: 8, n: s.n, r: s.r, b: s.b })?.into_iter().skip(1) {
        framers.push(Box::new(Composed { setting: s, codec, area: vec![0; s.area()], marked: Vec::new() }));
    }
    Some(framers)
}

/// The library through its Rust face, with all its checks. It also maps what it changed, which the others do not.
struct Proved {
    setting: Setting,
    map: Vec<u8>,
}

impl Framer for Proved {
    fn name(&self) -> &'static str {
        "library"
    }

    fn send(&mut self, payload: &[u8], sequence: u16, slots: &mut [u8]) {
        let _ = self.setting.send(payload, sequence, slots);
    }

    fn receive(&mut self, slots: &[u8], marks: &[u8], area: &mut [u8]) -> bool {
        self.setting.receive(slots, marks, area, &mut self.map).is_ok()
    }
}

/// A codec of words, with a plain loop that copies each word to its slots and back.
struct Composed {
    setting: Setting,
    codec: Box<dyn Codec>,
    // Both are kept between calls, so that no call waits for memory.
    area: Vec<u8>,
    marked: Vec<usize>,
}

impl Composed {
    /// Corrects one word of the slots into its part of the area.
    fn word(&mut self, w: usize, slots: &[u8], marks: &[u8], part: &mut [u8]) -> bool {
        let Setting { depth, n, .. } = self.setting;
        let (mut word, mut word_marks) = ([0; 255], [0; 255]);
        self.marked.clear();
        for i in 0..n {
            word[i] = slots[i * depth + w];
            word_marks[i] = marks[i * depth + w];
            if word_marks[i] == 1 {
                self.marked.push(i);
            }
        }
        let accepted = self.codec.decode(&mut word[..n], &word_marks[..n], &self.marked);
        part.copy_from_slice(&word[..part.len()]);
        accepted
    }
}

impl Framer for Composed {
    fn name(&self) -> &'static str {
        self.codec.name()
    }

    fn send(&mut self, payload: &[u8], sequence: u16, slots: &mut [u8]) {
        let Setting { depth, n, r, .. } = self.setting;
        let end = self.area.len() - 4;
        let (zeros, held) = self.area[..end].split_at_mut(end - payload.len());
        zeros.fill(0);
        held.copy_from_slice(payload);
        self.area[end..end + 2].copy_from_slice(&(payload.len() as u16).to_le_bytes());
        self.area[end + 2..].copy_from_slice(&sequence.to_le_bytes());
        let mut word = [0; 255];
        for (w, message) in self.area.chunks(n - r).enumerate() {
            self.codec.encode(message, &mut word[..n]);
            for i in 0..n {
                slots[i * depth + w] = word[i];
            }
        }
    }

    fn receive(&mut self, slots: &[u8], marks: &[u8], area: &mut [u8]) -> bool {
        let k = self.setting.n - self.setting.r;
        if !area.chunks_mut(k).enumerate().all(|(w, part)| self.word(w, slots, marks, part)) {
            return false;
        }
        let end = area.len() - 4;
        let length = u16::from_le_bytes([area[end], area[end + 1]]) as usize;
        length <= end && area[..end - length].iter().all(|&byte| byte == 0)
    }
}
