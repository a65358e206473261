//! A frame: a message area with its trailer, as J interleaved words.

use crate::block;
use crate::code::{changes, Figures};
use crate::word::{self, Setting as Code};

/// J, n, r and b.
#[derive(Clone, Copy, Debug, PartialEq, Eq)]
pub struct Setting {
    pub depth: usize,
    pub n: usize,
    pub r: usize,
    pub b: usize,
}

impl Setting {
    fn code(self) -> Code {
        Code { m: 8, n: self.n, r: self.r, b: self.b }
    }

    pub fn is_allowed(self) -> bool {
        self.code().code().is_ok() && (1..=16).contains(&self.depth) && self.area() >= 4
    }

    /// A, the bytes of the message area.
    pub fn area(self) -> usize {
        self.depth * (self.n - self.r)
    }

    pub fn slots(self) -> usize {
        self.depth * self.n
    }
}

/// An accepted frame.
#[derive(Clone, Debug, PartialEq, Eq)]
pub struct Frame {
    pub sequence: u16,
    pub payload: Vec<u8>,
    pub figures: Vec<Figures>,
}

/// The area of a payload and a sequence number.
pub fn area_of(setting: Setting, payload: &[u8], sequence: u16) -> Vec<u8> {
    let mut area = vec![0; setting.area() - 4 - payload.len()];
    area.extend_from_slice(payload);
    area.extend_from_slice(&(payload.len() as u16).to_le_bytes());
    area.extend_from_slice(&sequence.to_le_bytes());
    area
}

/// The slots of an area, whatever it holds.
pub fn slots_of(setting: Setting, area: &[u8]) -> Vec<u8> {
    let mut words = vec![0; setting.slots()];
    let k = setting.n - setting.r;
    for (message, word) in area.chunks(k).zip(words.chunks_mut(setting.n)) {
        let _ = word::encode(setting.code(), message, word);
    }
    let mut slots = vec![0; setting.slots()];
    let _ = block::spread(setting.depth.max(1), setting.n, &words, &mut slots);
    slots
}

/// Refused 1, 2, 6.
pub fn send(setting: Setting, payload: &[u8], sequence: u16, slots: &mut [u8]) -> Result<(), u8> {
    if !setting.is_allowed() {
        return Err(1);
    }
    if slots.len() != setting.slots() {
        return Err(2);
    }
    if payload.len() > setting.area() - 4 {
        return Err(6);
    }
    slots.copy_from_slice(&slots_of(setting, &area_of(setting, payload, sequence)));
    Ok(())
}

/// Refused 1, 2, 3, 4 with the first refused word's number, 5. Under 4 and 5 area and map are zeros.
pub fn receive(
    setting: Setting,
    slots: &[u8],
    marks: &[u8],
    area: &mut [u8],
    map: &mut [u8],
) -> Result<Frame, (u8, usize)> {
    if !setting.is_allowed() {
        return Err((1, 0));
    }
    let lengths = [slots.len(), marks.len(), map.len()];
    if lengths != [setting.slots(); 3] || area.len() != setting.area() {
        return Err((2, 0));
    }
    if marks.iter().any(|&mark| mark > 1) {
        return Err((3, 0));
    }
    let answer = words(setting, slots, marks, area).and_then(|figures| {
        let (sequence, payload) = trailer(area).ok_or((5, 0))?;
        Ok(Frame { sequence, payload, figures })
    });
    if answer.is_err() {
        area.fill(0);
        map.fill(0);
        return answer;
    }
    // The words' own maps are not asked: the corrected slots are those that the area would be sent as.
    map.copy_from_slice(&changes(slots, &slots_of(setting, area)));
    answer
}

/// Document 02, No. 9: every word is looked at, and the first of those that are no codeword is taken. Refused 1, 2.
pub fn first_unclean(setting: Setting, slots: &[u8]) -> Result<Option<usize>, u8> {
    if !setting.is_allowed() {
        return Err(1);
    }
    if slots.len() != setting.slots() {
        return Err(2);
    }
    let mut words = vec![0; slots.len()];
    block::gather(setting.depth, setting.n, slots, &mut words)?;
    let clean = words.chunks(setting.n).map(|word| word::is_clean(setting.code(), word));
    let clean: Vec<bool> = clean.collect::<Result<_, u8>>()?;
    Ok((0..setting.depth).filter(|&w| !clean[w]).min())
}

/// Decodes every word into its part of the area.
fn words(setting: Setting, slots: &[u8], marks: &[u8], area: &mut [u8]) -> Result<Vec<Figures>, (u8, usize)> {
    let take = |from: &[u8], w: usize| -> Vec<u8> { from.iter().skip(w).step_by(setting.depth).copied().collect() };
    let (mut figures, mut unread) = (Vec::new(), vec![0; setting.n]);
    for (w, part) in area.chunks_mut(setting.n - setting.r).enumerate() {
        let answer = word::decode_part(setting.code(), &take(slots, w), &take(marks, w), part, &mut unread);
        figures.push(answer.map_err(|number| (number, w))?);
    }
    Ok(figures)
}

/// The sequence number and the payload that the trailer points back to.
fn trailer(area: &[u8]) -> Option<(u16, Vec<u8>)> {
    let end = area.len() - 4;
    let back = area[end] as usize + 256 * area[end + 1] as usize;
    let start = end.checked_sub(back)?;
    if area[..start].iter().any(|&byte| byte != 0) {
        return None;
    }
    let sequence = area[end + 2] as u16 + 256 * area[end + 3] as u16;
    Some((sequence, area[start..end].to_vec()))
}
