//! Two masts: document 02, No. 1. The accepted copies stand in a list, the least damaged one at its head.

use crate::frame::{self, Frame, Setting};
use crate::record::Record;

/// What one mast heard, the area that its copy is decoded into, and the copy's own map.
#[derive(Clone, Debug, PartialEq, Eq)]
pub struct Reception {
    pub slots: Vec<u8>,
    pub marks: Vec<u8>,
    pub area: Vec<u8>,
    pub map: Vec<u8>,
}

/// The copy that is used.
#[derive(Clone, Debug, PartialEq, Eq)]
pub struct Chosen {
    /// 1 or 2.
    pub mast: usize,
    pub frame: Frame,
}

/// What both copies are answered, or number and word of the refusal.
pub type Answer = Result<Chosen, (u8, usize)>;

/// Refused 8 for two frames that are not one, or as the first copy is where both are refused.
pub fn receive(setting: Setting, masts: &mut [Reception; 2]) -> Answer {
    let (mut candidates, mut refusals) = (Vec::new(), Vec::new());
    for (number, heard) in masts.iter_mut().enumerate() {
        match frame::receive(setting, &heard.slots, &heard.marks, &mut heard.area, &mut heard.map) {
            Ok(frame) => candidates.push(Chosen { mast: number + 1, frame }),
            Err(refusal) => refusals.push(refusal),
        }
    }
    candidates.sort_by_key(|copy| (damage(&copy.frame), copy.mast));
    let mut numbers: Vec<u16> = candidates.iter().map(|copy| copy.frame.sequence).collect();
    numbers.dedup();
    match numbers.len() {
        0 => Err(refusals[0]),
        1 => Ok(candidates.swap_remove(0)),
        _ => Err((8, 0)),
    }
}

/// 2e + f over all words.
fn damage(frame: &Frame) -> usize {
    frame.figures.iter().map(|word| 2 * word.errors + word.marked).sum()
}

/// The same, and the record is told of one frame.
pub fn hear(record: &mut Record, setting: Setting, masts: &mut [Reception; 2]) -> Answer {
    let answer = receive(setting, masts);
    match &answer {
        Ok(copy) => record.note(0, copy.frame.sequence),
        Err((number, _)) => record.note(*number, 0),
    }
    answer
}
