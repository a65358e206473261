//! A morning's frames at once: document 02, No. 2. They are cut apart, and each is received as if it came alone.

use crate::frame::{self, Frame, Setting};
use crate::record::Record;

/// One frame's result: answer, word, sequence number, payload's length, and e, f and bits of each of 16 words.
pub type Numbers = [u16; 52];

/// Frames end to end, and the areas, maps and results that are lent for them.
#[derive(Clone, Debug, PartialEq, Eq)]
pub struct Morning {
    pub slots: Vec<u8>,
    pub marks: Vec<u8>,
    pub areas: Vec<u8>,
    pub maps: Vec<u8>,
    pub results: Vec<Numbers>,
}

/// What one frame is answered, or number and word of its refusal.
pub type Answer = Result<Frame, (u8, usize)>;

/// An answer as numbers. What it does not have is 0.
pub fn numbers(answer: &Answer) -> Numbers {
    let told: Vec<usize> = match answer {
        Ok(frame) => {
            let figures = frame.figures.iter().flat_map(|found| [found.errors, found.marked, found.bits]);
            [0, 0, frame.sequence as usize, frame.payload.len()].into_iter().chain(figures).collect()
        }
        Err((number, word)) => vec![*number as usize, *word],
    };
    let mut numbers = [0; 52];
    numbers.iter_mut().zip(told).for_each(|(place, number)| *place = number as u16);
    numbers
}

/// What each frame is answered, in order; the results say it in numbers. Refused as a whole 1, 2.
pub fn hear(record: &mut Record, setting: Setting, morning: &mut Morning) -> Result<Vec<Answer>, u8> {
    if !setting.is_allowed() {
        return Err(1);
    }
    let (slots, area) = (setting.slots(), setting.area());
    let Morning { slots: heard, marks, areas, maps, results } = morning;
    if heard.len() > 64 * slots {
        return Err(1);
    }
    // As many slots as marks and as bytes of maps, so many times those of a frame, and as many areas and results.
    let frames = (0..=64).find(|count| count * slots == heard.len()).ok_or(2)?;
    let lengths = [marks.len(), maps.len(), areas.len(), results.len()];
    if lengths != [frames * slots, frames * slots, frames * area, frames] {
        return Err(2);
    }
    let received = heard.chunks(slots).zip(marks.chunks(slots));
    let lent = areas.chunks_mut(area).zip(maps.chunks_mut(slots));
    let mut answers = Vec::new();
    for ((slots, marks), (area, map)) in received.zip(lent) {
        let answer = frame::receive(setting, slots, marks, area, map);
        match &answer {
            Ok(frame) => record.note(0, frame.sequence),
            Err((number, _)) => record.note(*number, 0),
        }
        answers.push(answer);
    }
    *results = answers.iter().map(numbers).collect();
    Ok(answers)
}
