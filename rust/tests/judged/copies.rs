//! Two copies of a frame: how they are made, and the comparison of all that both sides leave.

use reference::code::changes;
use reference::frame as frames;
use reference::masts::{self as plain, Answer, Reception};
use reference::noise::Noise;
use yaxopetzo::frame::{Refused, Setting};
use yaxopetzo::masts::{Chosen, Heard, Mast};
use yaxopetzo::record::Record;

use crate::map::old;
use crate::{frame, record};

fn lent(heard: &mut Reception) -> Heard<'_> {
    Heard { slots: &heard.slots, marks: &heard.marks, area: &mut heard.area, map: &mut heard.map }
}

/// The reference's form of what the face answers. The payload must be a part of the used mast's area.
fn told(answer: Result<Chosen, Refused>, ends: [usize; 2]) -> Answer {
    let chosen = answer.map_err(frame::numbered)?;
    let (mast, end) = match chosen.mast {
        Mast::First => (1, ends[0]),
        Mast::Second => (2, ends[1]),
    };
    Ok(plain::Chosen { mast, frame: frame::accepted(chosen.frame, end) })
}

/// Both copies through the face, with the record where one is lent.
fn heard(s: Setting, record: Option<&mut Record>, masts: &mut [Reception; 2]) -> Answer {
    let [first, second] = masts;
    let ends = [frame::end(&first.area), frame::end(&second.area)];
    let (first, second) = (lent(first), lent(second));
    match record {
        Some(record) => told(s.hear_masts(record, first, second), ends),
        None => told(s.receive_masts(first, second), ends),
    }
}

/// Receives on both sides, alone and with the record; gives the answer, and both copies with what is left in their buffers.
pub fn compared(s: Setting, record: &mut Record, masts: &[Reception; 2]) -> (Answer, [Reception; 2]) {
    let (mut ours, mut alone, mut theirs) = (masts.clone(), masts.clone(), masts.clone());
    let mut judge = record::plain(*record);
    let answer = heard(s, Some(record), &mut ours);
    assert_eq!(answer, plain::hear(&mut judge, frame::plain(s), &mut theirs), "{s:?}");
    assert_eq!(ours, theirs, "{s:?}");
    record::same(record, &judge, || format!("{s:?}"));
    assert_eq!(heard(s, None, &mut alone), answer, "{s:?}");
    assert_eq!(alone, ours, "{s:?}");
    // Each area and each map is as the copy's own call leaves it.
    for (mast, left) in masts.iter().zip(&ours) {
        let mut own = mast.clone();
        let _ = s.receive(&mast.slots, &mast.marks, &mut own.area, &mut own.map);
        assert_eq!(own, *left, "{s:?}");
    }
    (answer, ours)
}

/// The area of a frame with this number and some payload.
pub fn area(noise: &mut Noise, s: Setting, sequence: u16) -> Vec<u8> {
    let room = s.area() - 4;
    let size = *[0, room, noise.below(room + 1)].get(noise.below(3)).unwrap_or(&0);
    frames::area_of(frame::plain(s), &noise.bytes(size), sequence)
}

/// Whether the answer is the frame of this area, from this mast.
pub fn gives(s: Setting, answer: &Answer, mast: usize, area: &[u8]) -> bool {
    let whole = |frame: &frames::Frame| frames::area_of(frame::plain(s), &frame.payload, frame.sequence);
    matches!(answer, Ok(used) if used.mast == mast && whole(&used.frame) == area)
}

/// 2e + f for each word, within the bound; not all are 0.
pub fn amounts(noise: &mut Noise, s: Setting) -> Vec<usize> {
    let mut amounts: Vec<usize> = (0..s.depth).map(|_| noise.below(s.r + 1)).collect();
    amounts[noise.below(s.depth)] = noise.between(1, s.r);
    amounts
}

/// A copy of the frame with this area, in which 2e + f of each word is as named, in places and shares of its own.
pub fn copy(noise: &mut Noise, s: Setting, area: &[u8], amounts: &[usize]) -> Reception {
    let mut slots = frames::slots_of(frame::plain(s), area);
    let mut marks = vec![0; slots.len()];
    for (w, amount) in amounts.iter().enumerate() {
        let e = noise.below(amount / 2 + 1);
        frame::strike(noise, s, w, (e, amount - 2 * e), &mut slots, &mut marks);
    }
    let map = old(slots.len());
    Reception { slots, marks, area: noise.bytes(area.len()), map }
}

/// A copy of the frame with this area as its own call leaves it where it is accepted.
pub fn mended(s: Setting, copy: &Reception, area: &[u8]) -> Reception {
    let map = changes(&copy.slots, &frames::slots_of(frame::plain(s), area));
    Reception { area: area.to_vec(), map, ..copy.clone() }
}

/// A copy whose own answer is known, with the word that is named then and what its own call leaves.
pub struct Known {
    pub copy: Reception,
    pub word: usize,
    pub left: Reception,
}

/// A damaged copy of the frame with this area that is accepted, or refused 2 to 5.
pub fn known(noise: &mut Noise, s: Setting, number: u8, area: &[u8]) -> Known {
    let mut sent = area.to_vec();
    if number == 5 {
        let end = area.len() - 4;
        let back = noise.between(end + 1, 65535) as u16;
        sent[end..end + 2].copy_from_slice(&back.to_le_bytes());
    }
    let amounts = amounts(noise, s);
    let mut copy = copy(noise, s, &sent, &amounts);
    let mut word = 0;
    match number {
        2 => resize(noise, &mut copy),
        3 => copy.marks[noise.below(s.slots())] = noise.between(2, 255) as u8,
        4 => {
            // More marks than check bytes are beyond reach, whatever the slots hold.
            word = noise.below(s.depth);
            noise.places(s.n, s.r + 1).iter().for_each(|i| copy.marks[i * s.depth + word] = 1);
        }
        _ => {}
    }
    let left = match number {
        0 => mended(s, &copy, area),
        2 | 3 => copy.clone(),
        _ => Reception { area: vec![0; area.len()], map: vec![0; s.slots()], ..copy.clone() },
    };
    Known { copy, word, left }
}

/// Gives one of a copy's buffers another length: one less, one more, or none.
fn resize(noise: &mut Noise, copy: &mut Reception) {
    let buffer = match noise.below(4) {
        0 => &mut copy.slots,
        1 => &mut copy.marks,
        2 => &mut copy.area,
        _ => &mut copy.map,
    };
    match noise.below(3) {
        0 => buffer.truncate(buffer.len() - 1),
        1 => buffer.push(0),
        _ => buffer.clear(),
    }
}
