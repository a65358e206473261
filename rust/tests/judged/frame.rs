//! Frames: sent, damaged, received, and every refusal.

use reference::noise::Noise;
use reference::{code, frame as plain};
use yaxopetzo::frame::{Frame, Refused, Setting};
use yaxopetzo::record::Record;
use yaxopetzo::Refusal;

use crate::map::{frame_laws, old};
use crate::record;
use crate::same::counted;

/// The reference's form of a setting.
pub fn plain(s: Setting) -> plain::Setting {
    plain::Setting { depth: s.depth, n: s.n, r: s.r, b: s.b }
}

/// What an accepted frame holds, or number and word of a refusal.
pub type Answer = Result<plain::Frame, (u8, usize)>;

/// The reference's form of a refusal.
pub fn numbered(refused: Refused) -> (u8, usize) {
    (refused.why.number(), refused.word)
}

/// The address at which an area ends.
pub fn end(area: &[u8]) -> usize {
    area.as_ptr() as usize + area.len()
}

/// The reference's form of a frame that was accepted into the area with this end, of which its payload must be a part.
pub fn accepted(frame: Frame, end: usize) -> plain::Frame {
    assert_eq!(frame.payload.as_ptr() as usize + frame.payload.len() + 4, end, "the payload is no part of the area");
    let figures: Vec<code::Figures> = frame.words().iter().map(|&f| counted(f)).collect();
    plain::Frame { sequence: frame.sequence, payload: frame.payload.to_vec(), figures }
}

/// The reference's form of what the face answers. The payload's place in the area is compared too.
pub fn heard(s: Setting, record: &mut Record, slots: &[u8], marks: &[u8], area: &mut [u8], map: &mut [u8]) -> Answer {
    let end = end(area);
    s.hear(record, slots, marks, area, map).map(|frame| accepted(frame, end)).map_err(numbered)
}

/// Receives on both sides, alone and with the record.
fn received(s: Setting, slots: &[u8], marks: &[u8], before: &[u8]) -> Answer {
    received_into(s, slots, marks, before, &old(slots.len())).0
}

/// The same with a map that holds this; gives the map that is left too.
pub fn received_into(s: Setting, slots: &[u8], marks: &[u8], before: &[u8], map: &[u8]) -> (Answer, Vec<u8>) {
    let (mut ours, mut theirs) = (before.to_vec(), before.to_vec());
    let (mut our_map, mut their_map) = (map.to_vec(), map.to_vec());
    let mut record = Record { accepted: true, last: 7, seen: 0x8000_0005, ..Record::fresh() };
    let mut judge = record::plain(record);
    let answer = heard(s, &mut record, slots, marks, &mut ours, &mut our_map);
    let expected = plain::receive(plain(s), slots, marks, &mut theirs, &mut their_map);
    assert_eq!(answer, expected, "{s:?}");
    assert_eq!((&ours, &our_map), (&theirs, &their_map), "{s:?}");
    frame_laws(s, &answer, slots, marks, map, &our_map);
    match &answer {
        Ok(frame) => judge.note(0, frame.sequence),
        Err((number, _)) => judge.note(*number, 0),
    }
    record::same(&record, &judge, || format!("{s:?}"));
    let (mut alone, mut alone_map) = (before.to_vec(), map.to_vec());
    let number = s.receive(slots, marks, &mut alone, &mut alone_map);
    let number = number.map(|frame| frame.sequence).map_err(|refused| refused.why.number());
    assert_eq!(number, answer.as_ref().map(|frame| frame.sequence).map_err(|refused| refused.0));
    assert_eq!((&alone, &alone_map), (&ours, &our_map), "{s:?}");
    (answer, our_map)
}

/// Sends on both sides.
fn sent(s: Setting, payload: &[u8], sequence: u16, before: &[u8]) -> (Result<(), u8>, Vec<u8>) {
    let (mut ours, mut theirs) = (before.to_vec(), before.to_vec());
    let answer = s.send(payload, sequence, &mut ours).map_err(Refusal::number);
    assert_eq!(answer, plain::send(plain(s), payload, sequence, &mut theirs), "{s:?}");
    assert_eq!(ours, theirs, "{s:?}");
    (answer, ours)
}

/// A setting within the limits, its corners often.
pub fn setting(noise: &mut Noise) -> Setting {
    loop {
        let depth = *[1, 2, 3, 16, noise.between(1, 16)].get(noise.below(5)).unwrap_or(&1);
        let r = *[2, 3, 16, noise.between(2, 16)].get(noise.below(4)).unwrap_or(&2);
        let n = *[r + 1, r + 2, r + 4, 32, 255, noise.between(r + 1, 255)].get(noise.below(6)).unwrap_or(&255);
        let s = Setting { depth, n, r, b: noise.below(2) };
        if n > r && depth * (n - r) >= 4 {
            return s;
        }
    }
}

/// Damages each word within the bound; a word that is named is struck beyond it.
pub fn damage(noise: &mut Noise, s: Setting, slots: &mut [u8], marks: &mut [u8], beyond: Option<usize>) {
    for w in 0..s.depth {
        let f = noise.below(s.r + 1);
        let within = noise.below((s.r - f) / 2 + 1);
        let e = if beyond == Some(w) { (s.r - f) / 2 + 1 } else { within };
        strike(noise, s, w, (e, f), slots, marks);
    }
}

/// Strikes a word in e unmarked places and in f marked ones, of which some stay as they were.
pub fn strike(noise: &mut Noise, s: Setting, w: usize, (e, f): (usize, usize), slots: &mut [u8], marks: &mut [u8]) {
    let places = noise.places(s.n, f + e);
    for (number, place) in places.iter().map(|i| i * s.depth + w).enumerate() {
        marks[place] = (number < f) as u8;
        slots[place] ^= noise.between((number >= f) as usize, 255) as u8;
    }
}

#[test]
fn sent_damaged_and_received() {
    let mut noise = Noise::new(50);
    for round in 0..1500 {
        let s = setting(&mut noise);
        let room = s.depth * (s.n - s.r) - 4;
        let size = *[0, 1, room, noise.below(room + 1)].get(round % 4).unwrap_or(&0);
        let payload = noise.bytes(size.min(room));
        let sequence = noise.number() as u16;
        let (answer, mut slots) = sent(s, &payload, sequence, &noise.bytes(s.depth * s.n));
        assert_eq!(answer, Ok(()));
        let mut marks = vec![0; slots.len()];
        let beyond = (round % 3 == 0).then(|| noise.below(s.depth));
        damage(&mut noise, s, &mut slots, &mut marks, beyond);
        let answer = received(s, &slots, &marks, &noise.bytes(room + 4));
        if beyond.is_none() {
            assert!(matches!(answer, Ok(f) if f.payload == payload && f.sequence == sequence), "{s:?}");
        }
    }
    println!("1500 frames each way");
}

/// Frames one after the other into one record: newer, repeated, late, older and lost ones.
#[test]
fn heard_in_turn() {
    let mut noise = Noise::new(53);
    let s = Setting { depth: 2, n: 9, r: 4, b: 1 };
    let mut record = Record { last: 65000, ..Record::fresh() };
    let mut judge = record::plain(record);
    for _ in 0..20_000 {
        let sequence = record::walked(&mut noise, record.last);
        let mut slots = plain::slots_of(plain(s), &plain::area_of(plain(s), &noise.bytes(3), sequence));
        let mut marks = vec![0; 18];
        let beyond = (noise.below(5) == 0).then_some(1);
        damage(&mut noise, s, &mut slots, &mut marks, beyond);
        let (mut ours, mut theirs) = ([0; 10], [0; 10]);
        let (mut our_map, mut their_map) = (old(18), old(18));
        let answer = heard(s, &mut record, &slots, &marks, &mut ours, &mut our_map);
        assert_eq!(answer, plain::receive(plain(s), &slots, &marks, &mut theirs, &mut their_map));
        judge.note(answer.as_ref().err().map_or(0, |refused| refused.0), answer.map_or(0, |frame| frame.sequence));
        record::same(&record, &judge, || format!("{sequence}"));
        assert_eq!((ours, our_map), (theirs, their_map));
    }
    let counts = [record.newer, record.repeat, record.older, record.refused, record.late];
    assert!(counts.iter().min() > Some(&500), "{counts:?}: the test does not try what it says");
    println!("20000 frames");
}

/// Trailers that point too far back, and bytes before the payload that are not zero.
#[test]
fn trailers() {
    let mut noise = Noise::new(51);
    let mut refused = 0;
    for round in 0..1500 {
        let s = setting(&mut noise);
        let room = s.depth * (s.n - s.r) - 4;
        let back = *[room, room + 1, 65535, 256, noise.below(room + 1)].get(round % 5).unwrap_or(&0);
        let mut area = vec![0; room + 4];
        area[room] = back as u8;
        area[room + 1] = (back >> 8) as u8;
        area[room + 2] = noise.byte();
        if back <= room {
            let start = room - back;
            let fill = noise.bytes(back);
            area[start..room].copy_from_slice(&fill);
            if start > 0 && noise.below(2) == 0 {
                area[noise.below(start)] = 1;
            }
        }
        let mut slots = plain::slots_of(plain(s), &area);
        let mut marks = vec![0; slots.len()];
        damage(&mut noise, s, &mut slots, &mut marks, None);
        refused += (received(s, &slots, &marks, &noise.bytes(room + 4)) == Err((5, 0))) as usize;
    }
    assert!(refused > 600, "only {refused} trailers were refused: the test does not try what it says");
    println!("1500 frames, {refused} refused 5");
}

/// Every limit from both sides, and A from 0 to 5.
pub fn around_the_limits() -> Vec<Setting> {
    let depths = [0, 1, 2, 3, 4, 16, 17, 258, usize::MAX];
    let words = [(3, 2), (4, 2), (5, 2), (6, 2), (255, 16), (256, 16), (20, 17), (20, 1), (16, 16), (0, 0), (261, 2)];
    let pairs = depths.iter().flat_map(|&depth| words.map(|word| (depth, word)));
    pairs.flat_map(|(depth, (n, r))| [0, 1, 2, 256].map(|b| Setting { depth, n, r, b })).collect()
}

/// Limits, lengths, marks and payloads that are too long, and which comes first.
#[test]
fn refused() {
    for s in around_the_limits() {
        assert_eq!(s.is_allowed(), plain(s).is_allowed(), "{s:?}");
        lengths(s, s.depth.min(20) * s.n, s.depth.min(20) * s.n.saturating_sub(s.r));
    }
    println!("{} settings", around_the_limits().len());
}

fn lengths(s: Setting, slots: usize, area: usize) {
    for (x, y, z, map) in [(0, 0, 0, 0), (1, 0, 0, 0), (0, 1, 0, 0), (0, 0, 1, 0), (0, 0, 0, 1)] {
        for mark in [0, 1, 2] {
            let (slots, marks, map) = (vec![0; slots + x], vec![mark; slots + y], old(slots + map));
            let _ = received_into(s, &slots, &marks, &vec![5; area + z], &map);
        }
    }
    let room = area.saturating_sub(4);
    for (size, extra) in [(room, 0), (room + 1, 0), (room, 1), (room + 1, 1), (9000, 0), (0, 0)] {
        let _ = sent(s, &vec![6; size], 513, &vec![5; slots + extra]);
    }
    if slots > 0 {
        let _ = sent(s, &[], 0, &vec![5; slots - 1]);
        let _ = received(s, &vec![0; slots - 1], &vec![0; slots - 1], &vec![5; area]);
        for map in [0, area, slots - 1, 2 * slots] {
            let _ = received_into(s, &vec![0; slots], &vec![2; slots], &vec![5; area], &old(map));
        }
    }
}

/// One bad mark anywhere in a frame leaves area, map and record alone.
#[test]
fn bad_marks() {
    let mut noise = Noise::new(52);
    for _ in 0..500 {
        let s = setting(&mut noise);
        let size = s.depth * s.n;
        let mut marks = vec![0; size];
        marks[noise.below(size)] = noise.between(2, 255) as u8;
        let answer = received(s, &noise.bytes(size), &marks, &noise.bytes(s.depth * (s.n - s.r)));
        assert_eq!(answer, Err((3, 0)));
    }
}

/// The paper's example for the bench reader: slots 2 and 3 were sent as others.
#[test]
fn example() {
    let s = Setting { depth: 2, n: 5, r: 2, b: 0 };
    let (mut area, mut map) = ([9; 6], [9; 10]);
    let frame = s.receive(&[0, 0, 0, 0, 1, 1, 217, 13, 153, 14], &[0; 10], &mut area, &mut map);
    let told = frame.map(|f| (f.sequence, f.payload, f.words().iter().map(|w| (w.errors, w.bits)).collect()));
    assert_eq!(told, Ok((258, &[65][..], vec![(1, 2), (1, 1)])));
    assert_eq!(map, [0, 0, 1, 1, 0, 0, 0, 0, 0, 0]);
}
