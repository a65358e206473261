//! Replays: up to 64 frames end to end into one record.
//!
//! What each frame is made for is known beforehand: its answer, its area and its map are held against that too, and not
//! against the reference and the library's own `hear` alone. Results are compared in all their numbers, and as the face
//! says them.

use reference::frame as frames;
use reference::masts::Reception;
use reference::noise::Noise;
use reference::replay::{self as plain, Answer, Morning, Numbers};
use yaxopetzo::frame::Setting;
use yaxopetzo::record::Record;
use yaxopetzo::replay::{Place, MOST};
use yaxopetzo::Refusal;

use crate::copies::{area, known, Known};
use crate::map::{old, used, OLD};
use crate::{frame, record};

/// What each frame is answered, or the refusal of them all.
type Answers = Result<Vec<Answer>, u8>;

/// What a result holds before a call: no number of it is one that a call could leave there.
const BEFORE: Numbers = [0xa5a5; 52];

/// The reference's form of what the face answers. Each payload must be a part of its frame's own area.
fn replayed(s: Setting, record: &mut Record, morning: &mut Morning) -> Answers {
    let first = morning.areas.as_ptr() as usize;
    let Morning { slots, marks, areas, maps, results } = morning;
    let mut places: Vec<Place> = results.iter().map(|&numbers| Place { numbers }).collect();
    let answers = s.replay(record, slots, marks, areas, maps, &mut places).map(|replay| {
        let ends = (1..).map(|frames| first + frames * s.area());
        let told = replay.iter().zip(ends);
        told.map(|(frame, end)| frame.map(|f| frame::accepted(f, end)).map_err(frame::numbered)).collect()
    });
    let answers = answers.map_err(Refusal::number);
    *results = places.iter().map(|place| place.numbers).collect();
    answers
}

/// One `hear` for each frame in order, and each answer in numbers.
fn one_by_one(s: Setting, record: &mut Record, morning: &mut Morning) -> Vec<Answer> {
    let heard = morning.slots.chunks(s.slots()).zip(morning.marks.chunks(s.slots()));
    let lent = morning.areas.chunks_mut(s.area()).zip(morning.maps.chunks_mut(s.slots()));
    let both = heard.zip(lent);
    let answers = both.map(|((slots, marks), (area, map))| frame::heard(s, record, slots, marks, area, map));
    let answers: Vec<Answer> = answers.collect();
    morning.results = answers.iter().map(plain::numbers).collect();
    answers
}

/// Replays on both sides and frame by frame; gives the answers and what is left. A refusal of them all leaves everything.
fn compared(s: Setting, record: &mut Record, before: &Morning) -> (Answers, Morning) {
    let (mut ours, mut theirs, mut single) = (before.clone(), before.clone(), before.clone());
    let (start, mut judge, mut in_turn) = (*record, record::plain(*record), *record);
    let answers = replayed(s, record, &mut ours);
    assert_eq!(answers, plain::hear(&mut judge, frame::plain(s), &mut theirs), "{s:?}");
    assert_eq!(ours, theirs, "{s:?}");
    record::same(record, &judge, || format!("{s:?}"));
    match &answers {
        Ok(answers) => {
            assert_eq!(*answers, one_by_one(s, &mut in_turn, &mut single), "{s:?}");
            assert_eq!((&ours, *record), (&single, in_turn), "{s:?}");
        }
        Err(_) => assert_eq!((&ours, *record), (before, start), "{s:?}"),
    }
    (answers, ours)
}

/// Frames end to end, with a place for the result of each.
fn joined<'a>(frames: impl Iterator<Item = &'a Reception>) -> Morning {
    let mut all = lent(0, 0, 0, 0, 0, 0);
    for frame in frames {
        all.slots.extend(&frame.slots);
        all.marks.extend(&frame.marks);
        all.areas.extend(&frame.area);
        all.maps.extend(&frame.map);
        all.results.push(BEFORE);
    }
    all
}

/// A frame for each of these numbers, which it is answered, and with the sequence number beside it. All are replayed, and what
/// comes of them is what each was made for. Maps hold ones in every second round, as an earlier call leaves them.
fn known_beforehand(noise: &mut Noise, s: Setting, record: &mut Record, numbers: &[(u8, u16)], round: usize) {
    let made = numbers.iter().map(|&(number, sequence)| {
        let area = area(noise, s, sequence);
        (known(noise, s, number, &area), area)
    });
    let made: Vec<(Known, Vec<u8>)> = made.collect();
    let mut before = joined(made.iter().map(|(frame, _)| &frame.copy));
    let mut left = joined(made.iter().map(|(frame, _)| &frame.left));
    for map in [&mut before.maps, &mut left.maps] {
        map.iter_mut().filter(|byte| **byte == OLD).for_each(|byte| *byte = used(round));
    }
    let (answers, after) = compared(s, record, &before);
    let answers = answers.expect("every total fits");
    assert_eq!(answers.len(), numbers.len(), "{s:?}");
    let whole = |frame: &frames::Frame| frames::area_of(frame::plain(s), &frame.payload, frame.sequence);
    for ((answer, (frame, area)), &(number, _)) in answers.iter().zip(&made).zip(numbers) {
        match answer {
            Ok(accepted) => assert_eq!((0, &whole(accepted)), (number, area), "{s:?}"),
            Err(refused) => assert_eq!(*refused, (number, frame.word), "{s:?}"),
        }
    }
    left.results = answers.iter().map(plain::numbers).collect();
    assert_eq!(after, left, "{s:?}");
}

/// The smallest and the largest frames, with the smallest and the largest areas, and some between.
const SETTINGS: [Setting; 7] = [
    Setting { depth: 1, n: 6, r: 2, b: 0 },
    Setting { depth: 4, n: 3, r: 2, b: 1 },
    Setting { depth: 1, n: 20, r: 16, b: 1 },
    Setting { depth: 3, n: 20, r: 4, b: 0 },
    Setting { depth: 4, n: 64, r: 16, b: 0 },
    Setting { depth: 16, n: 255, r: 2, b: 0 },
    Setting { depth: 16, n: 255, r: 16, b: 1 },
];

/// None, one, two, 63 and 64 frames, accepted and refused, and 65, which are refused. It would catch a bound that is one off
/// either way, a last frame that is left out, and a room that is too small for the largest frames.
#[test]
fn numbers_of_frames() {
    let mut noise = Noise::new(110);
    for s in SETTINGS {
        for count in [0, 1, 2, 63, MOST] {
            let numbers: Vec<(u8, u16)> = (0..count).map(|i| ([0, 4, 0, 5, 0, 0, 3][i % 7], i as u16)).collect();
            known_beforehand(&mut noise, s, &mut Record::fresh(), &numbers, count);
        }
        let frame = known(&mut noise, s, 0, &vec![0; s.area()]).copy;
        for count in [65, 66, 128] {
            let many = joined(std::iter::repeat(&frame).take(count));
            assert_eq!(compared(s, &mut Record::fresh(), &many).0, Err(1), "{s:?}: {count} frames");
        }
    }
    println!("{} settings", SETTINGS.len());
}

/// One frame is refused, by each number and at each place. It would catch a call that stops there, that refuses the frames
/// behind it or all of them, and that touches its neighbours' areas or maps, or its own under 3.
#[test]
fn one_refused() {
    let mut noise = Noise::new(111);
    let mut count = 0;
    for frames in [1, 2, 3, 7, MOST] {
        for (place, number) in (0..frames).flat_map(|place| [3, 4, 5].map(|number| (place, number))) {
            let s = Setting { depth: noise.between(2, 4), n: noise.between(8, 20), r: noise.between(2, 6), b: 0 };
            let of = |i| if i == place { number } else { 0 };
            let numbers: Vec<(u8, u16)> = (0..frames).map(|i| (of(i), i as u16)).collect();
            known_beforehand(&mut noise, s, &mut Record::fresh(), &numbers, count);
            count += 1;
        }
    }
    println!("{count} replays");
}

/// Numbers as frames come, newer, repeated, late and older, over the top of 65535; a third of the frames refused.
fn walked(noise: &mut Noise, newest: &mut u16, frames: usize) -> Vec<(u8, u16)> {
    let step = |_| {
        let sequence = record::walked(noise, *newest);
        // A refused frame leaves a gap behind too.
        *newest = if sequence.wrapping_sub(*newest) < 32768 { sequence } else { *newest };
        let number = if noise.below(3) == 0 { noise.between(3, 5) as u8 } else { 0 };
        (number, sequence)
    };
    (0..frames).map(step).collect()
}

/// Any setting, any frames, any record. It would catch an area, map or result of another frame, marks of another frame, a
/// payload that is counted from the first area, and an old map or result that shines through.
#[test]
fn any_frames() {
    let mut noise = Noise::new(112);
    let mut count = 0;
    for round in 0..700 {
        let s = frame::setting(&mut noise);
        let most = (4000 / s.slots()).clamp(4, MOST);
        let frames = noise.between(0, most);
        let mut newest = noise.number() as u16;
        let mut record = record::lent(&mut noise, newest);
        let numbers = walked(&mut noise, &mut newest, frames);
        known_beforehand(&mut noise, s, &mut record, &numbers, round);
        count += frames;
    }
    println!("700 replays, {count} frames");
}

/// Replays one after the other into one record.
fn in_turn(noise: &mut Noise, record: &mut Record, rounds: usize) {
    let mut newest = 65000;
    for round in 0..rounds {
        let frames = noise.between(0, MOST);
        let numbers = walked(noise, &mut newest, frames);
        known_beforehand(noise, Setting { depth: 2, n: 9, r: 4, b: 1 }, record, &numbers, round);
    }
}

/// Newer, repeated, late, older and lost frames, noted in their order. It would catch a record that is noted from the last
/// frame to the first, from each frame anew, once for them all, or for a frame that was refused 3.
#[test]
fn one_record() {
    let mut noise = Noise::new(113);
    let mut record = Record::fresh();
    in_turn(&mut noise, &mut record, 200);
    let counts = [record.newer, record.repeat, record.older, record.refused, record.late];
    assert!(counts.iter().min() > Some(&200), "{counts:?}: the test does not try what it says");
    println!("200 replays {counts:?}");
}

/// Counts that reach the top in the middle of a replay stay there. It would catch counts that are summed up and added at the
/// end, and go round.
#[test]
fn at_the_top() {
    let mut noise = Noise::new(114);
    for below in 0..20 {
        let top = u32::MAX - below;
        let mut record = Record { newer: top, repeat: top, older: top, refused: top, late: top, ..Record::fresh() };
        in_turn(&mut noise, &mut record, 2);
    }
    let (top, near) = (u32::MAX, u32::MAX - 9);
    let mut record = Record { newer: near, repeat: near, older: near, refused: top, late: near, ..Record::fresh() };
    in_turn(&mut noise, &mut record, 20);
    assert_eq!([record.newer, record.repeat, record.older, record.refused, record.late], [top; 5]);
}

/// Buffers of these lengths; the slots are those of frames without a payload, and every mark is the one that is named.
fn lent(slots: usize, marks: usize, areas: usize, maps: usize, results: usize, mark: u8) -> Morning {
    let (slots, marks, areas) = (vec![0; slots], vec![mark; marks], vec![9; areas]);
    Morning { slots, marks, areas, maps: old(maps), results: vec![BEFORE; results] }
}

/// Every total one short, one long, a frame short, a frame long, and empty, alone and together, also beside bad marks. It
/// would catch a total that is not looked at, or only from one side, or only for a whole number of frames, a rest of slots
/// that is dropped, marks that are looked at first, and more than 64 frames' slots taken for a wrong total.
#[test]
fn totals() {
    let around = |size: usize, frame: usize| [size - frame, size - 1, size, size + 1, size + frame, 0];
    let (mut calls, mut answered) = (0, [0; 3]);
    for s in [Setting { depth: 2, n: 5, r: 2, b: 0 }, Setting { depth: 1, n: 9, r: 4, b: 1 }] {
        for count in [1, 2, 63, MOST] {
            let (whole, part) = (around(count * s.slots(), s.slots()), around(count * s.area(), s.area()));
            let read = whole.iter().flat_map(|&slots| whole.map(|marks| (slots, marks)));
            let written = || part.iter().flat_map(|&areas| whole.map(|maps| (areas, maps)));
            let all = read.flat_map(|read| written().map(move |written| (read, written)));
            let told = [count - 1, count, count + 1, 0];
            for (((slots, marks), (areas, maps)), results) in all.flat_map(|all| told.map(|results| (all, results))) {
                let before = lent(slots, marks, areas, maps, results, [0, 2][calls % 2]);
                let heard = compared(s, &mut Record::fresh(), &before).0.map(|answers| answers.len());
                let frames = slots / s.slots();
                let fits = [slots, marks, areas, maps] == [frames * s.slots(), slots, frames * s.area(), slots];
                let right = match fits && results == frames {
                    _ if slots > MOST * s.slots() => Err(1),
                    true => Ok(frames),
                    false => Err(2),
                };
                assert_eq!(heard, right, "{s:?}: {slots} {marks} {areas} {maps} {results}");
                calls += 1;
                answered[right.err().unwrap_or(0) as usize] += 1;
            }
        }
    }
    assert!(answered[0] > 20 && answered[1] > 500, "{answered:?}: the test does not try what it says");
    println!("{calls} calls {answered:?}");
}

/// A broken limit is 1, before every total and mark, also without slots. It would catch a setting that no frame's call has
/// looked at where there is no frame, and a division by a setting's zero.
#[test]
fn around_the_limits() {
    let settings = frame::around_the_limits();
    for &s in &settings {
        let (slots, area) = (s.depth.min(20) * s.n, s.depth.min(20) * s.n.saturating_sub(s.r));
        for (frames, more, mark) in [(0, 0, 0), (1, 0, 0), (2, 0, 1), (2, 0, 2), (0, 1, 0), (2, 1, 2)] {
            let before = lent(frames * slots + more, frames * slots, frames * area, frames * slots, frames, mark);
            let mut record = Record { accepted: true, last: 7, seen: 0x8000_0005, ..Record::fresh() };
            let (answers, _) = compared(s, &mut record, &before);
            if !s.is_allowed() {
                assert_eq!(answers, Err(1), "{s:?}");
            }
        }
    }
    println!("{} settings", settings.len());
}

/// What the face hands back: a frame by its number or in order, none past the last, and payloads that outlive the replay.
#[test]
fn handed_back() {
    let s = Setting { depth: 2, n: 5, r: 2, b: 0 };
    let slots = [0, 0, 65, 2, 1, 1, 217, 13, 153, 14].repeat(3);
    let (mut areas, mut maps, mut results) = ([9; 18], [9; 30], [Place::default(); 3]);
    let mut record = Record::fresh();
    let last = {
        let replay =
            s.replay(&mut record, &slots, &[0; 30], &mut areas, &mut maps, &mut results).expect("three frames");
        assert_eq!((replay.len(), replay.is_empty()), (3, false));
        assert!((&replay).into_iter().eq((0..3).filter_map(|i| replay.get(i))));
        assert!([3, 63, MOST, usize::MAX].iter().all(|&i| replay.get(i).is_none()));
        replay.iter().last()
    };
    assert_eq!(last.map(|frame| frame.map(|frame| (frame.sequence, frame.payload))), Some(Ok((258, &[65][..]))));
    assert_eq!((record.newer, record.repeat), (1, 2));
    let none = s.replay(&mut record, &[], &[], &mut [], &mut [], &mut []).expect("no frames");
    assert_eq!((none.len(), none.is_empty(), none.get(0), none.iter().count()), (0, true, None, 0));
}
