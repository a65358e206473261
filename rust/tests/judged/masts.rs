//! Two masts: two copies of a frame, each with its own damage, and the one frame that comes of them.
//!
//! What a pair is made for is known beforehand: the answer is held against that too, and not against the reference alone.

use reference::code::changes;
use reference::masts::Reception;
use reference::noise::Noise;
use yaxopetzo::frame::Setting;
use yaxopetzo::masts::{Heard, Mast};
use yaxopetzo::record::Record;

use crate::copies::{amounts, area, compared, copy, gives, known, mended};
use crate::map::old;
use crate::{frame, record};

/// What the two copies suffer in turn: nothing, one of them, the same sum over other words, one more, whatever comes.
fn suffered(noise: &mut Noise, s: Setting, round: usize) -> [Vec<usize>; 2] {
    let (clean, one, other) = (vec![0; s.depth], amounts(noise, s), amounts(noise, s));
    let mut turned = one.clone();
    turned.rotate_left(noise.below(s.depth));
    let mut worse = turned.clone();
    let w = noise.below(s.depth);
    worse[w] = (worse[w] + 1).min(s.r);
    match round % 7 {
        0 => [clean.clone(), clean],
        1 => [one, clean],
        2 => [clean, one],
        3 => [one, turned],
        4 => [one, worse],
        5 => [worse, one],
        _ => [one, other],
    }
}

/// Both accepted with one number: the smaller sum of 2e + f decides, the first on a tie, also between two payloads.
#[test]
fn the_better_copy() {
    let mut noise = Noise::new(80);
    // Pairs with one payload and with two; in each the first is better, neither is, the second is.
    let mut pairs = [[0; 3]; 2];
    let (mut clean, mut ties) = (0, 0);
    for round in 0..3500 {
        let s = frame::setting(&mut noise);
        let sequence = noise.number() as u16;
        let first = area(&mut noise, s, sequence);
        let second = if noise.below(2) == 0 { first.clone() } else { area(&mut noise, s, sequence) };
        let [one, other] = suffered(&mut noise, s, round);
        let masts = [copy(&mut noise, s, &first, &one), copy(&mut noise, s, &second, &other)];
        let last = sequence.wrapping_add(noise.between(0, 80) as u16).wrapping_sub(40);
        let (answer, left) = compared(s, &mut record::lent(&mut noise, last), &masts);
        let sums = [one, other].map(|amounts| amounts.iter().sum::<usize>());
        let right = if sums[1] < sums[0] { gives(s, &answer, 2, &second) } else { gives(s, &answer, 1, &first) };
        assert!(right, "{s:?} {sums:?} {answer:?}");
        pairs[(first != second) as usize][(sums[0].cmp(&sums[1]) as i8 + 1) as usize] += 1;
        clean += (sums == [0, 0]) as usize;
        ties += (sums[0] == sums[1] && first == second && masts[0].slots != masts[1].slots) as usize;
        assert_eq!(left, [mended(s, &masts[0], &first), mended(s, &masts[1], &second)], "{s:?}");
    }
    let least = pairs.iter().flatten().min();
    assert!(least > Some(&300) && clean > 300 && ties > 200, "{pairs:?} {clean} {ties}: the test does not try all");
    println!("3500 pairs {pairs:?}, {ties} of them with equal sums of other damage");
}

/// Both accepted with different numbers: refused 8, both areas and both maps are there, and the record does not move. A call
/// that takes back what it decoded would be noticed here.
#[test]
fn two_frames() {
    let mut noise = Noise::new(81);
    for round in 0..1000 {
        let s = frame::setting(&mut noise);
        let sequence = noise.number() as u16;
        let apart = *[1, 256, 32768, 65535, noise.between(1, 65535)].get(round % 5).unwrap_or(&1) as u16;
        let first = area(&mut noise, s, sequence);
        let mut second = area(&mut noise, s, sequence.wrapping_add(apart));
        if round % 2 == 0 {
            // The same payload: only the number tells them apart.
            let end = s.area() - 2;
            second[..end].copy_from_slice(&first[..end]);
        }
        let [one, other] = suffered(&mut noise, s, round);
        let masts = [copy(&mut noise, s, &first, &one), copy(&mut noise, s, &second, &other)];
        let before = record::lent(&mut noise, sequence);
        let mut record = before;
        let left = [mended(s, &masts[0], &first), mended(s, &masts[1], &second)];
        assert_eq!(compared(s, &mut record, &masts), (Err((8, 0)), left), "{s:?}");
        assert_eq!(record, before, "{s:?}");
    }
    println!("1000 pairs");
}

/// One refused, by each number and on each side: the other is handed back, and only it is noted. Both refused, by each
/// two numbers: the first's.
#[test]
fn refused_copies() {
    let mut noise = Noise::new(82);
    let numbers = [0, 2, 3, 4, 5];
    let pairs = numbers.iter().flat_map(|&first| numbers.map(|second| (first, second)));
    for (first, second) in pairs.filter(|&pair| pair != (0, 0)) {
        for _ in 0..50 {
            let s = frame::setting(&mut noise);
            let sequence = noise.number() as u16;
            let area = area(&mut noise, s, sequence);
            let one = known(&mut noise, s, first, &area);
            let other = known(&mut noise, s, second, &area);
            let seen = record::memory(&mut noise);
            let mut record = Record { accepted: true, last: sequence, seen, ..Record::fresh() };
            let (answer, left) = compared(s, &mut record, &[one.copy, other.copy]);
            let (right, counts) = match (first, second) {
                (0, _) => (gives(s, &answer, 1, &area), (1, 0)),
                (_, 0) => (gives(s, &answer, 2, &area), (1, 0)),
                _ => (answer == Err((first, one.word)), (0, (first > 3) as u32)),
            };
            assert!(right, "{s:?}: {first} and {second} gave {answer:?}");
            assert_eq!((record.repeat, record.refused), counts, "{s:?}: {first} and {second}");
            assert_eq!(record.seen, seen, "{s:?}: {first} and {second}");
            assert_eq!(left, [one.left, other.left], "{s:?}: {first} and {second}");
        }
    }
    println!("24 pairs of numbers, 50 times each");
}

/// A broken limit is 1 for both, before lengths and marks; settings at the limits are answered as they are alone.
#[test]
fn around_the_limits() {
    let settings = frame::around_the_limits();
    // Slots too many, the mark of every slot, and bytes of the map too many.
    let (good, long, bad, both, map) = ((0, 0, 0), (1, 0, 0), (0, 2, 0), (1, 2, 0), (0, 2, 1));
    for &s in &settings {
        let (slots, area) = (s.depth.min(20) * s.n, s.depth.min(20) * s.n.saturating_sub(s.r));
        let zeros = |(more, mark, map)| Reception {
            slots: vec![0; slots + more],
            marks: vec![mark; slots],
            area: vec![5; area],
            map: old(slots + map),
        };
        for (first, second) in
            [(good, good), (long, bad), (bad, long), (good, both), (bad, good), (map, good), (bad, map)]
        {
            let before = Record { accepted: true, last: 7, seen: 0x8000_0005, ..Record::fresh() };
            let mut record = before;
            let masts = [zeros(first), zeros(second)];
            let (answer, left) = compared(s, &mut record, &masts);
            if !s.is_allowed() {
                assert_eq!((answer, left), (Err((1, 0)), masts), "{s:?}");
                assert_eq!(record, before, "{s:?}");
            }
        }
    }
    println!("{} settings", settings.len());
}

/// Pairs one after the other into one record; gives how often each mast was used and each number answered.
fn in_turn(noise: &mut Noise, record: &mut Record, rounds: usize) -> ([usize; 2], [usize; 9]) {
    let s = Setting { depth: 2, n: 9, r: 4, b: 1 };
    let (mut used, mut numbers) = ([0; 2], [0; 9]);
    for _ in 0..rounds {
        let sequence = record::walked(noise, record.last);
        let apart = (noise.below(6) == 0) as u16;
        let masts = [sequence, sequence.wrapping_add(apart)].map(|sequence| {
            let area = area(noise, s, sequence);
            let number = if noise.below(3) == 0 { noise.between(2, 5) as u8 } else { 0 };
            let mut copy = known(noise, s, number, &area).copy;
            // Damage beyond the bound may also be taken for another frame's.
            if number == 0 && noise.below(4) == 0 {
                frame::damage(noise, s, &mut copy.slots, &mut copy.marks, Some(1));
            }
            copy
        });
        match compared(s, record, &masts).0 {
            Ok(chosen) => used[chosen.mast - 1] += 1,
            Err((number, _)) => numbers[number as usize] += 1,
        }
    }
    (used, numbers)
}

/// Newer, repeated, late, older, lost and differing frames, noted once each.
#[test]
fn heard_in_turn() {
    let mut noise = Noise::new(83);
    let mut record = Record { last: 65000, ..Record::fresh() };
    let (used, numbers) = in_turn(&mut noise, &mut record, 10_000);
    let counts = [record.newer, record.repeat, record.older, record.refused, record.late];
    assert_eq!(counts.iter().sum::<u32>() as usize, used[0] + used[1] + numbers[4] + numbers[5]);
    let least = [2, 3, 4, 5, 8].map(|number| numbers[number]).into_iter().chain(used).min();
    assert!(least > Some(200), "{used:?} {numbers:?}: the test does not try what it says");
    assert!(counts.iter().min() > Some(&200), "{counts:?}: the test does not try what it says");
    println!("10000 pairs");
}

/// Counts at the top stay there.
#[test]
fn at_the_top() {
    let mut noise = Noise::new(84);
    let (top, near) = (u32::MAX, u32::MAX - 9);
    let mut record = Record { newer: near, repeat: near, older: near, refused: top, late: near, ..Record::fresh() };
    let _ = in_turn(&mut noise, &mut record, 1000);
    assert_eq!([record.newer, record.repeat, record.older, record.refused, record.late], [top; 5]);
}

/// The bench reader's example: one buffer of slots serves both, and two marks weigh as much as one error.
#[test]
fn one_buffer() {
    let s = Setting { depth: 2, n: 5, r: 2, b: 0 };
    let slots = [0, 0, 65, 2, 1, 1, 217, 13, 153, 14];
    let mut struck = slots;
    struck[2] = 0;
    let marks = [1, 0, 1, 0, 0, 0, 0, 0, 0, 0];
    let used = |first: (&[u8], &[u8]), second: (&[u8], &[u8])| {
        let (mut area, mut other) = ([9; 6], [9; 6]);
        let (mut map, mut other_map) = ([9; 10], [9; 10]);
        let changed = [changes(first.0, &slots), changes(second.0, &slots)];
        let first = Heard { slots: first.0, marks: first.1, area: &mut area, map: &mut map };
        let second = Heard { slots: second.0, marks: second.1, area: &mut other, map: &mut other_map };
        let chosen = s.receive_masts(first, second).expect("both are good");
        assert_eq!((chosen.frame.sequence, chosen.frame.payload), (258, &[65][..]));
        let mast = chosen.mast;
        assert_eq!([map.to_vec(), other_map.to_vec()], changed);
        mast
    };
    assert_eq!(used((&slots, &[0; 10]), (&slots, &[0; 10])), Mast::First);
    assert_eq!(used((&slots, &marks), (&slots, &[0; 10])), Mast::Second);
    assert_eq!(used((&struck, &[0; 10]), (&slots, &marks)), Mast::First);
    assert_eq!(used((&slots, &marks), (&struck, &[0; 10])), Mast::First);
}
