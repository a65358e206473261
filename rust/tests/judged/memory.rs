//! The record's memory of the 32 numbers below the newest: what is late, and what comes twice.

use reference::noise::Noise;
use yaxopetzo::record::{Record, Standing};

use crate::record::{all_tried, listed, memory, noted, plain, Kinds};

/// Written out by hand: each number, how it stands, and the newest number, the memory and its zeros afterwards.
#[test]
fn by_hand() {
    use Standing::{Late, Newer, Older, Repeat};
    let table = [
        (10, Newer, 10, 0, 32),
        (13, Newer, 13, 0b100, 31), // 10 is three back.
        (12, Late, 13, 0b101, 30),
        (12, Repeat, 13, 0b101, 30),
        (10, Repeat, 13, 0b101, 30),
        (9, Late, 13, 0b1101, 29),
        (13, Repeat, 13, 0b1101, 29),
        (65517, Late, 13, 0x8000_000d, 28), // 32 back, before 0.
        (65517, Repeat, 13, 0x8000_000d, 28),
        (65516, Older, 13, 0x8000_000d, 28), // 33 back: not remembered, and older again.
        (65516, Older, 13, 0x8000_000d, 28),
        (14, Newer, 14, 0b11011, 28), // One falls out at the far end, and 13 comes in at the near one.
        (46, Newer, 46, 0x8000_0000, 31), // A step of 32: 14 alone is kept, as the farthest.
        (14, Repeat, 46, 0x8000_0000, 31),
        (13, Older, 46, 0x8000_0000, 31),
        (15, Late, 46, 0xc000_0000, 30),
        (79, Newer, 79, 0, 32), // A step of 33 clears all.
        (46, Older, 79, 0, 32),
        (78, Late, 79, 1, 31),
        (32846, Newer, 32846, 0, 32), // The longest step.
        (65535, Newer, 65535, 0, 32),
        (2, Newer, 2, 0b100, 31), // Over the top: 65535 is three back.
        (0, Late, 2, 0b110, 30),
        (65535, Repeat, 2, 0b110, 30),
        (65506, Late, 2, 0x8000_0006, 29),
        (65505, Older, 2, 0x8000_0006, 29),
        (32770, Older, 2, 0x8000_0006, 29), // Half the circle away is behind.
        (3, Newer, 3, 0b1101, 29),
    ];
    let mut record = Record::fresh();
    assert_eq!((record.seen, record.unseen()), (0, 32));
    for (sequence, standing, last, seen, unseen) in table {
        assert_eq!(record.standing(sequence), standing, "{record:?} {sequence}");
        record.note(0, sequence);
        assert_eq!((record.last, record.seen, record.unseen()), (last, seen, unseen), "{sequence} was noted");
    }
    assert_eq!((record.newer, record.repeat, record.older, record.late), (9, 6, 6, 7));
}

/// What a record remembers before the first accepted frame is kept by a refused one, counted as it is, and then forgotten.
#[test]
fn nothing_accepted() {
    let mut record = Record { last: 9, seen: u32::MAX - 2, ..Record::fresh() };
    assert_eq!((record.unseen(), record.standing(8)), (1, Standing::Newer));
    record.note(4, 8);
    assert_eq!((record.last, record.seen, record.unseen(), record.refused), (9, u32::MAX - 2, 1, 1));
    record.note(0, 8);
    let first = Record { accepted: true, last: 8, newer: 1, refused: 1, ..Record::fresh() };
    assert_eq!((record, record.unseen()), (first, 32));
}

/// Each step there is from one record; gives how many of them are of which kind.
fn steps(before: Record) -> Kinds {
    let mut kinds = [0; 4];
    for step in 0..=u16::MAX {
        let (mut record, mut judge) = (before, plain(before));
        kinds[noted(&mut record, &mut judge, 0, before.last.wrapping_add(step)) as usize] += 1;
    }
    kinds
}

/// Each step from some memories. How many there are of each kind is known: half the circle less one is ahead, the newest
/// repeats itself as the seen ones do, the unseen ones are late, and the rest is older. The first frame is newer by any step.
#[test]
fn every_step() {
    let mut noise = Noise::new(120);
    let few = [0, 1, 1 << 31, 1 << 30, u32::MAX, u32::MAX - 1, u32::MAX >> 1];
    let memories: Vec<u32> = few.into_iter().chain((0..5).map(|_| memory(&mut noise))).collect();
    for (round, &seen) in memories.iter().enumerate() {
        let last = *[0, 31, 32, 65535].get(round % 5).unwrap_or(&(noise.number() as u16));
        let before = Record { accepted: true, last, seen, ..Record::fresh() };
        let (ones, zeros) = (seen.count_ones() as usize, seen.count_zeros() as usize);
        assert_eq!(steps(before), [32767, 1 + ones, 32736, zeros], "{before:?}");
        assert_eq!(steps(Record { accepted: false, ..before }), [65536, 0, 0, 0], "{before:?}");
    }
    println!("{} memories, 65536 steps each, after a frame and before the first", memories.len());
}

/// A number near the last: just ahead of it, at times with a gap of up to the whole memory, and mostly behind.
fn near(noise: &mut Noise, last: u16) -> u16 {
    match noise.below(16) {
        0 => last.wrapping_add(noise.between(1, 40) as u16),
        1..=4 => last.wrapping_add(noise.between(1, 3) as u16),
        _ => last.wrapping_sub(noise.below(40) as u16),
    }
}

/// Long lists that stay near the last number, so that the memory fills and empties: most of what is heard stands in it.
#[test]
fn crowded() {
    let mut noise = Noise::new(121);
    for round in 0..20 {
        let last = *[65000, 65535, 0].get(round % 4).unwrap_or(&(noise.number() as u16));
        let mut record = Record { accepted: round % 2 == 0, last, seen: memory(&mut noise), ..Record::fresh() };
        all_tried(listed(&mut noise, &mut record, 20_000, near), 1000);
    }
    println!("400000 answers");
}

/// A trail as it comes in: numbers in order, each delayed by up to 32 of them, some lost, some twice.
fn trail(noise: &mut Noise, numbers: usize) -> Vec<usize> {
    let mut arrivals = Vec::new();
    for number in 0..numbers {
        for _ in 0..[0, 1, 1, 1, 2, 2, 3][noise.below(7)] {
            arrivals.push((number + noise.below(33), noise.number(), number));
        }
    }
    arrivals.sort_unstable();
    arrivals.into_iter().map(|(_, _, number)| number).collect()
}

/// What the memory is for: where no frame is delayed by more than 32 numbers, each number's first copy is newer or late, each
/// other one a repeat, and nothing is hidden among the older ones. The trail goes round at 65536 three times.
#[test]
fn first_copies() {
    let mut noise = Noise::new(122);
    let trail = trail(&mut noise, 200_000);
    let (mut record, mut heard) = (Record::fresh(), vec![false; 200_000]);
    let mut judge = plain(record);
    for &number in &trail {
        let standing = noted(&mut record, &mut judge, 0, (number + 60_000) as u16);
        let first = matches!(standing, Standing::Newer | Standing::Late);
        assert_eq!(first, !heard[number], "{record:?} {number} {standing:?}");
        assert_ne!(standing, Standing::Older, "{record:?} {number}");
        heard[number] = true;
    }
    let counts = [record.newer, record.repeat, record.late];
    assert!(counts.iter().min() > Some(&10_000), "{counts:?}: the test does not try what it says");
    println!("{} answers {counts:?}", trail.len());
}
