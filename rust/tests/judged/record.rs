//! The receiver's record over long lists of answers.

use reference::noise::Noise;
use reference::record as plain;
use yaxopetzo::record::{Record, Standing};

/// The reference's form of a record.
pub fn plain(record: Record) -> plain::Record {
    let counts = plain::Record {
        accepted: record.accepted,
        newer: record.newer.into(),
        repeat: record.repeat.into(),
        older: record.older.into(),
        refused: record.refused.into(),
        late: record.late.into(),
        ..plain::Record::default()
    };
    counts.remembering(record.last, record.seen)
}

/// The library's form of the reference's record.
fn told(judge: &plain::Record) -> Record {
    let tally = |count: i64| u32::try_from(count).expect("a count stays at the top");
    Record {
        accepted: judge.accepted,
        last: judge.last(),
        newer: tally(judge.newer),
        repeat: tally(judge.repeat),
        older: tally(judge.older),
        refused: tally(judge.refused),
        late: tally(judge.late),
        seen: judge.seen(),
    }
}

fn stood(standing: plain::Standing) -> Standing {
    match standing {
        plain::Standing::Newer => Standing::Newer,
        plain::Standing::Repeat => Standing::Repeat,
        plain::Standing::Older => Standing::Older,
        plain::Standing::Late => Standing::Late,
    }
}

/// The records are one, and so is the number of unseen ones, which the paper wants to be that of the memory's zeros.
pub fn same(record: &Record, judge: &plain::Record, why: impl Fn() -> String) {
    assert_eq!(*record, told(judge), "{}", why());
    assert_eq!([record.unseen(); 2], [judge.unseen(), record.seen.count_zeros()], "{}", why());
}

/// Notes one answer on both sides; gives how the number stood beforehand.
pub fn noted(record: &mut Record, judge: &mut plain::Record, number: u8, sequence: u16) -> Standing {
    let before = *record;
    let standing = record.standing(sequence);
    assert_eq!(standing, stood(judge.standing(sequence)), "{before:?} {sequence}");
    record.note(number, sequence);
    judge.note(number, sequence);
    same(record, judge, || format!("{before:?} {number} {sequence}"));
    standing
}

/// A record as a caller may lend it: any memory and any counts, some of them near the top.
pub fn lent(noise: &mut Noise, last: u16) -> Record {
    let accepted = noise.below(4) > 0;
    let mut tally = || match noise.below(2) {
        0 => noise.number() as u32,
        _ => u32::MAX - noise.below(4) as u32,
    };
    let (newer, repeat, older, refused, late) = (tally(), tally(), tally(), tally(), tally());
    Record { accepted, last, newer, repeat, older, refused, late, seen: memory(noise) }
}

/// Any memory: as bits come, or with few seen, or with few unseen.
pub fn memory(noise: &mut Noise) -> u32 {
    let (one, other) = (noise.number() as u32, (noise.number() >> 32) as u32);
    match noise.below(4) {
        0 => one & other & noise.number() as u32,
        1 => one | other | noise.number() as u32,
        _ => one,
    }
}

/// A number as frames come: one of the next, and now and then one from just before, which is repeated or late, or from around
/// the memory's end.
pub fn walked(noise: &mut Noise, newest: u16) -> u16 {
    match noise.below(8) {
        0 => newest.wrapping_sub(noise.below(6) as u16),
        1 => newest.wrapping_sub(noise.between(30, 36) as u16),
        _ => newest.wrapping_add(noise.below(4) as u16),
    }
}

/// The steps at which the rule turns, and their neighbours, ahead and behind.
const EDGES: [u16; 10] = [0, 1, 2, 31, 32, 33, 34, 32766, 32767, 32768];

/// Steps as frames come: mostly the next number, some to the edges of the memory and of the half circle, some to anywhere.
fn sequence(noise: &mut Noise, last: u16) -> u16 {
    let edge = EDGES[noise.below(EDGES.len())];
    match noise.below(16) {
        0..=1 => last.wrapping_add(edge),
        2..=4 => last.wrapping_sub(edge),
        5 => last.wrapping_add(noise.below(65536) as u16),
        6..=9 => last.wrapping_sub(noise.below(40) as u16),
        _ => last.wrapping_add(noise.below(4) as u16),
    }
}

/// How often a number was newer, a repeat, older and late.
pub type Kinds = [usize; 4];

/// Notes many answers on both sides, each with the number that `next` makes of the last; gives what kinds they were.
pub fn listed(noise: &mut Noise, record: &mut Record, answers: usize, next: fn(&mut Noise, u16) -> u16) -> Kinds {
    let mut judge = plain(*record);
    same(record, &judge, || format!("{record:?} as it was lent"));
    let mut kinds = [0; 4];
    for _ in 0..answers {
        let number = if noise.below(3) == 0 { noise.below(10) as u8 } else { 0 };
        let sequence = next(noise, record.last);
        kinds[noted(record, &mut judge, number, sequence) as usize] += 1;
    }
    kinds
}

/// Fails where a kind hardly occurred.
pub fn all_tried(kinds: Kinds, least: usize) {
    assert!(kinds.iter().min() > Some(&least), "{kinds:?}: the test does not try what it says");
}

#[test]
fn long_lists() {
    let mut noise = Noise::new(40);
    for _ in 0..20 {
        let mut record = Record::fresh();
        assert_eq!(record, Record::default());
        all_tried(listed(&mut noise, &mut record, 20_000, sequence), 1000);
    }
    println!("400000 answers");
}

/// Any record that a caller may lend, also one that remembers without having accepted. Counts at the top stay there, and a
/// newer frame still moves the last number. It would catch a first frame that slides what was there.
#[test]
fn lent_records() {
    let mut noise = Noise::new(41);
    let (mut kinds, mut at_the_top) = ([0; 4], [0; 5]);
    for _ in 0..40_000 {
        let last = noise.number() as u16;
        let mut record = lent(&mut noise, last);
        let some = listed(&mut noise, &mut record, 12, sequence);
        kinds.iter_mut().zip(some).for_each(|(all, some)| *all += some);
        let counts = [record.newer, record.repeat, record.older, record.refused, record.late];
        at_the_top.iter_mut().zip(counts).for_each(|(often, count)| *often += (count == u32::MAX) as usize);
    }
    all_tried(kinds, 20_000);
    assert!(at_the_top.iter().min() > Some(&5000), "{at_the_top:?}: the test does not try what it says");
    println!("480000 answers {kinds:?}, counts at the top {at_the_top:?}");
}

/// P13 of the worked table, whose record remembers nothing.
#[test]
fn worked() {
    let after = |last| Record { accepted: true, last, ..Record::fresh() };
    assert_eq!(after(65535).standing(2), Standing::Newer);
    assert_eq!(after(0).standing(32767), Standing::Newer);
    assert_eq!(after(0).standing(32768), Standing::Older);
    assert_eq!(after(0).standing(0), Standing::Repeat);
    assert_eq!(Record::fresh().standing(0), Standing::Newer);
}
