//! Clean words and frames: those that are codewords as received.
//!
//! What a word or frame is made for is known beforehand. The answer is held against that, against the reference, and against
//! laws that ask no judge: what decoding and receiving with every mark 0 make of the same bytes.

use reference::frame as frames;
use reference::noise::Noise;
use reference::search::{next, Codewords, Neighbourhoods};
use yaxopetzo::frame::Setting;
use yaxopetzo::word::Setting as Code;
use yaxopetzo::Refusal;

use crate::frame::{self, plain};
use crate::map::old;
use crate::same::{clean, encoded};
use crate::{copies, refusals, word};

/// What a frame is answered: the first word that is no codeword, or the number of a refusal.
type Answer = Result<Option<usize>, u8>;

/// The code of a frame's words.
fn code(s: Setting) -> Code {
    Code { m: 8, n: s.n, r: s.r, b: s.b }
}

/// What both sides say of a frame; gives the number that receiving it is answered too.
fn unclean(s: Setting, slots: &[u8]) -> (Answer, u8) {
    let answer = s.first_unclean(slots).map_err(Refusal::number);
    assert_eq!(answer, frames::first_unclean(plain(s), slots), "{s:?} {slots:?}");
    if answer.is_ok() {
        let take = |w: usize| -> Vec<u8> { slots.iter().skip(w).step_by(s.depth).copied().collect() };
        let first = (0..s.depth).find(|&w| code(s).is_clean(&take(w)) != Ok(true));
        assert_eq!(answer, Ok(first), "{s:?} {slots:?}");
    }
    (answer, received(s, slots, answer))
}

/// The frame is received with every mark 0. Where it is accepted, its first word with an error, with a changed bit and with a
/// one in the map is the first that is not clean. Refused 4, the word that is named or one before it was not clean, so that
/// no clean frame is. Setting and length are refused alike.
fn received(s: Setting, slots: &[u8], answer: Answer) -> u8 {
    let size = if s.is_allowed() { s.area() } else { 0 };
    let (mut area, mut map) = (vec![9; size], old(slots.len()));
    match (s.receive(slots, &vec![0; slots.len()], &mut area, &mut map), answer) {
        (Ok(frame), _) => {
            let errors = frame.words().iter().position(|word| word.errors > 0);
            let bits = frame.words().iter().position(|word| word.bits > 0);
            let mapped = (0..s.depth).find(|&w| map.iter().skip(w).step_by(s.depth).any(|&change| change != 0));
            assert_eq!([Ok(errors), Ok(bits), Ok(mapped)], [answer; 3], "{s:?} {slots:?}");
            0
        }
        (Err(refused), Ok(first)) => {
            let (number, word) = frame::numbered(refused);
            assert!(number == 5 || number == 4 && first.is_some() && first <= Some(word), "{s:?} {slots:?} {first:?}");
            number
        }
        (Err(refused), Err(number)) => {
            assert_eq!(refused.why.number(), number, "{s:?}");
            number
        }
    }
}

/// A message of random symbols, and one that is zero but for a symbol: its codeword has few symbols too.
fn messages(noise: &mut Noise, s: Code) -> [Vec<u8>; 2] {
    let k = s.n - s.r;
    let (full, mut thin) = (noise.symbols(k, 1 << s.m), vec![0; k]);
    thin[noise.below(k)] = noise.between(1, (1 << s.m) - 1) as u8;
    [full, thin]
}

/// Every word of up to five symbols: a search without algebra has the codewords. It would catch a root, a symbol or a bit that
/// is not looked at, and a call that takes what could be corrected for clean.
#[test]
fn every_small_word() {
    let mut count = 0;
    for s in (3..=5).flat_map(|n| (2..n).flat_map(move |r| [0, 1].map(|b| Code { m: 3, n, r, b }))) {
        let codewords = Neighbourhoods::new(s.n, Codewords::new(s.n, s.r, s.b), 0);
        let (mut word, mut found) = (vec![0; s.n], 0);
        loop {
            let answer = clean(s, &word);
            assert_eq!(answer, Ok(codewords.of(&word).is_some()), "{s:?} {word:?}");
            found += (answer == Ok(true)) as usize;
            count += 1;
            if !next(&mut word) {
                break;
            }
        }
        assert_eq!(found, 8usize.pow((s.n - s.r) as u32), "{s:?}");
    }
    println!("{count} words");
}

/// Every m, r and b, and the corners of n: a codeword is clean, and so is the sum of two; with up to r wrong symbols it is not,
/// since codewords differ in more. It would catch the other b's roots, one root less, and a code of another length.
#[test]
fn words_of_every_setting() {
    let mut noise = Noise::new(130);
    let mut count = 0;
    for s in word::settings(&mut noise) {
        let [full, thin] = messages(&mut noise, s).map(|message| encoded(s, &message, &vec![0; s.n]).1);
        let sum: Vec<u8> = full.iter().zip(&thin).map(|(x, y)| x ^ y).collect();
        for sent in [&full, &thin, &sum, &vec![0; s.n]] {
            assert_eq!(clean(s, sent), Ok(true), "{s:?} {sent:?}");
            let ends = [0, s.n - s.r - 1, s.n - s.r, s.n - 1].map(|place| vec![place]);
            let several = [noise.between(1, s.r), s.r].map(|count| noise.places(s.n, count));
            for places in ends.iter().chain(&several) {
                let mut word = sent.clone();
                noise.strike(&mut word, places, 1 << s.m);
                assert_eq!(clean(s, &word), Ok(false), "{s:?} {word:?}");
            }
            // The neighbour's zeros may be this code's too: here the judge decides, and of words that nobody sent.
            let _ = clean(Code { b: 1 - s.b, ..s }, sent);
            let _ = clean(s, &noise.symbols(s.n, 1 << s.m));
            count += 9;
        }
    }
    println!("{count} words");
}

/// Each bit of each symbol alone. It would catch a bit that falls out of a symbol, and symbols that are left over where n or k
/// is no multiple of the steps in which a word is read.
#[test]
fn each_bit_alone() {
    let mut noise = Noise::new(131);
    let mut count = 0;
    for s in refusals::some_settings() {
        let [message, _] = messages(&mut noise, s);
        let (_, mut word) = encoded(s, &message, &vec![0; s.n]);
        for (place, bit) in (0..s.n).flat_map(|place| (0..s.m).map(move |bit| (place, bit))) {
            word[place] ^= 1 << bit;
            assert_eq!(clean(s, &word), Ok(false), "{s:?} place {place} bit {bit}");
            word[place] ^= 1 << bit;
            count += 1;
        }
        assert_eq!(clean(s, &word), Ok(true), "{s:?}");
    }
    println!("{count} words");
}

/// The slots of a frame: in turn one that was sent, one whose trailer is whatever it is, one of zeros, and the sum of two.
fn whole(noise: &mut Noise, s: Setting, kind: usize) -> Vec<u8> {
    let sent = copies::area(noise, s, 41);
    let area = match kind % 4 {
        0 => sent,
        1 => noise.bytes(s.area()),
        2 => vec![0; s.area()],
        _ => sent.iter().zip(noise.bytes(s.area())).map(|(x, y)| x ^ y).collect(),
    };
    frames::slots_of(plain(s), &area)
}

/// Adds a codeword of few symbols to a word of the frame, which is then another frame's, and clean.
fn exchange(noise: &mut Noise, s: Setting, w: usize, slots: &mut [u8]) {
    let [_, thin] = messages(noise, code(s));
    let (_, word) = encoded(code(s), &thin, &vec![0; s.n]);
    word.iter().enumerate().for_each(|(i, symbol)| slots[i * s.depth + w] ^= symbol);
}

/// Damages a word of the frame, in turn by a bit anywhere, by a bit of its check bytes, by up to r bytes, and by r of them.
fn damage(noise: &mut Noise, s: Setting, w: usize, kind: usize, slots: &mut [u8]) {
    let check = noise.between(s.n - s.r, s.n - 1);
    let several = noise.between(1, s.r);
    let places = match kind % 4 {
        0 => noise.places(s.n, 1),
        1 => vec![check],
        2 => noise.places(s.n, several),
        _ => noise.places(s.n, s.r),
    };
    for slot in places.iter().map(|i| i * s.depth + w) {
        let change = if kind % 4 < 2 { 1 << noise.below(8) } else { noise.between(1, 255) };
        slots[slot] ^= change as u8;
    }
}

/// Every depth, r and b: frames that are clean, whatever their trailers say, and the same with damage in the first word, in the
/// last, in any, and in several. It would catch a trailer that is asked for, and a word, a depth or a b that is not.
#[test]
fn frames_of_every_setting() {
    let mut noise = Noise::new(132);
    // Clean ones and others, by the number that receiving them is answered.
    let mut counts = [[0; 6]; 2];
    let mut tell = |s, slots: &[u8], first| {
        let (answer, number) = unclean(s, slots);
        assert_eq!(answer, Ok(first), "{s:?} {slots:?}");
        counts[first.is_some() as usize][number as usize] += 1;
    };
    let settings = (1..=16).flat_map(|depth| (2..=16).flat_map(move |r| [(depth, r, 0), (depth, r, 1)]));
    for (round, (depth, r, b)) in settings.enumerate() {
        // The least n with an area of four bytes.
        let least = r + [4, 2, 2, 1][depth.min(4) - 1];
        let any = noise.between(least, 255);
        let n = [least, least + 1, least + 4, least + round % 40, 255, any, any][round % 7];
        let s = Setting { depth, n, r, b };
        for kind in 0..4 {
            let mut slots = whole(&mut noise, s, kind);
            tell(s, &slots, None);
            let exchanged = noise.below(depth);
            exchange(&mut noise, s, exchanged, &mut slots);
            tell(s, &slots, None);
            for w in [0, depth - 1, noise.below(depth)] {
                let mut struck = slots.clone();
                damage(&mut noise, s, w, kind + round, &mut struck);
                tell(s, &struck, Some(w));
                let other = noise.below(depth);
                damage(&mut noise, s, other, kind + 1, &mut struck);
                if other != w {
                    tell(s, &struck, Some(w.min(other)));
                }
            }
        }
        // Nobody sent it: both sides must say the same.
        let _ = unclean(s, &noise.bytes(s.slots()));
    }
    let (clean, others) = (counts[0], counts[1]);
    assert!(clean[4] == 0 && clean[0].min(clean[5]) > 500, "{clean:?}: the test does not try what it says");
    assert!(others[0].min(others[4]).min(others[5]) > 500, "{others:?}: the test does not try what it says");
    println!("clean {clean:?} and others {others:?}");
}

/// Each bit of each slot alone. It would catch words that are read end to end, and a slot that is left out.
#[test]
fn each_slot_alone() {
    let mut noise = Noise::new(133);
    let mut count = 0;
    for (depth, n, r) in [(1, 9, 4), (2, 5, 2), (3, 20, 4), (16, 12, 2), (5, 60, 7), (7, 23, 16)] {
        let s = Setting { depth, n, r, b: noise.below(2) };
        let mut slots = whole(&mut noise, s, depth);
        for (slot, bit) in (0..s.slots()).flat_map(|slot| (0..8).map(move |bit| (slot, bit))) {
            slots[slot] ^= 1 << bit;
            assert_eq!(unclean(s, &slots).0, Ok(Some(slot % depth)), "{s:?} slot {slot} bit {bit}");
            slots[slot] ^= 1 << bit;
            count += 1;
        }
    }
    println!("{count} frames");
}

/// Every set of damaged words for up to eight of them, and some for more: the first decides, whatever becomes of the others.
/// It would catch the last one, the worst one, their number, and a call that gives up at a word that is clean or exchanged.
#[test]
fn every_set_of_words() {
    let mut noise = Noise::new(134);
    let mut count = 0;
    for depth in (0..8).flat_map(|_| 1..=16) {
        let all = 1 << depth;
        let some = (0..depth).flat_map(|w| [1 << w, all - 1 - (1 << w), all - (1 << w)]).chain([0, all - 1]);
        let sets: Vec<usize> = if depth <= 8 { (0..all).collect() } else { some.collect() };
        let n = noise.between(6, 14);
        let s = Setting { depth, n, r: noise.between(2, n - 4), b: noise.below(2) };
        for set in sets {
            let kind = noise.below(4);
            let mut slots = whole(&mut noise, s, kind);
            for w in 0..depth {
                let kind = noise.below(4);
                match set >> w & 1 {
                    1 => damage(&mut noise, s, w, kind, &mut slots),
                    _ if kind == 0 => exchange(&mut noise, s, w, &mut slots),
                    _ => {}
                }
            }
            let first = (0..depth).find(|&w| set >> w & 1 == 1);
            assert_eq!(unclean(s, &slots).0, Ok(first), "{s:?} {set:b}");
            count += 1;
        }
    }
    println!("{count} frames");
}

/// Every limit from both sides, areas of fewer than four bytes among them, and slots of other lengths, also of another depth's
/// or of a single word's: the setting comes before the length, and neither asks what the slots hold.
#[test]
fn refused() {
    let (mut counts, settings) = ([0; 3], frame::around_the_limits());
    for &s in &settings {
        let (size, n) = (s.depth.min(20) * s.n, s.n);
        for length in [size, size + 1, size.saturating_sub(1), size + n, size.saturating_sub(n), 2 * size, n, 0] {
            for slots in [vec![0; length], vec![0xff; length]] {
                let (answer, _) = unclean(s, &slots);
                let right = match s.is_allowed() {
                    false => Some(1),
                    true => (length != s.slots()).then_some(2),
                };
                assert_eq!(answer.err(), right, "{s:?} {length}");
                counts[right.unwrap_or(0) as usize] += 1;
            }
        }
    }
    assert!(counts.iter().min() > Some(&40), "{counts:?}: the test does not try what it says");
    println!("{} settings, answers {counts:?}", settings.len());
}

/// The bench reader's example as it was sent and as it came, and a clean frame whose trailer points outside its area.
#[test]
fn example() {
    let s = Setting { depth: 2, n: 5, r: 2, b: 0 };
    let mut slots = [0, 0, 65, 2, 1, 1, 217, 13, 153, 14];
    assert_eq!(unclean(s, &slots), (Ok(None), 0));
    slots[3] = 0;
    assert_eq!(unclean(s, &slots), (Ok(Some(1)), 0));
    slots[2] = 0;
    assert_eq!(unclean(s, &slots), (Ok(Some(0)), 0));
    slots[4] = 77;
    assert_eq!(unclean(s, &slots), (Ok(Some(0)), 4));
    let astray = frames::slots_of(plain(s), &[0, 0, 3, 0, 2, 1]);
    assert_eq!(unclean(s, &astray), (Ok(None), 5));
}
