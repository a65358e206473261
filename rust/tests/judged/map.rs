//! The map: where a word was changed.
//!
//! Here it is known beforehand from the places that were struck, and held to laws that ask no judge. The other files compare
//! it with the reference's under every answer.

use reference::frame as frames;
use reference::noise::Noise;
use yaxopetzo::frame::Setting as Framing;
use yaxopetzo::word::Setting;

use crate::frame::{self, received_into};
use crate::same::{self, decoded_into, decoded_part_into, encoded};

/// What a map holds before a call: neither 0 nor 1, so that a place which the call leaves alone is noticed.
pub const OLD: u8 = 0xa5;

/// A map as it is before a call.
pub fn old(size: usize) -> Vec<u8> {
    vec![OLD; size]
}

/// What a map holds before a call in turn: the same, or the ones that an earlier call has left, which must not stay.
pub fn used(round: usize) -> u8 {
    [OLD, 1][round % 2]
}

/// A map with 1 at these places.
pub fn ones(size: usize, places: &[usize]) -> Vec<u8> {
    let mut map = vec![0; size];
    places.iter().for_each(|&place| map[place] = 1);
    map
}

/// A word's map has as many ones at unmarked places as there are errors, and none at all exactly where the word is as
/// received. Under 4 it is zeros, and under 1, 2 and 3 what it was.
pub fn word_laws(answer: &same::Answer, received: &[u8], left: &[u8], marks: &[u8], before: &[u8], map: &[u8]) {
    match answer {
        Ok(figures) => {
            assert_eq!(errors(map.iter().zip(marks)), figures.errors, "{map:?} {marks:?}");
            assert_eq!(map.contains(&1), received != left, "{map:?} {received:?}");
        }
        Err(4) => assert_eq!(map, vec![0; received.len()]),
        Err(_) => assert_eq!(map, before),
    }
}

/// A frame's map has as many ones at the unmarked slots of a word as that word has errors, and none at all exactly where the
/// slots are those that would be sent again. Under 4 and 5 it is zeros, and under 1, 2 and 3 what it was.
pub fn frame_laws(s: Framing, answer: &frame::Answer, slots: &[u8], marks: &[u8], before: &[u8], map: &[u8]) {
    match answer {
        Ok(frame) => {
            for (w, figures) in frame.figures.iter().enumerate() {
                let word = map.iter().zip(marks).skip(w).step_by(s.depth);
                assert_eq!(errors(word), figures.errors, "{s:?} word {w}");
            }
            let mut again = vec![0; slots.len()];
            assert_eq!(s.send(&frame.payload, frame.sequence, &mut again), Ok(()));
            assert_eq!(map.contains(&1), again != slots, "{s:?}");
        }
        Err((4 | 5, _)) => assert_eq!(map, vec![0; slots.len()], "{s:?}"),
        Err(_) => assert_eq!(map, before, "{s:?}"),
    }
}

/// The changes at unmarked places.
fn errors<'a>(word: impl Iterator<Item = (&'a u8, &'a u8)>) -> usize {
    word.filter(|&(&change, &mark)| (change, mark) == (1, 0)).count()
}

/// A word code within the limits.
fn setting(noise: &mut Noise) -> Setting {
    let m = *[3, 8].get(noise.below(2)).unwrap_or(&8);
    let top = (1 << m) - 1;
    let r = noise.between(2, 16.min(top - 1));
    Setting { m, n: noise.between(r + 1, top), r, b: noise.below(2) }
}

/// A codeword of random symbols.
fn sent(noise: &mut Noise, s: Setting) -> Vec<u8> {
    encoded(s, &noise.symbols(s.n - s.r, 1 << s.m), &vec![0; s.n]).1
}

/// Decodes by both calls, which must both map these places.
fn mapped(s: Setting, word: &[u8], marks: &[u8], places: &[usize]) {
    let map = ones(s.n, places);
    for before in [0, 1].map(|round| vec![used(round); s.n]) {
        assert_eq!(decoded_into(s, word, marks, &before).2, map, "{s:?} {word:?} {marks:?}");
        let (_, of_part) = decoded_part_into(s, word, marks, &vec![9; s.n - s.r], &before);
        assert_eq!(of_part, map, "{s:?} {word:?} {marks:?}");
    }
}

/// Struck places have 1, marked or not, and marked ones that were right have 0. It would catch a map of the marks, one that
/// leaves marked places out, and one that calls every marked place changed.
#[test]
fn struck_places() {
    let mut noise = Noise::new(90);
    let (mut kept, mut mended) = (0, 0);
    for _ in 0..20_000 {
        let s = setting(&mut noise);
        let mut word = sent(&mut noise, s);
        let f = noise.below(s.r + 1);
        let e = noise.below((s.r - f) / 2 + 1);
        let places = noise.places(s.n, f + e);
        let right = noise.below(f + 1);
        noise.strike(&mut word, &places[right..], 1 << s.m);
        mapped(s, &word, &ones(s.n, &places[..f]), &places[right..]);
        kept += right;
        mended += f - right;
    }
    assert!(kept.min(mended) > 10_000, "{kept} {mended}: the test does not try what it says");
    println!("20000 words, {kept} marked symbols right and {mended} wrong");
}

/// Each place alone, the check symbols' too. It would catch a map of the message, or one that is counted from the other end.
#[test]
fn each_place_alone() {
    let mut noise = Noise::new(91);
    for (m, n, r) in [(3, 7, 4), (3, 3, 2), (8, 255, 16), (8, 204, 16), (8, 32, 4), (8, 17, 16)] {
        let s = Setting { m, n, r, b: noise.below(2) };
        for place in 0..n {
            let mut word = sent(&mut noise, s);
            noise.strike(&mut word, &[place], 1 << m);
            mapped(s, &word, &vec![0; n], &[place]);
            mapped(s, &word, &ones(n, &[place]), &[place]);
        }
    }
}

/// Each slot alone. It would catch a frame's map in the order of its words.
#[test]
fn each_slot_alone() {
    let mut noise = Noise::new(92);
    for (depth, n, r) in [(1, 9, 4), (2, 5, 2), (3, 20, 4), (16, 12, 2), (5, 60, 7)] {
        let s = Framing { depth, n, r, b: noise.below(2) };
        let area = frames::area_of(frame::plain(s), &noise.bytes(s.area() - 4), 41);
        for slot in 0..s.slots() {
            let mut slots = frames::slots_of(frame::plain(s), &area);
            noise.strike(&mut slots, &[slot], 256);
            let (marks, map) = (vec![0; s.slots()], vec![used(slot); s.slots()]);
            let (answer, map) = received_into(s, &slots, &marks, &vec![9; s.area()], &map);
            assert!(answer.is_ok(), "{s:?}");
            assert_eq!(map, ones(s.slots(), &[slot]), "{s:?}");
        }
    }
}

/// Every word of a frame struck as often as it bears, and then the frame accepted, refused 4 for one of its words, the last
/// as often as not, or refused 5. It would catch a map that keeps what was told of the words before.
#[test]
fn frames_whose_words_were_corrected() {
    let mut noise = Noise::new(93);
    for round in 0..1500 {
        let s = frame::setting(&mut noise);
        let (size, number) = (s.slots(), [0, 4, 5][round % 3]);
        let mut area = frames::area_of(frame::plain(s), &[], 7);
        if number == 5 {
            // A trailer that points before the area.
            area[s.area() - 3] = 0xff;
        }
        let sent = frames::slots_of(frame::plain(s), &area);
        let (mut slots, mut marks) = (sent.clone(), vec![0; size]);
        (0..s.depth).for_each(|w| frame::strike(&mut noise, s, w, (s.r / 2, 0), &mut slots, &mut marks));
        let struck: Vec<usize> = (0..size).filter(|&slot| slots[slot] != sent[slot]).collect();
        assert_eq!(struck.len(), s.depth * (s.r / 2), "{s:?}");
        let last = *[s.depth - 1, noise.below(s.depth)].get(noise.below(2)).unwrap_or(&0);
        if number == 4 {
            // More marks than check bytes are beyond reach, whatever the slots hold.
            noise.places(s.n, s.r + 1).iter().for_each(|i| marks[i * s.depth + last] = 1);
        }
        let (answer, map) = received_into(s, &slots, &marks, &noise.bytes(s.area()), &vec![used(round / 3); size]);
        let (refused, places) = match number {
            0 => (None, struck),
            4 => (Some((4, last)), vec![]),
            _ => (Some((5, 0)), vec![]),
        };
        assert_eq!((answer.err(), map), (refused, ones(size, &places)), "{s:?}");
    }
    println!("1500 frames");
}

/// A map of another length is 2, also beside bad symbols and marks, and 1 where the setting is broken: nothing changes. It
/// would catch a call that writes as much of a map as it is lent, and one that looks at the marks first.
#[test]
fn lengths() {
    let mut noise = Noise::new(94);
    for _ in 0..500 {
        let (s, f) = (setting(&mut noise), frame::setting(&mut noise));
        let (word, slots) = (sent(&mut noise, s), noise.bytes(f.slots()));
        for mark in [0, 1, 2] {
            for size in [0, 1, s.n - 1, s.n + 1, 2 * s.n] {
                let number = |s| decoded_into(s, &word, &vec![mark; s.n], &old(size)).0;
                assert_eq!((number(s), number(Setting { b: 2, ..s })), (Err(2), Err(1)), "{s:?} {size}");
                let number = |s| decoded_part_into(s, &word, &vec![mark; s.n], &vec![9; s.n - s.r], &old(size)).0;
                assert_eq!((number(s), number(Setting { b: 2, ..s })), (Err(2), Err(1)), "{s:?} {size}");
            }
            for size in [0, f.n - 1, f.slots() - 1, f.slots() + 1] {
                let number = |f| received_into(f, &slots, &vec![mark; slots.len()], &vec![9; f.area()], &old(size)).0;
                let refused = (Err((2, 0)), Err((1, 0)));
                assert_eq!((number(f), number(Framing { b: 2, ..f })), refused, "{f:?} {size}");
            }
        }
    }
}
