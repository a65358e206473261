//! The word code: every m, r and b, the corners of n, and damage around the bound.

use reference::noise::Noise;
use yaxopetzo::word::Setting;

use crate::same::{decoded, decoded_part, encoded};

/// The symbols of a field.
fn field(m: usize) -> usize {
    1 << m
}

/// Every m, r and b with the corners of n and one n between.
pub fn settings(noise: &mut Noise) -> Vec<Setting> {
    let mut all = Vec::new();
    for (m, r, b) in [3, 8].iter().flat_map(|&m| (2..=16).flat_map(move |r| [(m, r, 0), (m, r, 1)])) {
        let top = field(m) - 1;
        if r >= top {
            continue;
        }
        let mut sizes = vec![r + 1, r + 2, 32, 204, top - 1, top, noise.between(r + 1, top)];
        sizes.retain(|&n| n > r && n <= top);
        sizes.sort_unstable();
        sizes.dedup();
        all.extend(sizes.iter().map(|&n| Setting { m, n, r, b }));
    }
    all
}

/// A message of one of four kinds: zeros, all ones, a single symbol, random.
fn message(noise: &mut Noise, s: Setting, kind: usize) -> Vec<u8> {
    let k = s.n - s.r;
    let mut message = vec![0; k];
    match kind % 4 {
        0 => {}
        1 => message.fill((field(s.m) - 1) as u8),
        2 => message[noise.below(k)] = noise.between(1, field(s.m) - 1) as u8,
        _ => message = noise.symbols(k, field(s.m)),
    }
    message
}

/// What stood in a buffer before, so that a byte which a call leaves alone is noticed.
fn old(noise: &mut Noise, count: usize) -> Vec<u8> {
    noise.bytes(count)
}

/// Marks f places and strikes some of them and e others.
fn damaged(noise: &mut Noise, s: Setting, sent: &[u8], f: usize, e: usize) -> (Vec<u8>, Vec<u8>) {
    let places = noise.places(s.n, f + e);
    let (marked, wrong) = places.split_at(f.min(places.len()));
    let mut marks = vec![0; s.n];
    marked.iter().for_each(|&place| marks[place] = 1);
    let mut struck = wrong.to_vec();
    struck.extend(marked.iter().filter(|_| noise.below(3) > 0));
    let mut word = sent.to_vec();
    noise.strike(&mut word, &struck, field(s.m));
    (word, marks)
}

#[test]
fn encode_everywhere() {
    let mut noise = Noise::new(10);
    let mut count = 0;
    for s in settings(&mut noise) {
        for kind in 0..12 {
            let message = message(&mut noise, s, kind);
            let before = old(&mut noise, s.n);
            let (answer, word) = encoded(s, &message, &before);
            assert_eq!((answer, &word[..s.n - s.r]), (Ok(()), message.as_slice()));
            count += 1;
        }
    }
    println!("{count} words");
}

/// All numbers of marks and errors from none to two beyond the bound: within it the sent word must come back.
#[test]
fn decode_around_the_bound() {
    let mut noise = Noise::new(11);
    let mut count = 0;
    for s in (0..3).flat_map(|_| settings(&mut noise)).collect::<Vec<Setting>>() {
        let message = message(&mut noise, s, 3);
        let (_, sent) = encoded(s, &message, &vec![0; s.n]);
        for f in 0..=(s.r + 1).min(s.n) {
            for e in 0..=(s.r.saturating_sub(f) / 2 + 2).min(s.n - f) {
                let (word, marks) = damaged(&mut noise, s, &sent, f, e);
                let (answer, left) = decoded(s, &word, &marks);
                if 2 * e + f <= s.r {
                    assert_eq!(left, sent, "{s:?} f {f} e {e}");
                    assert!(matches!(answer, Ok(a) if (a.errors, a.marked) == (e, f)), "{s:?} f {f} e {e}");
                }
                let before = old(&mut noise, s.n - s.r);
                assert_eq!(decoded_part(s, &word, &marks, &before), answer);
                count += 2;
            }
        }
    }
    println!("{count} words");
}

/// Words that no one sent. Short words refuse places beyond their end; with few check symbols many are taken for
/// other codewords, and both codecs must take the same.
#[test]
fn decode_what_was_never_sent() {
    let mut noise = Noise::new(12);
    let mut taken = 0;
    for round in 0..120_000 {
        let m = if round % 8 == 0 { 3 } else { 8 };
        let r = 2 + round % if m == 3 { 5 } else { 6 };
        let n = noise.between(r + 1, field(m) - 1);
        let s = Setting { m, n, r, b: noise.below(2) };
        let word = noise.symbols(n, field(m));
        let count = if noise.below(2) == 0 { 0 } else { noise.below(r + 2).min(n) };
        let mut marks = vec![0; n];
        noise.places(n, count).iter().for_each(|&place| marks[place] = 1);
        taken += decoded(s, &word, &marks).0.is_ok() as usize;
    }
    assert!(taken > 10_000, "only {taken} words were taken: the test does not try what it says");
    println!("120000 words, {taken} of them taken");
}

/// One or two errors beyond the bound from a codeword, where a decoder that forgets the bound goes wrong.
#[test]
fn decode_just_beyond_the_bound() {
    let mut noise = Noise::new(13);
    let mut refused = 0;
    for round in 0..40_000 {
        let r = 2 + round % 15;
        let n = *[r + 1, r + 3, 2 * r + 1, 32, 204, 255].get(round % 6).unwrap_or(&255);
        let s = Setting { m: 8, n, r, b: round / 2 % 2 };
        if n <= r {
            continue;
        }
        let message = noise.bytes(n - r);
        let (_, sent) = encoded(s, &message, &vec![0; n]);
        let f = noise.below(r + 1);
        let e = ((r - f) / 2 + noise.between(1, 2)).min(n - f);
        let (word, marks) = damaged(&mut noise, s, &sent, f, e);
        refused += (decoded(s, &word, &marks).0 == Err(4)) as usize;
    }
    assert!(refused > 10_000, "only {refused} words were refused: the test does not try what it says");
    println!("80000 words, {refused} of them refused");
}
