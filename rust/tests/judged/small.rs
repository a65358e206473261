//! The field of eight elements against a search through all codewords: no algebra at all on the judge's side.

use reference::code::{changes, figures};
use reference::noise::Noise;
use reference::search::{next, Codewords, Neighbourhoods};
use yaxopetzo::word::Setting;

use crate::map::{old, OLD};
use crate::same::numbered;

/// One received word; the search tells the codeword, or that none qualifies.
fn judged(s: Setting, all: &Codewords, received: &[u8], marks: &[u8]) {
    let (mut word, mut map) = (received.to_vec(), old(s.n));
    let answer = numbered(s.decode(&mut word, marks, &mut map));
    let near = all.nearest(received, marks);
    // A word that is refused stays, and nothing in it is changed.
    let right = near.map_or(received, |(right, _)| right);
    assert_eq!(answer, near.map(|(_, figures)| figures).ok_or(4), "{s:?} {received:?} {marks:?}");
    assert_eq!((word.as_slice(), map), (right, changes(received, right)), "{s:?} {received:?} {marks:?}");
}

/// The marks of a number's bits.
fn marks_of(bits: usize, n: usize) -> Vec<u8> {
    (0..n).map(|i| (bits >> i) as u8 & 1).collect()
}

fn settings(sizes: std::ops::RangeInclusive<usize>) -> Vec<Setting> {
    let pairs = sizes.flat_map(|n| (2..n).map(move |r| (n, r)));
    pairs.flat_map(|(n, r)| [0, 1].map(|b| Setting { m: 3, n, r, b })).collect()
}

/// All words with all marks where n is 3 or 4.
#[test]
fn every_word_and_every_mark() {
    let mut count = 0;
    for s in settings(3..=4) {
        let all = Codewords::new(s.n, s.r, s.b);
        let mut word = vec![0; s.n];
        loop {
            for bits in 0..1 << s.n {
                judged(s, &all, &word, &marks_of(bits, s.n));
                count += 1;
            }
            if !next(&mut word) {
                break;
            }
        }
    }
    println!("{count} words");
}

/// All 2,097,152 unmarked words of the textbook's code.
#[test]
fn every_word_of_sklars_code() {
    let s = Setting { m: 3, n: 7, r: 4, b: 1 };
    let near = Neighbourhoods::new(7, Codewords::new(7, 4, 1), 2);
    let mut received = [0; 7];
    loop {
        let (mut word, mut map) = (received, [OLD; 7]);
        let answer = numbered(s.decode(&mut word, &[0; 7], &mut map));
        let figures = near.of(&received).map(|right| figures(&received, right, &[0; 7]));
        let right = near.of(&received).unwrap_or(&received);
        assert_eq!(answer, figures.ok_or(4), "{received:?}");
        assert_eq!((&word[..], &map[..]), (right, &changes(&received, right)[..]), "{received:?}");
        assert_eq!(s.is_clean(&received), Ok(near.of(&received) == Some(&received)), "{received:?}");
        if !next(&mut received) {
            break;
        }
    }
    println!("2097152 words");
}

/// Random words and marks where n is 5 to 7, for every r.
#[test]
fn random_words_and_marks() {
    let mut noise = Noise::new(4);
    let mut count = 0;
    for s in settings(5..=7) {
        let all = Codewords::new(s.n, s.r, s.b);
        let rounds = 40_000_000 / (all.count() * s.n + 5000);
        for _ in 0..rounds.min(4000) {
            let (word, bits) = (noise.symbols(s.n, 8), noise.below(1 << s.n));
            judged(s, &all, &word, &marks_of(bits, s.n));
            judged(s, &all, &word, &vec![0; s.n]);
            count += 2;
        }
    }
    println!("{count} words");
}
