//! The two judges agree: search through all codewords, and the algebra. A judge that is wrong would be noticed here.

use reference::code::{figures, Code};
use reference::noise::Noise;
use reference::search::{next, Codewords, Neighbourhoods};
use reference::word;

/// What both judges say of one received word.
fn compared(code: &Code, all: &Codewords, received: &[u8], marks: &[u8]) {
    let mut word = received.to_vec();
    let by_algebra = code.decode(&mut word, marks);
    match all.nearest(received, marks) {
        Some((right, counted)) => {
            assert_eq!(by_algebra, Some(counted), "{received:?} {marks:?}");
            assert_eq!(word, right);
        }
        None => assert_eq!((by_algebra, word.as_slice()), (None, received)),
    }
}

#[test]
fn every_small_code() {
    let mut noise = Noise::new(1);
    for (n, r, b) in settings() {
        let code = Code::new(3, n, r, b).expect("within the limits");
        let all = Codewords::new(n, r, b);
        assert_eq!(all.count(), 8usize.pow((n - r) as u32));
        for _ in 0..2000 {
            let received = noise.symbols(n, 8);
            let count = noise.below(n + 1);
            let mut marks = vec![0; n];
            noise.places(n, count).iter().for_each(|&place| marks[place] = 1);
            compared(&code, &all, &received, &marks);
        }
    }
}

fn settings() -> Vec<(usize, usize, usize)> {
    let sizes = (3..=7).flat_map(|n| (2..n).map(move |r| (n, r)));
    sizes.flat_map(|(n, r)| [(n, r, 0), (n, r, 1)]).collect()
}

/// A word is clean exactly where the search has it among its codewords.
#[test]
fn clean_small_words() {
    for (n, r, b) in settings().into_iter().filter(|&(n, ..)| n < 6) {
        let codewords = Neighbourhoods::new(n, Codewords::new(n, r, b), 0);
        let mut word = vec![0; n];
        loop {
            let clean = word::is_clean(word::Setting { m: 3, n, r, b }, &word);
            assert_eq!(clean, Ok(codewords.of(&word).is_some()), "{word:?}");
            if !next(&mut word) {
                break;
            }
        }
    }
}

/// And among bytes, exactly where its message is encoded to the same word again.
#[test]
fn clean_words_of_bytes() {
    let mut noise = Noise::new(3);
    for round in 0..3000 {
        let r = 2 + round % 15;
        let n = noise.between(r + 1, 255);
        let setting = word::Setting { m: 8, n, r, b: noise.below(2) };
        let mut sent = vec![0; n];
        assert_eq!(word::encode(setting, &noise.bytes(n - r), &mut sent), Ok(()));
        let wrong = [0, 1, 2, r, r + 1][noise.below(5)];
        let places = noise.places(n, wrong);
        let mut received = sent.clone();
        noise.strike(&mut received, &places, 256);
        let mut again = vec![0; n];
        assert_eq!(word::encode(setting, &received[..n - r], &mut again), Ok(()));
        assert_eq!(word::is_clean(setting, &received), Ok(again == received), "{setting:?} {received:?}");
    }
}

#[test]
fn every_message_of_the_small_codes() {
    for (n, r, b) in settings() {
        let code = Code::new(3, n, r, b).expect("within the limits");
        let mut message = vec![0; n - r];
        loop {
            let mut word = vec![0; n];
            code.encode(&message, &mut word);
            assert!(code.is_codeword(&word) && word.starts_with(&message));
            if !next(&mut message) {
                break;
            }
        }
    }
}

#[test]
fn bytes_within_the_bound_come_back() {
    let mut noise = Noise::new(2);
    for round in 0..20_000 {
        let r = 2 + round % 15;
        let n = noise.between(r + 1, 255);
        let code = Code::new(8, n, r, round % 2).expect("within the limits");
        let message = noise.bytes(n - r);
        let mut sent = vec![0; n];
        code.encode(&message, &mut sent);
        let marked = noise.between(0, r);
        let wrong = noise.below((r - marked) / 2 + 1);
        let places = noise.places(n, marked + wrong);
        let mut marks = vec![0; n];
        places.iter().take(marked).for_each(|&place| marks[place] = 1);
        let mut word = sent.clone();
        noise.strike(&mut word, &places, 256);
        let received = word.clone();
        assert_eq!(code.decode(&mut word, &marks), Some(figures(&received, &sent, &marks)));
        assert_eq!(word, sent);
    }
}
