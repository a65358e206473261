//! Word calls that are refused: every limit from both sides, lengths, symbols and marks, and the order of the three.

use reference::noise::Noise;
use yaxopetzo::word::Setting;

use crate::map::old;
use crate::same::{clean, decoded, decoded_into, decoded_part, decoded_part_into, encoded, plain};

const MS: [usize; 10] = [0, 1, 2, 3, 4, 7, 8, 9, 259, usize::MAX];
const NS: [usize; 17] = [0, 1, 2, 3, 4, 6, 7, 8, 9, 16, 17, 18, 254, 255, 256, 260, usize::MAX];
const RS: [usize; 11] = [0, 1, 2, 3, 6, 7, 15, 16, 17, 258, usize::MAX];
const BS: [usize; 5] = [0, 1, 2, 256, usize::MAX];

/// Numbers that differ by 256 from allowed ones are among them: a face that keeps the low byte would take them.
#[test]
fn every_limit() {
    let mut count = 0;
    for (m, n) in MS.iter().flat_map(|&m| NS.map(|n| (m, n))) {
        for (r, b) in RS.iter().flat_map(|&r| BS.map(|b| (r, b))) {
            let s = Setting { m, n, r, b };
            assert_eq!(s.is_allowed(), plain(s).code().is_ok(), "{s:?}");
            let (size, k) = (n.min(300), n.saturating_sub(r).min(300));
            // Marks of 2 and symbols of 255 stand for what a broken setting must come before.
            let _ = decoded(s, &vec![0; size], &vec![0; size]);
            let _ = decoded(s, &vec![255; size], &vec![2; size + 1]);
            let _ = decoded_part(s, &vec![0; size], &vec![0; size], &vec![7; k]);
            // So does a map that is too long.
            let _ = decoded_into(s, &vec![0; size], &vec![2; size], &old(size + 1));
            let _ = decoded_part_into(s, &vec![0; size], &vec![2; size], &vec![7; k], &old(size + 1));
            let _ = encoded(s, &vec![1; k], &vec![7; size]);
            let _ = encoded(s, &vec![255; k], &vec![7; size + 1]);
            let _ = clean(s, &vec![0; size]);
            let _ = clean(s, &vec![255; size + 1]);
            count += 9;
        }
    }
    println!("{count} calls");
}

/// The corners of both fields, both b.
pub fn some_settings() -> Vec<Setting> {
    let sizes = [(3, 7, 4), (3, 3, 2), (3, 5, 3), (8, 204, 16), (8, 32, 4), (8, 255, 2), (8, 3, 2), (8, 17, 16)];
    sizes.iter().flat_map(|&(m, n, r)| [0, 1].map(|b| Setting { m, n, r, b })).collect()
}

/// Each buffer one too short, exact, one too long and empty, alone and together, with bad bytes in them.
#[test]
fn every_length() {
    let around = |size: usize| [0, size - 1, size, size + 1, 2 * size];
    let mut count = 0;
    for s in some_settings() {
        let k = s.n - s.r;
        for (x, y) in around(s.n).iter().flat_map(|&x| around(s.n).map(|y| (x, y))) {
            for (symbol, mark) in [(0, 0), (255, 0), (0, 2), (255, 2)] {
                let (word, marks) = (vec![symbol; x], vec![mark; y]);
                around(s.n).iter().for_each(|&map| {
                    let _ = decoded_into(s, &word, &marks, &old(map));
                });
                around(k).iter().flat_map(|&z| around(s.n).map(|map| (z, map))).for_each(|(z, map)| {
                    let _ = decoded_part_into(s, &word, &marks, &vec![9; z], &old(map));
                });
                count += 30;
            }
        }
        for (x, symbol) in around(s.n).iter().flat_map(|&x| [0, 8, 255].map(|symbol| (x, symbol))) {
            let _ = clean(s, &vec![symbol; x]);
            count += 1;
        }
        for (x, y) in around(k).iter().flat_map(|&x| around(s.n).map(|y| (x, y))) {
            let _ = encoded(s, &vec![1; x], &vec![9; y]);
            let _ = encoded(s, &vec![8; x], &vec![9; y]);
            count += 2;
        }
    }
    println!("{count} calls");
}

/// One bad symbol or mark at each place of an otherwise good word, marked places included.
#[test]
fn every_place() {
    let mut noise = Noise::new(20);
    let mut count = 0;
    for s in some_settings() {
        let limit = 1 << s.m;
        for place in 0..s.n {
            let (mut word, mut marks) = (noise.symbols(s.n, limit), vec![0; s.n]);
            marks[place] = *[0, 1, 2, 3, 128, 255].get(noise.below(6)).unwrap_or(&2);
            let _ = decoded(s, &word, &marks);
            marks[place] = noise.below(2) as u8;
            word[place] = noise.between(limit - 1, 255) as u8;
            let _ = decoded(s, &word, &marks);
            let _ = decoded_part(s, &word, &marks, &noise.bytes(s.n - s.r));
            let _ = encoded(s, &word[..s.n - s.r], &noise.bytes(s.n));
            let _ = clean(s, &word);
            count += 5;
        }
    }
    println!("{count} calls");
}
