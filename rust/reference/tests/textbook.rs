//! The judge itself against printed numbers: Sklar's chapter 8, EN 300 421 and the paper's own frame.

use reference::code::{Code, Figures};
use reference::{frame, word};

/// Equation 8.22 read from the highest power: the (7, 3) code's check polynomial; then 8.26, 8.31 and the syndromes after 8.32.
#[test]
fn sklar() {
    let code = Code::new(3, 7, 4, 1).expect("within the limits");
    assert_eq!(code.generator(), [1, 3, 1, 2, 3]);
    let mut word = [0; 7];
    code.encode(&[7, 3, 2], &mut word);
    assert_eq!(word, [7, 3, 2, 5, 6, 4, 1]);
    let mut received = [7, 3, 5, 1, 6, 4, 1];
    assert_eq!(code.syndromes(&received), [3, 7, 5, 0]);
    assert_eq!(code.decode(&mut received, &[0; 7]), Some(Figures { errors: 2, marked: 0, bits: 4 }));
    assert_eq!(received, word);
}

/// The product of x + a^i for i from 0 to 15.
#[test]
fn en_300_421() {
    let code = Code::new(8, 204, 16, 0).expect("within the limits");
    assert_eq!(code.generator(), [1, 59, 13, 104, 189, 68, 209, 30, 8, 163, 65, 41, 229, 98, 50, 36, 59]);
}

/// The maps of Sklar's word, of P8 and P9 of the worked table, and of the bench reader's frame, of which the paper says that
/// slots 2 and 3 were sent as others. A judge that maps marks, messages alone or words in a row would be noticed here.
#[test]
fn maps() {
    let mapped = |setting, received: &[u8], marks: &[u8]| {
        let (mut word, mut map) = (received.to_vec(), vec![9; received.len()]);
        let answer = word::decode(setting, &mut word, marks, &mut map);
        (answer.is_ok(), map)
    };
    let sklar = word::Setting { m: 3, n: 7, r: 4, b: 1 };
    assert_eq!(mapped(sklar, &[7, 3, 5, 1, 6, 4, 1], &[0; 7]), (true, vec![0, 0, 1, 1, 0, 0, 0]));
    let s = word::Setting { m: 8, n: 3, r: 2, b: 0 };
    assert_eq!(mapped(s, &[0, 0, 2], &[1, 1, 0]), (true, vec![1, 1, 0]));
    assert_eq!(mapped(s, &[0, 1, 2], &[0, 0, 0]), (false, vec![0, 0, 0]));
    // The right word of P8 with its marks: what was right is not changed.
    assert_eq!(mapped(s, &[1, 3, 2], &[1, 1, 0]), (true, vec![0, 0, 0]));

    let setting = frame::Setting { depth: 2, n: 5, r: 2, b: 0 };
    let (mut area, mut map) = ([9; 6], [9; 10]);
    let slots = [0, 0, 0, 0, 1, 1, 217, 13, 153, 14];
    let answer = frame::receive(setting, &slots, &[0; 10], &mut area, &mut map);
    assert_eq!((answer.map(|frame| frame.sequence), map), (Ok(258), [0, 0, 1, 1, 0, 0, 0, 0, 0, 0]));
}

/// Sklar's word and the one with two wrong symbols, his check polynomial under both b, the words of P5 to P9, and the bench
/// reader's frame as it was sent and as it came. A judge with the other b's roots, or words in a row, would be noticed here.
#[test]
fn clean() {
    let sklar = word::Setting { m: 3, n: 7, r: 4, b: 1 };
    let short = word::Setting { n: 5, ..sklar };
    let s = word::Setting { m: 8, n: 3, r: 2, b: 0 };
    let words: [(_, &[u8], _); 11] = [
        (sklar, &[7, 3, 2, 5, 6, 4, 1], Ok(true)),
        (sklar, &[7, 3, 5, 1, 6, 4, 1], Ok(false)),
        (sklar, &[7, 3, 2, 5, 6, 4, 9], Err(3)),
        (sklar, &[7, 3, 2, 5, 6, 9], Err(2)),
        (short, &[1, 3, 1, 2, 3], Ok(true)),
        (word::Setting { b: 0, ..short }, &[1, 3, 1, 2, 3], Ok(false)),
        (word::Setting { b: 2, ..short }, &[1, 3, 1, 2], Err(1)),
        (s, &[1, 3, 2], Ok(true)),
        (s, &[0, 3, 2], Ok(false)),
        (s, &[0, 0, 2], Ok(false)),
        (s, &[0, 1, 2], Ok(false)),
    ];
    for (setting, word, clean) in words {
        assert_eq!(word::is_clean(setting, word), clean, "{setting:?} {word:?}");
    }

    let setting = frame::Setting { depth: 2, n: 5, r: 2, b: 0 };
    let mut slots = [0, 0, 65, 2, 1, 1, 217, 13, 153, 14];
    assert_eq!(frame::first_unclean(setting, &slots), Ok(None));
    slots[3] = 0;
    assert_eq!(frame::first_unclean(setting, &slots), Ok(Some(1)));
    slots[2] = 0;
    assert_eq!(frame::first_unclean(setting, &slots), Ok(Some(0)));
    assert_eq!(frame::first_unclean(setting, &slots[1..]), Err(2));
    // Three bytes are no area: a trailer has four.
    assert_eq!(frame::first_unclean(frame::Setting { depth: 1, ..setting }, &slots[..5]), Err(1));
}
