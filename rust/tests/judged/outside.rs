//! Numbers from outside this house: ETSI's code, the square codes of ISO 18004, the textbook's example, and the
//! paper's worked table.

use yaxopetzo::word::Setting;
use yaxopetzo::{block, line, Figures, Refusal};

use crate::map::OLD;

fn encoded<const K: usize, const N: usize>(r: usize, b: usize, m: usize, message: [u8; K]) -> [u8; N] {
    let mut word = [0; N];
    let s = Setting { m, n: N, r, b };
    assert_eq!(s.encode(&message, &mut word), Ok(()));
    assert_eq!(s.is_clean(&word), Ok(true));
    word
}

/// The check symbols of the message 1 are the check polynomial's coefficients, without the leading one.
#[test]
fn check_polynomial_of_en_300_421() {
    let word: [u8; 17] = encoded(16, 0, 8, [1]);
    assert_eq!(word, [1, 59, 13, 104, 189, 68, 209, 30, 8, 163, 65, 41, 229, 98, 50, 36, 59]);
}

/// ISO 18004's table of check polynomials, as exponents of a; the codes of the square symbols have b = 0.
#[test]
fn check_polynomials_of_iso_18004() {
    let tables: [&[u32]; 3] = [
        &[87, 229, 146, 149, 238, 102, 21],
        &[251, 67, 46, 61, 118, 70, 64, 94, 32, 45],
        &[74, 152, 176, 100, 86, 100, 106, 104, 130, 218, 206, 140, 78],
    ];
    let double = |x: u32| if x < 128 { 2 * x } else { (2 * x) ^ 285 };
    for exponents in tables {
        let r = exponents.len();
        let mut word = vec![0; r + 1];
        let s = Setting { m: 8, n: r + 1, r, b: 0 };
        assert_eq!(s.encode(&[1], &mut word), Ok(()));
        let power = |&i: &u32| (0..i).fold(1, |x, _| double(x)) as u8;
        let expected: Vec<u8> = exponents.iter().map(power).collect();
        assert_eq!(word[1..], expected);
        assert_eq!((s.is_clean(&word), Setting { b: 1, ..s }.is_clean(&word)), (Ok(true), Ok(false)));
    }
}

/// A square symbol of version 1-M that says HELLO WORLD, known from many tutorials.
#[test]
fn hello_world() {
    let message = [32, 91, 11, 120, 209, 114, 220, 77, 67, 64, 236, 17, 236, 17, 236, 17];
    let word: [u8; 26] = encoded(10, 0, 8, message);
    assert_eq!(word[16..], [196, 35, 39, 119, 235, 215, 231, 226, 93, 23]);
}

/// Sklar's code: its check polynomial (equation 8.22), the message and its codeword, and the example's two wrong symbols.
#[test]
fn sklar() {
    assert_eq!(encoded::<1, 5>(4, 1, 3, [1]), [1, 3, 1, 2, 3]);
    let word: [u8; 7] = encoded(4, 1, 3, [7, 3, 2]);
    assert_eq!(word, [7, 3, 2, 5, 6, 4, 1]);
    let s = Setting { m: 3, n: 7, r: 4, b: 1 };
    let (mut received, mut map) = ([7, 3, 5, 1, 6, 4, 1], [OLD; 7]);
    assert_eq!(s.is_clean(&received), Ok(false));
    assert_eq!(s.decode(&mut received, &[0; 7], &mut map), Ok(Figures { errors: 2, marked: 0, bits: 4 }));
    assert_eq!((received, map), (word, [0, 0, 1, 1, 0, 0, 0]));
}

/// Code S of the worked table: P5 to P10, and the places in which the table's words differ.
#[test]
fn worked_words() {
    let s = Setting { m: 8, n: 3, r: 2, b: 0 };
    let figures = |errors, marked, bits| Ok(Figures { errors, marked, bits });
    let cases = [
        ([0, 3, 2], [0, 0, 0], figures(1, 0, 1), [1, 3, 2], [1, 0, 0]),
        ([0, 0, 2], [0, 0, 0], figures(1, 0, 1), [0, 0, 0], [0, 0, 1]),
        ([0, 0, 2], [1, 1, 0], figures(0, 2, 3), [1, 3, 2], [1, 1, 0]),
        ([0, 1, 2], [0, 0, 0], Err(Refusal::BeyondReach), [0, 1, 2], [0, 0, 0]),
        ([1, 3, 2], [1, 1, 1], Err(Refusal::BeyondReach), [1, 3, 2], [0, 0, 0]),
    ];
    for (received, marks, answer, left, changed) in cases {
        // What is marked has no say in it.
        assert_eq!(s.is_clean(&received), Ok(received == [1, 3, 2]));
        let (mut word, mut map) = (received, [OLD; 3]);
        assert_eq!(s.decode(&mut word, &marks, &mut map), answer);
        assert_eq!((word, map), (left, changed));
    }
    assert_eq!(encoded::<1, 3>(2, 0, 8, [1]), [1, 3, 2]);
}

/// P11 and P12 of the worked table.
#[test]
fn worked_slots() {
    let mut slots = [0; 6];
    assert_eq!(block::spread(2, 3, &[1, 3, 2, 2, 6, 4], &mut slots), Ok(()));
    assert_eq!(slots, [1, 2, 3, 6, 2, 4]);

    let setting = line::Setting { branches: 2, unit: 2, n: 4 };
    let (mut memory, mut other, mut held) = ([9; 2], [9; 2], [9; 2]);
    let mut bytes = [1, 2, 3, 4, 5, 6, 7, 8];
    let sent = line::Sender::fresh(setting, &mut memory).and_then(|mut sender| sender.run(&mut bytes));
    assert_eq!((sent, bytes), (Ok(()), [1, 0, 3, 0, 5, 2, 7, 4]));
    let mut marks = [0; 8];
    let fresh = line::Receiver::fresh(setting, &mut other, &mut held);
    assert_eq!(fresh.and_then(|mut receiver| receiver.run(&mut bytes, &mut marks)), Ok(()));
    assert_eq!((bytes, marks), ([0, 0, 0, 0, 1, 2, 3, 4], [1, 0, 1, 0, 0, 0, 0, 0]));
}
