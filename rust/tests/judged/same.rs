//! One input to both codecs, and the comparison of all that they leave.

use reference::{code, word as plain};
use yaxopetzo::{word::Setting, Figures, Refusal};

use crate::map::{old, word_laws};

/// A word's answer in the reference's form.
pub type Answer = Result<code::Figures, u8>;

/// The reference's form of a setting.
pub fn plain(s: Setting) -> plain::Setting {
    plain::Setting { m: s.m, n: s.n, r: s.r, b: s.b }
}

/// The reference's form of an answer's figures.
pub fn counted(f: Figures) -> code::Figures {
    code::Figures { errors: f.errors.into(), marked: f.marked.into(), bits: f.bits.into() }
}

/// The reference's form of a word's answer.
pub fn numbered(answer: Result<Figures, Refusal>) -> Answer {
    answer.map(counted).map_err(Refusal::number)
}

/// Decodes on both sides; gives the answer on which they agree and the word that is left.
pub fn decoded(s: Setting, received: &[u8], marks: &[u8]) -> (Answer, Vec<u8>) {
    let (answer, word, _) = decoded_into(s, received, marks, &old(received.len()));
    (answer, word)
}

/// The same with a map that holds this; gives the map that is left too.
pub fn decoded_into(s: Setting, received: &[u8], marks: &[u8], map: &[u8]) -> (Answer, Vec<u8>, Vec<u8>) {
    let (mut ours, mut theirs) = (received.to_vec(), received.to_vec());
    let (mut our_map, mut their_map) = (map.to_vec(), map.to_vec());
    let answer = numbered(s.decode(&mut ours, marks, &mut our_map));
    let expected = plain::decode(plain(s), &mut theirs, marks, &mut their_map);
    assert_eq!(answer, expected, "{s:?} {received:?} {marks:?}");
    assert_eq!((&ours, &our_map), (&theirs, &their_map), "{s:?} {received:?} {marks:?}");
    word_laws(&answer, received, &ours, marks, map, &our_map);
    (answer, ours, our_map)
}

/// Decodes into a part on both sides.
pub fn decoded_part(s: Setting, received: &[u8], marks: &[u8], before: &[u8]) -> Answer {
    decoded_part_into(s, received, marks, before, &old(received.len())).0
}

/// The same with a map that holds this; gives the map that is left too.
pub fn decoded_part_into(s: Setting, received: &[u8], marks: &[u8], before: &[u8], map: &[u8]) -> (Answer, Vec<u8>) {
    let (mut ours, mut theirs) = (before.to_vec(), before.to_vec());
    let (mut our_map, mut their_map) = (map.to_vec(), map.to_vec());
    let answer = numbered(s.decode_part(received, marks, &mut ours, &mut our_map));
    let expected = plain::decode_part(plain(s), received, marks, &mut theirs, &mut their_map);
    assert_eq!(answer, expected, "{s:?} {received:?} {marks:?}");
    assert_eq!((&ours, &our_map), (&theirs, &their_map), "{s:?} {received:?} {marks:?}");
    (answer, our_map)
}

/// Whether both sides call the word a codeword as received. It is one exactly where decoding it with every mark 0 is answered
/// 0 and changes nothing, and it is refused as decoding is.
pub fn clean(s: Setting, word: &[u8]) -> Result<bool, u8> {
    let answer = s.is_clean(word).map_err(Refusal::number);
    assert_eq!(answer, plain::is_clean(plain(s), word), "{s:?} {word:?}");
    let (mut left, mut map) = (word.to_vec(), old(word.len()));
    let unchanged = match s.decode(&mut left, &vec![0; word.len()], &mut map) {
        Ok(_) => Ok(map.iter().all(|&change| change == 0)),
        Err(Refusal::BeyondReach) => Ok(false),
        Err(refused) => Err(refused.number()),
    };
    assert_eq!(answer, unchanged, "{s:?} {word:?}");
    answer
}

/// Encodes on both sides into buffers that hold the same old bytes.
pub fn encoded(s: Setting, message: &[u8], before: &[u8]) -> (Result<(), u8>, Vec<u8>) {
    let (mut ours, mut theirs) = (before.to_vec(), before.to_vec());
    let answer = s.encode(message, &mut ours).map_err(Refusal::number);
    let expected = plain::encode(plain(s), message, &mut theirs);
    assert_eq!(answer, expected, "{s:?} {message:?}");
    assert_eq!(ours, theirs, "{s:?} {message:?}");
    (answer, ours)
}
