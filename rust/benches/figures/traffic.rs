//! The words that all codecs are given.

use std::hint::black_box;

use reference::code::Code;
use reference::noise::Noise;
use yaxopetzo::word::Setting;

use crate::codecs::Codec;

/// What a row does to its words.
#[derive(Clone, Copy)]
pub struct Damage {
    pub name: &'static str,
    /// Marked places, all of them wrong.
    pub marked: usize,
    /// Unmarked wrong places.
    pub wrong: usize,
    pub kind: Kind,
}

/// What the codec has to do with a word.
#[derive(Clone, Copy, PartialEq)]
pub enum Kind {
    Encode,
    Mend,
    Refuse,
}

pub const fn damage(name: &'static str, marked: usize, wrong: usize, kind: Kind) -> Damage {
    Damage { name, marked, wrong, kind }
}

/// The rows that r check symbols have room for.
pub fn damages(r: usize) -> Vec<Damage> {
    let common = [damage("encode", 0, 0, Kind::Encode), damage("clean", 0, 0, Kind::Mend)];
    let wide = [
        damage("1 error", 0, 1, Kind::Mend),
        damage("4 errors", 0, 4, Kind::Mend),
        damage("8 errors", 0, 8, Kind::Mend),
        damage("16 erasures", 16, 0, Kind::Mend),
        damage("8 erasures and 4 errors", 8, 4, Kind::Mend),
        damage("refused: 9 errors", 0, 9, Kind::Refuse),
    ];
    let narrow = [
        damage("1 error", 0, 1, Kind::Mend),
        damage("2 errors", 0, 2, Kind::Mend),
        damage("4 erasures", 4, 0, Kind::Mend),
        damage("2 erasures and 1 error", 2, 1, Kind::Mend),
        damage("refused: 3 errors", 0, 3, Kind::Refuse),
    ];
    let rest: &[Damage] = if r == 16 { &wide } else { &narrow };
    common.iter().chain(rest).copied().collect()
}

/// One word on its way: what was sent, what came, and what is distrusted.
struct Letter {
    sent: Vec<u8>,
    received: Vec<u8>,
    marks: Vec<u8>,
    /// The marks as a list of places.
    marked: Vec<usize>,
}

/// As many words as a branch predictor will not learn by heart, and few enough to stay in the first cache.
pub const WORDS: usize = 48;

pub struct Traffic {
    letters: Vec<Letter>,
    /// The symbols of a message.
    pub message: usize,
}

impl Traffic {
    pub fn new(s: Setting, damage: Damage) -> Traffic {
        let mut noise = Noise::new(90 + damage.marked as u64 * 100 + damage.wrong as u64);
        let mut letters = Vec::new();
        let code = Code::new(s.m, s.n, s.r, s.b);
        while letters.len() < WORDS {
            let letter = letter(&mut noise, s, damage);
            // A word with too many errors may be near another codeword: such a one is no refusal, and is left out.
            let lost = |code: &Code| code.decode(&mut letter.received.clone(), &letter.marks).is_none();
            if code.as_ref().is_some_and(lost) == (damage.kind == Kind::Refuse) {
                letters.push(letter);
            }
        }
        Traffic { letters, message: s.n - s.r }
    }

    /// So many words, beginning with one of them; the codec's answer is kept from being optimized away.
    pub fn run(&self, codec: &mut dyn Codec, damage: Damage, from: usize, count: usize) {
        let mut work = [0; 255];
        for i in from..from + count {
            let letter = &self.letters[i % self.letters.len()];
            let word = &mut work[..letter.sent.len()];
            if damage.kind == Kind::Encode {
                codec.encode(&letter.sent[..self.message], word);
            } else {
                word.copy_from_slice(&letter.received);
                black_box(codec.decode(word, &letter.marks, &letter.marked));
            }
            black_box(word);
        }
    }

    /// The word of a number as it came; after the last they come again.
    pub fn received(&self, i: usize) -> &[u8] {
        &self.letters[i % self.letters.len()].received
    }

    /// A codec that does not do what the row says would make its time worthless.
    pub fn tried(&self, codec: &mut dyn Codec, damage: Damage) {
        for letter in &self.letters {
            let mut word = letter.received.clone();
            let accepted = match damage.kind {
                Kind::Encode => {
                    codec.encode(&letter.sent[..self.message], &mut word);
                    true
                }
                _ => codec.decode(&mut word, &letter.marks, &letter.marked),
            };
            assert_eq!(accepted, damage.kind != Kind::Refuse, "{}", codec.name());
            assert!(!accepted || word == letter.sent, "{}", codec.name());
        }
    }
}

fn letter(noise: &mut Noise, s: Setting, damage: Damage) -> Letter {
    let message = noise.bytes(s.n - s.r);
    let mut sent = vec![0; s.n];
    if let Some(code) = Code::new(s.m, s.n, s.r, s.b) {
        code.encode(&message, &mut sent);
    }
    let places = noise.places(s.n, damage.marked + damage.wrong);
    let mut received = sent.clone();
    noise.strike(&mut received, &places, 256);
    let marked = places[..damage.marked].to_vec();
    let mut marks = vec![0; s.n];
    marked.iter().for_each(|&place| marks[place] = 1);
    Letter { sent, received, marks, marked }
}
