//! The plainest judge: all codewords of a small code, and the one that is near enough.

use crate::code::{figures, Figures};

/// All codewords of a code in the field of eight elements.
pub struct Codewords {
    r: usize,
    words: Vec<Vec<u8>>,
}

/// The product in the field of eight elements, by its definition: terms added, then reduced by 11.
fn times(x: u8, y: u8) -> u8 {
    let mut sum = 0;
    for bit in 0..3 {
        if (y >> bit) & 1 == 1 {
            sum ^= x << bit;
        }
    }
    for bit in [4, 3] {
        if (sum >> bit) & 1 == 1 {
            sum ^= 11 << (bit - 3);
        }
    }
    sum
}

impl Codewords {
    /// Goes through all 8^n words and keeps those that are zero at a^b .. a^(b+r-1).
    pub fn new(n: usize, r: usize, b: usize) -> Codewords {
        let mut root = 1;
        let mut roots = Vec::new();
        for j in 0..b + r {
            if j >= b {
                roots.push(root);
            }
            root = times(root, 2);
        }
        let mut words = Vec::new();
        let mut word = vec![0; n];
        loop {
            let value = |&at: &u8| word.iter().fold(0, |sum, &c| times(sum, at) ^ c);
            if roots.iter().all(|root| value(root) == 0) {
                words.push(word.clone());
            }
            if !next(&mut word) {
                return Codewords { r, words };
            }
        }
    }

    /// How many there are.
    pub fn count(&self) -> usize {
        self.words.len()
    }

    /// The codeword with 2e + f <= r and its figures. Two of them would contradict the paper, and are told as none.
    pub fn nearest(&self, received: &[u8], marks: &[u8]) -> Option<(&[u8], Figures)> {
        let judged = |word| (word, figures(received, word, marks));
        let near = |(_, f): &(&[u8], Figures)| 2 * f.errors + f.marked <= self.r;
        let mut found = self.words.iter().map(|w| judged(w.as_slice())).filter(near);
        let first = found.next();
        if found.next().is_some() {
            return None;
        }
        first
    }
}

/// For each of the 8^n words, by its number, the codeword that differs in at most t places; n has at most seven symbols.
///
/// It is made the other way round than [`Codewords::nearest`]: every codeword claims the words around it. A word that two
/// of them claim would contradict the paper, and is left to neither.
pub struct Neighbourhoods {
    owners: Vec<Owner>,
    codewords: Codewords,
}

#[derive(Clone, Copy, PartialEq)]
enum Owner {
    None,
    One(u32),
    Several,
}

/// A word as a number to the base 8, its first symbol weighing most.
fn number(word: &[u8]) -> usize {
    word.iter().fold(0, |sum, &symbol| sum * 8 + symbol as usize)
}

impl Neighbourhoods {
    pub fn new(n: usize, codewords: Codewords, t: usize) -> Neighbourhoods {
        let mut owners = vec![Owner::None; 1 << (3 * n)];
        for (index, word) in codewords.words.iter().enumerate() {
            claim(&mut owners, &mut word.clone(), 0, t, index as u32);
        }
        Neighbourhoods { owners, codewords }
    }

    /// The codeword near this word.
    pub fn of(&self, word: &[u8]) -> Option<&[u8]> {
        match self.owners[number(word)] {
            Owner::One(index) => Some(&self.codewords.words[index as usize]),
            Owner::None | Owner::Several => None,
        }
    }
}

/// Claims the word, and all that differ from it in at most t places from this place on.
fn claim(owners: &mut [Owner], word: &mut [u8], from: usize, t: usize, index: u32) {
    let owner = &mut owners[number(word)];
    *owner = if *owner == Owner::None { Owner::One(index) } else { Owner::Several };
    if t == 0 {
        return;
    }
    for place in from..word.len() {
        for change in 1..8 {
            word[place] ^= change;
            claim(owners, word, place + 1, t - 1, index);
            word[place] ^= change;
        }
    }
}

/// The next word of symbols below 8 in counting order; false after the last.
pub fn next(word: &mut [u8]) -> bool {
    for symbol in word.iter_mut().rev() {
        if *symbol < 7 {
            *symbol += 1;
            return true;
        }
        *symbol = 0;
    }
    false
}
