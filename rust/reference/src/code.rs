//! The word code: long division one way, Berlekamp-Massey, Chien and Forney the other.

use crate::field::Field;

/// A code of one setting with its tables.
#[derive(Clone)]
pub struct Code {
    pub field: Field,
    pub n: usize,
    pub r: usize,
    pub b: usize,
    generator: Vec<u8>,
    // The generator's exponents without the leading one; none where a coefficient is zero.
    taps: Vec<Option<u16>>,
}

/// What an accepted word was found to have: unmarked wrong symbols, marks, changed bits.
#[derive(Clone, Copy, Debug, Default, PartialEq, Eq)]
pub struct Figures {
    pub errors: usize,
    pub marked: usize,
    pub bits: usize,
}

impl Code {
    /// The code for m, n, r, b, and none where one of the paper's limits is broken.
    pub fn new(m: usize, n: usize, r: usize, b: usize) -> Option<Code> {
        let field = Field::new(m)?;
        if !(2..=16).contains(&r) || n <= r || n > field.order || b > 1 {
            return None;
        }
        let generator = generator(&field, r, b);
        let exponent = |&c: &u8| (c != 0).then(|| field.exponent(c) as u16);
        let taps = generator.iter().skip(1).map(exponent).collect();
        Some(Code { field, n, r, b, generator, taps })
    }

    /// The polynomial whose roots are a^b .. a^(b+r-1), highest power first.
    pub fn generator(&self) -> &[u8] {
        &self.generator
    }

    /// The message, then the remainder of its division by the generator.
    pub fn encode(&self, message: &[u8], word: &mut [u8]) {
        let k = self.n - self.r;
        let mut rest = [0; 255];
        rest[..k].copy_from_slice(message);
        for i in 0..k {
            if rest[i] == 0 {
                continue;
            }
            let lead = self.field.exponent(rest[i]);
            for (j, tap) in self.taps.iter().enumerate() {
                if let Some(tap) = tap {
                    rest[i + 1 + j] ^= self.field.power_of_sum(lead + *tap as usize);
                }
            }
        }
        word[..k].copy_from_slice(message);
        word[k..].copy_from_slice(&rest[k..self.n]);
    }

    /// The word's values at a^b .. a^(b+r-1).
    pub fn syndromes(&self, word: &[u8]) -> Vec<u8> {
        let at = |j| {
            let root = self.field.power(self.b + j);
            word.iter().fold(0, |sum, &c| self.field.times(sum, root) ^ c)
        };
        (0..self.r).map(at).collect()
    }

    /// Whether the word is zero at all roots.
    pub fn is_codeword(&self, word: &[u8]) -> bool {
        self.syndromes(word).iter().all(|&s| s == 0)
    }

    /// The same by the paper's own words, one term after the other: place i holds the coefficient of X^(n-1-i), and the sum
    /// is zero at each of a^b .. a^(b+r-1). Neither the division nor the syndromes of the decoder are asked.
    pub fn is_zero_at_roots(&self, word: &[u8]) -> bool {
        let term = |root: usize, i: usize| self.field.times(word[i], self.field.power(root * (self.n - 1 - i)));
        (self.b..self.b + self.r).all(|root| (0..self.n).fold(0, |sum, i| sum ^ term(root, i)) == 0)
    }

    /// Place i holds the coefficient of X^(n-1-i); this is its locator.
    fn locator(&self, place: usize) -> u8 {
        self.field.power(self.n - 1 - place)
    }

    /// Corrects the word where it stands to the codeword with 2e + f <= r. Where there is none the word stays.
    pub fn decode(&self, word: &mut [u8], marks: &[u8]) -> Option<Figures> {
        let marked = marks.iter().filter(|&&mark| mark == 1).count();
        if marked > self.r {
            return None;
        }
        let sums = self.syndromes(word);
        if sums.iter().all(|&s| s == 0) {
            return Some(Figures { errors: 0, marked, bits: 0 });
        }
        let errata = self.errata(&sums, marks, marked)?;
        let places = self.places(&errata)?;
        let mended = self.mended(word, &sums, &errata, &places)?;
        let figures = figures(word, &mended, marks);
        // Whatever the algebra found, only the paper's own rule decides.
        if !self.is_codeword(&mended) || 2 * figures.errors + figures.marked > self.r {
            return None;
        }
        word.copy_from_slice(&mended);
        Some(figures)
    }

    /// The polynomial of wrong and marked places: Massey's register, started with the marked places' own.
    fn errata(&self, sums: &[u8], marks: &[u8], marked: usize) -> Option<Vec<u8>> {
        let f = &self.field;
        let mut now = vec![1];
        for place in (0..self.n).filter(|&i| marks[i] == 1) {
            now = f.product(&now, &[1, self.locator(place)]);
        }
        now.resize(self.r + 2, 0);
        let mut old = now.clone();
        let mut size = marked;
        for step in marked..self.r {
            let term = |i: usize| f.times(now[i], sums[step - i]);
            let gap = (0..=size.min(step)).fold(0, |sum, i| sum ^ term(i));
            old.rotate_right(1);
            if gap == 0 {
                continue;
            }
            let kept = now.clone();
            for (c, &o) in now.iter_mut().zip(&old) {
                *c ^= f.times(gap, o);
            }
            if 2 * size <= step + marked {
                size = step + 1 + marked - size;
                old = kept.iter().map(|&c| f.over(c, gap)).collect();
            }
        }
        let degree = now.iter().rposition(|&c| c != 0)?;
        now.truncate(degree + 1);
        (degree == size && size <= self.r).then_some(now)
    }

    /// The places of the word whose locators' inverses are roots: as many as the degree, or the word is refused.
    fn places(&self, errata: &[u8]) -> Option<Vec<usize>> {
        let is_root = |&i: &usize| self.field.value(errata, self.inverse_locator(i)) == 0;
        let places: Vec<usize> = (0..self.n).filter(is_root).collect();
        (places.len() == errata.len() - 1).then_some(places)
    }

    fn inverse_locator(&self, place: usize) -> u8 {
        self.field.over(1, self.locator(place))
    }

    /// The word with Forney's value taken out at each place: X^(1-b) times the evaluator over the slope, at 1/X.
    fn mended(&self, word: &[u8], sums: &[u8], errata: &[u8], places: &[usize]) -> Option<Vec<u8>> {
        let f = &self.field;
        let mut evaluator = f.product(sums, errata);
        evaluator.truncate(self.r);
        // In characteristic 2 the derivative keeps the odd powers, one lower.
        let odd = |(i, &c): (usize, &u8)| if i % 2 == 1 { c } else { 0 };
        let slope: Vec<u8> = errata.iter().enumerate().map(odd).skip(1).collect();
        let mut mended = word.to_vec();
        for &place in places {
            let z = self.inverse_locator(place);
            let below = f.value(&slope, z);
            if below == 0 {
                return None;
            }
            let value = f.over(f.value(&evaluator, z), below);
            let scale = if self.b == 0 { self.locator(place) } else { 1 };
            mended[place] ^= f.times(value, scale);
        }
        Some(mended)
    }
}

/// The product of X + a^(b+j), highest power first.
fn generator(field: &Field, r: usize, b: usize) -> Vec<u8> {
    let mut product = vec![1];
    for j in 0..r {
        product = field.product(&product, &[field.power(b + j), 1]);
    }
    product.reverse();
    product
}

/// Document 02, No. 6: 1 where what was corrected differs from what was received, else 0.
pub fn changes(received: &[u8], corrected: &[u8]) -> Vec<u8> {
    received.iter().zip(corrected).map(|(x, y)| (x != y) as u8).collect()
}

/// What the paper counts between a received and a corrected word.
pub fn figures(received: &[u8], corrected: &[u8], marks: &[u8]) -> Figures {
    let mut out = Figures::default();
    for i in 0..received.len() {
        let change = received[i] ^ corrected[i];
        out.bits += change.count_ones() as usize;
        out.marked += (marks[i] == 1) as usize;
        out.errors += (marks[i] == 0 && change != 0) as usize;
    }
    out
}
