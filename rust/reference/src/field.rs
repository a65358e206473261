//! The fields of 8 and 256 elements by tables of powers and logarithms.

/// The field of 2^m elements.
#[derive(Clone)]
pub struct Field {
    /// One less than the number of elements: the powers of a come again after so many.
    pub order: usize,
    exp: Vec<u8>,
    log: Vec<u16>,
}

impl Field {
    /// The field for m = 3 or 8, and none for another m. Its tables are made from the polynomial.
    pub fn new(m: usize) -> Option<Field> {
        let polynomial = match m {
            3 => 11,
            8 => 285,
            _ => return None,
        };
        let order = (1 << m) - 1;
        // The powers stand twice, so that a sum of two logarithms needs no remainder.
        let mut exp = vec![0; 2 * order];
        let mut log = vec![0; order + 1];
        let mut x: usize = 1;
        for i in 0..order {
            exp[i] = x as u8;
            exp[i + order] = x as u8;
            log[x] = i as u16;
            x <<= 1;
            if x > order {
                x ^= polynomial;
            }
        }
        Some(Field { order, exp, log })
    }

    /// a^i for any i.
    pub fn power(&self, i: usize) -> u8 {
        self.exp[i % self.order]
    }

    /// a^i for an i below twice the order: a sum of two exponents needs no remainder.
    pub fn power_of_sum(&self, i: usize) -> u8 {
        self.exp[i]
    }

    /// The exponent of a nonzero element.
    pub fn exponent(&self, x: u8) -> usize {
        self.log[x as usize] as usize
    }

    /// The product of two elements.
    pub fn times(&self, x: u8, y: u8) -> u8 {
        if x == 0 || y == 0 {
            return 0;
        }
        self.exp[self.exponent(x) + self.exponent(y)]
    }

    /// x divided by a nonzero y.
    pub fn over(&self, x: u8, y: u8) -> u8 {
        if x == 0 {
            return 0;
        }
        self.exp[self.exponent(x) + self.order - self.exponent(y)]
    }

    /// The value at x of a polynomial whose lowest power stands first.
    pub fn value(&self, polynomial: &[u8], x: u8) -> u8 {
        let step = |sum, &c| self.times(sum, x) ^ c;
        polynomial.iter().rev().fold(0, step)
    }

    /// The product of two polynomials, lowest power first.
    pub fn product(&self, p: &[u8], q: &[u8]) -> Vec<u8> {
        let mut out = vec![0; p.len() + q.len() - 1];
        for (i, &x) in p.iter().enumerate() {
            for (j, &y) in q.iter().enumerate() {
                out[i + j] ^= self.times(x, y);
            }
        }
        out
    }
}
