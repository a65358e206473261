//! The word code: n symbols, of which the last r are check symbols.

use crate::answer::{answered, narrow, Figures, Refusal};
use crate::ffi;

/// What a word code is set to. Every call checks it.
///
/// ```
/// use yaxopetzo::word::Setting;
///
/// let (mut word, mut map) = ([0; 204], [0; 204]);
/// Setting::EN_300_421.encode(&[7; 188], &mut word)?;
/// word[20] ^= 0x55;
/// let figures = Setting::EN_300_421.decode(&mut word, &[0; 204], &mut map)?;
/// assert_eq!((figures.errors, figures.bits, word[20]), (1, 4, 7));
/// assert!((0..204).all(|place| map[place] == (place == 20) as u8)); // It was place 20 that was mended.
/// # Ok::<(), yaxopetzo::Refusal>(())
/// ```
#[derive(Clone, Copy, Debug, PartialEq, Eq, Hash)]
pub struct Setting {
    /// Bits a symbol: 3 or 8. A byte of a buffer holds one symbol.
    pub m: usize,
    /// Symbols a word: r + 1 to 2^m − 1.
    pub n: usize,
    /// Check symbols: 2 to 16.
    pub r: usize,
    /// The power of the element 2 at which the code's zeros start: 0 or 1.
    pub b: usize,
}

impl Setting {
    /// ETSI's code for satellite television: 188 message bytes, 16 check bytes.
    pub const EN_300_421: Setting = Setting { m: 8, n: 204, r: 16, b: 0 };

    fn code(self) -> ffi::Code {
        ffi::Code { m: narrow(self.m), n: narrow(self.n), r: narrow(self.r), b: narrow(self.b) }
    }

    /// Whether the limits are kept; every other call answers [`Refusal::Setting`] where they are not.
    pub fn is_allowed(self) -> bool {
        ffi::word_is_allowed(self.code())
    }

    /// Writes the message of n − r symbols and its check symbols into the word of n.
    ///
    /// Refused 1, 2, or 3 for a message symbol of 2^m or more; the word then stays as it was.
    pub fn encode(self, message: &[u8], word: &mut [u8]) -> Result<(), Refusal> {
        answered(ffi::word_encode(self.code(), message, word), ())
    }

    /// Corrects the received word where it stands to the one codeword with 2e + f ≤ r.
    ///
    /// `marks` has n marks, 1 where the receiver distrusts the symbol. `map` has n bytes too, and becomes 1 at each place
    /// that was changed and 0 elsewhere, also where a marked symbol was right. Refused 1, 2, 3, or 4 where no codeword is
    /// near enough; the word then stays as received. The map is zeros under 4, and stays as it was under 1, 2 and 3.
    pub fn decode(self, word: &mut [u8], marks: &[u8], map: &mut [u8]) -> Result<Figures, Refusal> {
        let decoded = ffi::word_decode(self.code(), word, marks, map);
        answered(decoded.answer, decoded.figures.into())
    }

    /// The same with the received word only read: the corrected word's n − r message symbols go to `part`. The map has all
    /// n places, check symbols too.
    ///
    /// Refused as [`decode`](Setting::decode) is, and 2 for the part's length; the part then stays as it was, and the map is
    /// left as `decode` leaves it.
    pub fn decode_part(
        self,
        received: &[u8],
        marks: &[u8],
        part: &mut [u8],
        map: &mut [u8],
    ) -> Result<Figures, Refusal> {
        let decoded = ffi::word_decode_part(self.code(), received, marks, part, map);
        answered(decoded.answer, decoded.figures.into())
    }

    /// Whether the word of n symbols is a codeword as received, which [`decode`](Setting::decode) with every mark 0 would
    /// accept unchanged. There are no marks here, and nothing is corrected.
    ///
    /// Refused 1, 2, or 3 for a symbol of 2^m or more.
    ///
    /// ```
    /// use yaxopetzo::word::Setting;
    ///
    /// let s = Setting { m: 3, n: 7, r: 4, b: 1 }; // Sklar's code, and two wrong symbols.
    /// assert!(s.is_clean(&[7, 3, 2, 5, 6, 4, 1])? && !s.is_clean(&[7, 3, 5, 1, 6, 4, 1])?);
    /// # Ok::<(), yaxopetzo::Refusal>(())
    /// ```
    pub fn is_clean(self, word: &[u8]) -> Result<bool, Refusal> {
        let found = ffi::word_is_clean(self.code(), word);
        answered(found.answer, found.clean == 1)
    }
}
