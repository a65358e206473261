//! The word code's calls with the paper's checks: 1, 2, 3, then 4.

use crate::code::{changes, Code, Figures};

/// m, n, r and b.
#[derive(Clone, Copy, Debug, PartialEq, Eq)]
pub struct Setting {
    pub m: usize,
    pub n: usize,
    pub r: usize,
    pub b: usize,
}

impl Setting {
    /// The code of this setting, or refusal 1.
    pub fn code(self) -> Result<Code, u8> {
        Code::new(self.m, self.n, self.r, self.b).ok_or(1)
    }
}

/// Writes the codeword of the message into the word.
pub fn encode(setting: Setting, message: &[u8], word: &mut [u8]) -> Result<(), u8> {
    let code = setting.code()?;
    if message.len() != code.n - code.r || word.len() != code.n {
        return Err(2);
    }
    if message.iter().any(|&x| x as usize > code.field.order) {
        return Err(3);
    }
    code.encode(message, word);
    Ok(())
}

/// Corrects the received word where it stands, and maps where it was changed.
pub fn decode(setting: Setting, word: &mut [u8], marks: &[u8], map: &mut [u8]) -> Result<Figures, u8> {
    let code = setting.code()?;
    if word.len() != code.n || marks.len() != code.n || map.len() != code.n {
        return Err(2);
    }
    if word.iter().any(|&x| x as usize > code.field.order) || marks.iter().any(|&mark| mark > 1) {
        return Err(3);
    }
    let received = word.to_vec();
    let figures = code.decode(word, marks);
    // A word beyond reach stays as received, so that nothing is changed in it.
    map.copy_from_slice(&changes(&received, word));
    figures.ok_or(4)
}

/// The same with the received word only read; the message symbols of the corrected word go to the part.
pub fn decode_part(
    setting: Setting,
    received: &[u8],
    marks: &[u8],
    part: &mut [u8],
    map: &mut [u8],
) -> Result<Figures, u8> {
    let code = setting.code()?;
    if part.len() != code.n - code.r {
        return Err(2);
    }
    let mut word = received.to_vec();
    let figures = decode(setting, &mut word, marks, map)?;
    part.copy_from_slice(&word[..part.len()]);
    Ok(figures)
}

/// Document 02, No. 9: whether the word is a codeword as received. Refused 1, 2, 3.
pub fn is_clean(setting: Setting, word: &[u8]) -> Result<bool, u8> {
    let code = setting.code()?;
    if word.len() != code.n {
        return Err(2);
    }
    if word.iter().any(|&x| x as usize > code.field.order) {
        return Err(3);
    }
    Ok(code.is_zero_at_roots(word))
}
