//! What a call answers.

use core::fmt;

use crate::ffi;

/// Why a call refused. The numbers are those of documents 01 and 02; 0 is no refusal.
///
/// Under 1, 2, 3 and 6 every lent buffer stays as it was, but for the second area and map of [two masts](crate::masts),
/// which are left as their own copy's answer says. What 4, 5, 7 and 8 leave is said at each call. What a frame of a
/// [replay](crate::replay) is answered speaks of its own area and map, and its result is written under every answer.
#[derive(Clone, Copy, Debug, PartialEq, Eq, Hash)]
#[repr(u8)]
pub enum Refusal {
    /// A limit of the setting is broken, no number of steps reaches the position, or a replay has more than 64 frames.
    Setting = 1,
    /// A buffer has not the length that the setting asks for.
    Length = 2,
    /// A symbol is 2^m or more, or a mark is above 1.
    Symbol = 3,
    /// No codeword has 2e + f ≤ r.
    BeyondReach = 4,
    /// The trailer points outside the message area, or a byte before the payload is not zero.
    Trailer = 5,
    /// The payload to be sent is longer than the message area less its trailer.
    Payload = 6,
    /// The cross line's first 108 frames: the first message is still under way.
    NotYet = 7,
    /// Both copies of two masts are accepted, and their sequence numbers differ.
    Differ = 8,
}

impl Refusal {
    /// The documents' number.
    pub const fn number(self) -> u8 {
        self as u8
    }

    /// The refusal of a number that is not 0. The library is proved to answer 0 to 8, so the last arm is 8.
    const fn of(number: u8) -> Refusal {
        match number {
            1 => Refusal::Setting,
            2 => Refusal::Length,
            3 => Refusal::Symbol,
            4 => Refusal::BeyondReach,
            5 => Refusal::Trailer,
            6 => Refusal::Payload,
            7 => Refusal::NotYet,
            _ => Refusal::Differ,
        }
    }
}

impl fmt::Display for Refusal {
    fn fmt(&self, f: &mut fmt::Formatter) -> fmt::Result {
        f.write_str(match self {
            Refusal::Setting => "the setting breaks a limit",
            Refusal::Length => "a buffer has another length than the setting asks for",
            Refusal::Symbol => "a symbol or a mark is out of range",
            Refusal::BeyondReach => "no codeword is near enough",
            Refusal::Trailer => "the trailer does not fit the frame",
            Refusal::Payload => "the payload is longer than the frame has room for",
            Refusal::NotYet => "the first message is still under way",
            Refusal::Differ => "the two copies have different sequence numbers",
        })
    }
}

#[cfg(feature = "std")]
impl std::error::Error for Refusal {}

/// What an accepted word was found to have.
#[derive(Clone, Copy, Debug, Default, PartialEq, Eq, Hash)]
pub struct Figures {
    /// e: unmarked symbols that were wrong.
    pub errors: u16,
    /// f: marks, whether the symbol was wrong or not.
    pub marked: u16,
    /// Bits that were changed, in marked symbols too.
    pub bits: u16,
}

impl From<ffi::Figures> for Figures {
    fn from(found: ffi::Figures) -> Figures {
        Figures { errors: found.errors, marked: found.marked, bits: found.bits }
    }
}

/// A value that stands only under the answer 0.
pub(crate) fn answered<T>(number: u8, value: T) -> Result<T, Refusal> {
    match number {
        0 => Ok(value),
        _ => Err(Refusal::of(number)),
    }
}

/// A setting's number for the library. One that has no 32 bits is beyond every limit, and so is the number it becomes.
pub(crate) fn narrow(number: usize) -> u32 {
    u32::try_from(number).unwrap_or(u32::MAX)
}
