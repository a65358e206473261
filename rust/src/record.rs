//! The receiver's record: what is new, repeated, late, old or lost.
//!
//! ```
//! use yaxopetzo::record::{Record, Standing};
//!
//! let mut record = Record::fresh();
//! record.note(0, 41);
//! record.note(0, 44); // Frames 42 and 43 are still under way.
//! assert_eq!(record.standing(43), Standing::Late);
//! record.note(0, 43);
//! assert_eq!(record.standing(43), Standing::Repeat);
//! assert_eq!((record.newer, record.late, record.last), (2, 1, 44));
//! assert_eq!(record.unseen(), 30);
//! ```

use crate::ffi;

/// What a receiver has heard. Lend it to every call of [`hear`](crate::frame::Setting::hear), of
/// [`replay`](crate::frame::Setting::replay) or, for two receivers with one record,
/// [`hear_masts`](crate::frame::Setting::hear_masts).
///
/// A count at 4294967295 stays there.
#[derive(Clone, Copy, Debug, Default, PartialEq, Eq, Hash)]
pub struct Record {
    /// Whether a frame was ever accepted.
    pub accepted: bool,
    /// The newest sequence number.
    pub last: u16,
    /// Accepted frames that were newer than all before.
    pub newer: u32,
    /// Accepted frames that repeated the newest number, or one of the 32 below it that is in the memory.
    pub repeat: u32,
    /// Accepted frames that were farther back than 32, which are not remembered.
    pub older: u32,
    /// Frames that were refused 4 or 5.
    pub refused: u32,
    /// Accepted frames that were the first copy of one of the 32 numbers below the newest.
    pub late: u32,
    /// The memory of the 32 numbers below the newest: the bit of weight 2^(d - 1) is 1 where the number `last` - d was
    /// accepted, for d from 1 to 32.
    pub seen: u32,
}

/// How a sequence number stands to the newest one and to the memory. Numbers go round at 65536.
#[derive(Clone, Copy, Debug, PartialEq, Eq, Hash)]
pub enum Standing {
    /// Ahead by 1 to 32767, or the first accepted frame.
    Newer,
    /// The same number, or behind by 1 to 32 and seen.
    Repeat,
    /// Behind by 33 to 32768.
    Older,
    /// Behind by 1 to 32 and not seen.
    Late,
}

impl Record {
    /// A record that has accepted nothing; all its numbers are 0.
    pub fn fresh() -> Record {
        Record::from(ffi::record_fresh())
    }

    /// How an accepted frame with this number would stand. Ask before it is noted.
    pub fn standing(&self, sequence: u16) -> Standing {
        match ffi::record_standing(self.accepted.into(), self.last, self.seen, sequence) {
            0 => Standing::Newer,
            1 => Standing::Repeat,
            2 => Standing::Older,
            _ => Standing::Late,
        }
    }

    /// How many of the 32 numbers below the newest were not accepted: the zeros of the memory.
    pub fn unseen(&self) -> u32 {
        ffi::record_unseen(self.seen)
    }

    /// Notes what a frame was answered: 0 counts it as newer, repeat, older or late, 4 and 5 as refused, others not at all.
    ///
    /// Only newer moves the newest number, and the memory slides with it. The first accepted frame leaves all 32 unseen, and
    /// late becomes seen.
    ///
    /// [`hear`](crate::frame::Setting::hear), [`replay`](crate::frame::Setting::replay) and
    /// [`hear_masts`](crate::frame::Setting::hear_masts) do it themselves.
    pub fn note(&mut self, answer: u8, sequence: u16) {
        self.lend(|lent| ffi::record_note_in(lent, answer, sequence));
    }

    /// Lends the record in the library's form, in which `accepted` is a byte, and takes it back.
    pub(crate) fn lend<T>(&mut self, call: impl FnOnce(&mut ffi::Record) -> T) -> T {
        let mut lent = ffi::Record {
            accepted: self.accepted.into(),
            last: self.last,
            newer: self.newer,
            repeat: self.repeat,
            older: self.older,
            refused: self.refused,
            late: self.late,
            seen: self.seen,
        };
        let answer = call(&mut lent);
        *self = Record::from(lent);
        answer
    }
}

impl From<ffi::Record> for Record {
    fn from(r: ffi::Record) -> Record {
        Record {
            accepted: r.accepted != 0,
            last: r.last,
            newer: r.newer,
            repeat: r.repeat,
            older: r.older,
            refused: r.refused,
            late: r.late,
            seen: r.seen,
        }
    }
}
