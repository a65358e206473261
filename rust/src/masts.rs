//! Two masts: two receivers hear one frame, each with its own damage, and one payload comes of it.
//!
//! ```
//! use yaxopetzo::frame::Setting;
//! use yaxopetzo::masts::{Heard, Mast};
//! use yaxopetzo::record::Record;
//!
//! let setting = Setting { depth: 2, n: 12, r: 4, b: 0 };
//! let mut sent = [0; 24];
//! setting.send(b"tug 7 fast", 41, &mut sent)?;
//! let (mut east, mut west) = (sent, sent);
//! east[8..20].fill(0xff); // A crane swings before the east mast: six slots of each word.
//! west[3] = 0xff;
//! let (mut east_area, mut west_area) = ([0; 16], [0; 16]);
//! let (mut east_map, mut west_map) = ([0; 24], [0; 24]);
//! let first = Heard { slots: &east, marks: &[0; 24], area: &mut east_area, map: &mut east_map };
//! let second = Heard { slots: &west, marks: &[0; 24], area: &mut west_area, map: &mut west_map };
//! let mut record = Record::fresh();
//! let chosen = setting.hear_masts(&mut record, first, second)?;
//! assert_eq!((chosen.mast, chosen.frame.payload), (Mast::Second, &b"tug 7 fast"[..]));
//! assert_eq!((record.newer, record.refused), (1, 0));
//! # Ok::<(), Box<dyn std::error::Error>>(())
//! ```

use crate::ffi;
use crate::frame::{Frame, Refused, Setting};
use crate::record::Record;

/// What one mast heard, and the area of A bytes and the map that are lent for its copy of the frame.
#[derive(Debug)]
pub struct Heard<'a> {
    /// The slots as received.
    pub slots: &'a [u8],
    /// A mark for each slot: 1 where the receiver distrusts it, else 0.
    pub marks: &'a [u8],
    /// Where the copy is decoded to.
    pub area: &'a mut [u8],
    /// A byte for each slot, which becomes 1 where this copy's slot was changed and 0 elsewhere.
    pub map: &'a mut [u8],
}

/// One of the two masts.
#[derive(Clone, Copy, Debug, PartialEq, Eq, Hash)]
pub enum Mast {
    /// The one that was named first.
    First,
    /// The other one.
    Second,
}

/// The copy that is used.
#[derive(Clone, Copy, Debug, PartialEq, Eq)]
pub struct Chosen<'a> {
    /// The mast that heard it.
    pub mast: Mast,
    /// Its frame. The payload is a part of that mast's area.
    pub frame: Frame<'a>,
}

impl Setting {
    /// Decodes both copies as [`receive`](Setting::receive) does, and hands back the better one.
    ///
    /// If both are accepted, that is the one whose 2e + f, summed over its words, is smaller, and the first where the
    /// sums are equal. If one is refused, by any number, it is the other.
    ///
    /// Refused as the first copy is where both are, or 8 where both are accepted with different sequence numbers. Each
    /// area and each map is left as `receive` leaves it, whatever becomes of the other copy: under 8 both are there.
    pub fn receive_masts<'a>(self, mut first: Heard<'a>, mut second: Heard<'a>) -> Result<Chosen<'a>, Refused> {
        let chosen = ffi::masts_receive(self.framing(), &mut first, &mut second);
        self.chosen(chosen, first.area, second.area)
    }

    /// The whole call for two receivers with one record: [`receive_masts`](Setting::receive_masts), and its answer noted.
    ///
    /// It is noted once: a copy that is refused beside an accepted one is not counted. 8 leaves the record as it was.
    pub fn hear_masts<'a>(
        self,
        record: &mut Record,
        mut first: Heard<'a>,
        mut second: Heard<'a>,
    ) -> Result<Chosen<'a>, Refused> {
        let chosen = record.lend(|lent| ffi::masts_hear_in(lent, self.framing(), &mut first, &mut second));
        self.chosen(chosen, first.area, second.area)
    }

    /// What the library answered, with the payload taken from the area of the mast that is used.
    fn chosen<'a>(self, chosen: ffi::Chosen, first: &'a [u8], second: &'a [u8]) -> Result<Chosen<'a>, Refused> {
        // Neither mast is used only under a refusal, which has no payload: either area will do.
        let (mast, area) = match chosen.mast {
            2 => (Mast::Second, second),
            _ => (Mast::First, first),
        };
        self.frame(chosen.frame, area).map(|frame| Chosen { mast, frame })
    }
}
