//! Frames: a payload and its sequence number as interleaved words.

use core::fmt;

use crate::answer::{answered, narrow, Figures, Refusal};
use crate::ffi;
use crate::record::Record;

/// What a frame is set to. Every call checks it. Symbols are bytes, m = 8.
///
/// ```
/// use yaxopetzo::frame::Setting;
///
/// let setting = Setting { depth: 4, n: 32, r: 4, b: 0 };
/// let mut slots = [0; 128];
/// setting.send(b"tug 7 fast", 41, &mut slots)?;
/// slots[30..38].fill(0xff); // A run of depth · r / 2 slots is struck.
/// let (mut area, mut map) = ([0; 112], [0; 128]);
/// let frame = setting.receive(&slots, &[0; 128], &mut area, &mut map)?;
/// assert_eq!((frame.sequence, frame.payload), (41, &b"tug 7 fast"[..]));
/// assert!((0..128).all(|slot| map[slot] == (30..38).contains(&slot) as u8)); // The map shows the run.
/// # Ok::<(), Box<dyn std::error::Error>>(())
/// ```
#[derive(Clone, Copy, Debug, PartialEq, Eq, Hash)]
pub struct Setting {
    /// J: 1 to 16 words a frame.
    pub depth: usize,
    /// Bytes a word: r + 1 to 255.
    pub n: usize,
    /// Check bytes a word: 2 to 16.
    pub r: usize,
    /// The power of the element 2 at which the code's zeros start: 0 or 1.
    pub b: usize,
}

/// An accepted frame. Its payload is a part of the area that was lent.
#[derive(Clone, Copy, Debug, PartialEq, Eq)]
pub struct Frame<'a> {
    /// The sequence number.
    pub sequence: u16,
    /// What was sent; it may be empty.
    pub payload: &'a [u8],
    depth: usize,
    figures: [Figures; 16],
}

impl Frame<'_> {
    /// The figures of each of the frame's words, word 0 first.
    pub fn words(&self) -> &[Figures] {
        self.figures.get(..self.depth).unwrap_or(&self.figures)
    }
}

/// Why a frame was refused.
#[derive(Clone, Copy, Debug, PartialEq, Eq, Hash)]
pub struct Refused {
    /// The reason: 1 to 5, or 8 where [two masts](crate::masts) were heard.
    pub why: Refusal,
    /// The first word that is beyond reach where that is the reason, else 0.
    pub word: usize,
}

impl fmt::Display for Refused {
    fn fmt(&self, f: &mut fmt::Formatter) -> fmt::Result {
        match self.why {
            Refusal::BeyondReach => write!(f, "word {}: {}", self.word, self.why),
            _ => self.why.fmt(f),
        }
    }
}

#[cfg(feature = "std")]
impl std::error::Error for Refused {}

impl Setting {
    /// The slots of a frame, and so its marks and its map.
    pub const fn slots(self) -> usize {
        self.depth.saturating_mul(self.n)
    }

    /// A, the bytes of the message area; the payload may have four less.
    pub const fn area(self) -> usize {
        self.depth.saturating_mul(self.n.saturating_sub(self.r))
    }

    pub(crate) fn framing(self) -> ffi::Framing {
        ffi::Framing { depth: narrow(self.depth), n: narrow(self.n), r: narrow(self.r), b: narrow(self.b) }
    }

    /// Whether the limits are kept; every other call answers [`Refusal::Setting`] where they are not.
    pub fn is_allowed(self) -> bool {
        ffi::frame_is_allowed(self.framing())
    }

    /// Writes the slots of a payload of at most A − 4 bytes and its sequence number.
    ///
    /// Refused 1, 2 for the slots' length, or 6 for a payload that is too long; the slots then stay as they were.
    pub fn send(self, payload: &[u8], sequence: u16, slots: &mut [u8]) -> Result<(), Refusal> {
        answered(ffi::frame_send(self.framing(), payload, sequence, slots), ())
    }

    /// Decodes a frame into the lent area of A bytes and hands back the payload as a part of it.
    ///
    /// Slots and marks are only read. `map` has a byte for each slot, and becomes 1 at each slot that was changed and 0
    /// elsewhere. Refused 1, 2 and 3, area and map stay; refused 4 and 5, both are zeros, also where other words of the
    /// frame were corrected.
    pub fn receive<'a>(
        self,
        slots: &[u8],
        marks: &[u8],
        area: &'a mut [u8],
        map: &mut [u8],
    ) -> Result<Frame<'a>, Refused> {
        let received = ffi::frame_receive(self.framing(), slots, marks, area, map);
        self.frame(received, area)
    }

    /// The number of the first word that is no codeword as received, and none where every word is one: the frame is clean.
    ///
    /// Slots are only read. There are no marks here, and the trailer is not looked at: with every mark 0,
    /// [`receive`](Setting::receive) accepts a clean frame with nothing changed, or refuses it 5, and never 4. Refused 1, or
    /// 2 for the slots' length.
    ///
    /// ```
    /// use yaxopetzo::frame::Setting;
    ///
    /// let setting = Setting { depth: 4, n: 32, r: 4, b: 0 };
    /// let mut slots = [0; 128];
    /// setting.send(b"tug 7 fast", 41, &mut slots)?;
    /// assert_eq!(setting.first_unclean(&slots), Ok(None));
    /// slots[30..32].fill(0xff); // Words 2 and 3 are struck.
    /// assert_eq!(setting.first_unclean(&slots), Ok(Some(2)));
    /// # Ok::<(), yaxopetzo::Refusal>(())
    /// ```
    pub fn first_unclean(self, slots: &[u8]) -> Result<Option<usize>, Refusal> {
        let found = ffi::frame_is_clean(self.framing(), slots);
        answered(found.answer, (found.clean == 0).then_some(usize::from(found.word)))
    }

    /// The receiver's whole call: [`receive`](Setting::receive), and its answer noted in the record.
    pub fn hear<'a>(
        self,
        record: &mut Record,
        slots: &[u8],
        marks: &[u8],
        area: &'a mut [u8],
        map: &mut [u8],
    ) -> Result<Frame<'a>, Refused> {
        let received = record.lend(|lent| ffi::hear_in(lent, self.framing(), slots, marks, area, map));
        self.frame(received, area)
    }

    /// What the library answered, with the payload taken from the area.
    pub(crate) fn frame(self, received: ffi::Received, area: &[u8]) -> Result<Frame<'_>, Refused> {
        let end = received.start.saturating_add(received.length);
        let frame = Frame {
            sequence: received.sequence,
            payload: area.get(received.start..end).unwrap_or_default(),
            depth: self.depth,
            figures: received.figures.map(Figures::from),
        };
        let word = usize::from(received.word);
        answered(received.answer, frame).map_err(|why| Refused { why, word })
    }
}
