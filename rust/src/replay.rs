//! A replay: up to 64 frames of one setting that were kept, heard at once into one record.
//!
//! ```
//! use yaxopetzo::frame::Setting;
//! use yaxopetzo::record::Record;
//! use yaxopetzo::replay::Place;
//! use yaxopetzo::Refusal;
//!
//! let setting = Setting { depth: 2, n: 12, r: 4, b: 0 };
//! let mut slots = [0; 3 * 24];
//! for (sequence, frame) in (41..).zip(slots.chunks_mut(24)) {
//!     setting.send(b"tug 7 fast", sequence, frame)?;
//! }
//! slots[30..44].fill(0xff); // A crane swings while the second frame is on its way.
//! let (mut areas, mut maps, mut results) = ([0; 3 * 16], [0; 3 * 24], [Place::EMPTY; 3]);
//! let mut record = Record::fresh();
//! let replay = setting.replay(&mut record, &slots, &[0; 3 * 24], &mut areas, &mut maps, &mut results)?;
//! for (sequence, frame) in (41..).zip(&replay) {
//!     match frame {
//!         Ok(frame) => assert_eq!((frame.sequence, frame.payload), (sequence, &b"tug 7 fast"[..])),
//!         Err(refused) => assert_eq!((sequence, refused.why), (42, Refusal::BeyondReach)),
//!     }
//! }
//! assert_eq!((record.newer, record.refused, record.last), (2, 1, 43));
//! # Ok::<(), Box<dyn std::error::Error>>(())
//! ```

use crate::answer::{answered, Refusal};
use crate::ffi;
use crate::frame::{Frame, Refused, Setting};
use crate::record::Record;

/// The most frames of a replay.
pub const MOST: usize = 64;

/// The place that is lent for one frame's result. [`Replay`] says what stands in it; what it held before does not matter.
#[derive(Clone, Copy, Debug, PartialEq, Eq, Hash)]
#[repr(transparent)]
pub struct Place {
    /// The answer, the word beyond reach, the sequence number and the payload's length; then e, f and bits of each of 16
    /// words. What a refused frame or a missing word does not have is 0.
    pub numbers: [u16; Place::NUMBERS],
}

impl Place {
    /// The numbers of a place.
    pub const NUMBERS: usize = 52;

    /// A place in which nothing was written yet.
    pub const EMPTY: Place = Place { numbers: [0; Place::NUMBERS] };

    /// The form in which one frame's call says it. The payload ends where the trailer starts, in an area of this size.
    fn received(&self, area: usize) -> ffi::Received {
        let [answer, word, sequence, back, figures @ ..] = self.numbers;
        let length = usize::from(back);
        let mut received = ffi::Received {
            answer: low(answer),
            word: low(word),
            sequence,
            start: area.saturating_sub(TRAILER).saturating_sub(length),
            length,
            ..ffi::Received::default()
        };
        for (found, numbers) in received.figures.iter_mut().zip(figures.chunks_exact(3)) {
            if let &[errors, marked, bits] = numbers {
                *found = ffi::Figures { errors, marked, bits };
            }
        }
        received
    }
}

impl Default for Place {
    fn default() -> Place {
        Place::EMPTY
    }
}

/// The bytes of a trailer.
const TRAILER: usize = 4;

/// A number that the library is proved to keep below 256.
fn low(number: u16) -> u8 {
    u8::try_from(number).unwrap_or(u8::MAX)
}

/// What each frame of a replay was answered. The payloads are parts of the areas that were lent.
#[derive(Clone, Copy, Debug, PartialEq, Eq)]
pub struct Replay<'a> {
    setting: Setting,
    areas: &'a [u8],
    results: &'a [Place],
}

impl<'a> Replay<'a> {
    /// How many frames were heard, refused ones too.
    pub fn len(&self) -> usize {
        self.results.len()
    }

    /// Whether there were none.
    pub fn is_empty(&self) -> bool {
        self.results.is_empty()
    }

    /// What a frame was answered, frame 0 the first; none where there were not so many.
    pub fn get(&self, frame: usize) -> Option<Result<Frame<'a>, Refused>> {
        let place = self.results.get(frame)?;
        let size = self.setting.area();
        let start = frame.saturating_mul(size);
        let area = self.areas.get(start..start.saturating_add(size)).unwrap_or_default();
        Some(self.setting.frame(place.received(size), area))
    }

    /// What the frames were answered, in their order.
    pub fn iter(&self) -> Frames<'a> {
        Frames { replay: *self, next: 0 }
    }
}

impl<'a> IntoIterator for &Replay<'a> {
    type Item = Result<Frame<'a>, Refused>;
    type IntoIter = Frames<'a>;

    fn into_iter(self) -> Frames<'a> {
        self.iter()
    }
}

/// The answers of a [`Replay`] in the frames' order.
#[derive(Clone, Debug)]
pub struct Frames<'a> {
    replay: Replay<'a>,
    next: usize,
}

impl<'a> Iterator for Frames<'a> {
    type Item = Result<Frame<'a>, Refused>;

    fn next(&mut self) -> Option<Result<Frame<'a>, Refused>> {
        let frame = self.replay.get(self.next)?;
        self.next = self.next.saturating_add(1);
        Some(frame)
    }
}

impl Setting {
    /// Hears up to [`MOST`] frames, whose slots, marks, areas, maps and results lie end to end, frame 0 first. `results` has
    /// a place for each frame.
    ///
    /// What each frame is answered, its area and its map, and the record after the last, are those of one
    /// [`hear`](Setting::hear) for each frame in order. A refused frame does not stop the rest.
    ///
    /// All of it is refused 1 for the setting or for more slots than 64 frames have, and 2 for slots that are no whole
    /// number of frames or another buffer that is not as long as these frames ask. Then no frame is read, and areas, maps,
    /// results and record stay. No slots at all are a replay of no frames, for which every buffer is empty.
    pub fn replay<'a>(
        self,
        record: &mut Record,
        slots: &[u8],
        marks: &[u8],
        areas: &'a mut [u8],
        maps: &mut [u8],
        results: &'a mut [Place],
    ) -> Result<Replay<'a>, Refusal> {
        let replayed = record.lend(|lent| ffi::replay_in(lent, self.framing(), slots, marks, areas, maps, results));
        let results = results.get(..replayed.frames).unwrap_or_default();
        answered(replayed.answer, Replay { setting: self, areas, results })
    }
}
