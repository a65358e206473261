//! Phil Karn's libfec, as Debian has it.

use std::ffi::{c_int, c_void};

use yaxopetzo::word::Setting;

use crate::codecs::Codec;

#[link(name = "fec")]
extern "C" {
    fn init_rs_char(
        symbol: c_int,
        polynomial: c_int,
        first: c_int,
        step: c_int,
        roots: c_int,
        pad: c_int,
    ) -> *mut c_void;
    fn encode_rs_char(codec: *mut c_void, data: *mut u8, parity: *mut u8);
    fn decode_rs_char(codec: *mut c_void, data: *mut u8, erasures: *mut c_int, count: c_int) -> c_int;
    fn free_rs_char(codec: *mut c_void);
}

pub struct Fec {
    codec: *mut c_void,
    r: usize,
}

impl Fec {
    /// libfec's codec of a setting with m = 8; none where it refuses to make one.
    pub fn new(s: Setting) -> Option<Fec> {
        let pad = 255usize.checked_sub(s.n)?;
        // Sound: numbers alone cross.
        let codec = unsafe { init_rs_char(8, 0x11d, s.b as c_int, 1, s.r as c_int, pad as c_int) };
        (!codec.is_null()).then_some(Fec { codec, r: s.r })
    }
}

impl Drop for Fec {
    fn drop(&mut self) {
        // Sound: the codec is of `init_rs_char`, and this is its last use.
        unsafe { free_rs_char(self.codec) }
    }
}

impl Codec for Fec {
    fn name(&self) -> &'static str {
        "libfec"
    }

    fn encode(&mut self, message: &[u8], word: &mut [u8]) {
        let (start, checks) = word.split_at_mut(message.len());
        start.copy_from_slice(message);
        // Sound: the two parts have the lengths of the codec's setting, k and r.
        unsafe { encode_rs_char(self.codec, start.as_mut_ptr(), checks.as_mut_ptr()) }
    }

    fn decode(&mut self, word: &mut [u8], _: &[u8], marked: &[usize]) -> bool {
        // libfec does not look whether there are more marks than check symbols, and would write past its locator.
        if marked.len() > self.r {
            return false;
        }
        // It writes the places that it found over the list, so the list is longer than what is passed.
        let mut erasures = [0; 255];
        for (slot, place) in erasures.iter_mut().zip(marked) {
            *slot = *place as c_int;
        }
        let count = marked.len() as c_int;
        // Sound: the word has the length of the codec's setting, and the list is as long as any.
        unsafe { decode_rs_char(self.codec, word.as_mut_ptr(), erasures.as_mut_ptr(), count) >= 0 }
    }
}
