//! The codecs that are measured.

use reference::code::Code;
use yaxopetzo::word::Setting;

/// A codec of one setting. What can be made ready beforehand has been.
pub trait Codec {
    fn name(&self) -> &'static str;
    fn encode(&mut self, message: &[u8], word: &mut [u8]);
    /// Corrects the word where it stands; false where it is refused. The marks come twice, as the library takes them and
    /// as the list of places that libfec takes.
    fn decode(&mut self, word: &mut [u8], marks: &[u8], marked: &[usize]) -> bool;
}

/// The codecs of a setting that are there to be measured: the library, plain Rust and, where it is linked, libfec.
pub fn codecs(s: Setting) -> Option<Vec<Box<dyn Codec>>> {
    let plain = Plain(Code::new(s.m, s.n, s.r, s.b)?);
    #[cfg(feature = "libfec")]
    return Some(vec![Box::new(Proved::new(s)), Box::new(plain), Box::new(crate::libfec::Fec::new(s)?)]);
    #[cfg(not(feature = "libfec"))]
    return Some(vec![Box::new(Proved::new(s)), Box::new(plain)]);
}

/// The library through its Rust face, with all its checks. It also maps what it changed, which the others do not.
struct Proved {
    setting: Setting,
    map: Vec<u8>,
}

impl Proved {
    fn new(setting: Setting) -> Proved {
        Proved { setting, map: vec![0; setting.n] }
    }
}

impl Codec for Proved {
    fn name(&self) -> &'static str {
        "library"
    }

    fn encode(&mut self, message: &[u8], word: &mut [u8]) {
        let _ = self.setting.encode(message, word);
    }

    fn decode(&mut self, word: &mut [u8], marks: &[u8], _: &[usize]) -> bool {
        self.setting.decode(word, marks, &mut self.map).is_ok()
    }
}

/// The reference of the tests.
struct Plain(Code);

impl Codec for Plain {
    fn name(&self) -> &'static str {
        "plain Rust"
    }

    fn encode(&mut self, message: &[u8], word: &mut [u8]) {
        self.0.encode(message, word);
    }

    fn decode(&mut self, word: &mut [u8], marks: &[u8], _: &[usize]) -> bool {
        self.0.decode(word, marks).is_some()
    }
}
