//! The library's C face, `include/yaxopetzo.h`, and the only unsafe code of this crate.
//!
//! Each call below is sound for one reason. The library is proved to read and write nothing but the buffers that it is
//! lent, and it asks nothing of its caller but what slices give: a pointer to as many bytes, or numbers of 16 bits, as the
//! length says, and for a buffer that is written, no overlap with another one of the call, which `&mut` rules out. An empty
//! slice's pointer is never read. What crosses by value has the header's layout by `#[repr(C)]`; any bits of it are a valid
//! value, but for the `bool` that two calls give, which is C's.
#![deny(unsafe_op_in_unsafe_fn)]

mod header;

use crate::masts::Heard;
use crate::replay::Place;

pub use header::{
    Chosen, Code, CrossReceived, Decoded, Figures, FrameClean, Framing, Line, LineReceived, LineSent, Ready, Received,
    Record, Replayed, WordClean,
};

pub fn word_is_allowed(code: Code) -> bool {
    // Sound: numbers alone cross.
    unsafe { header::yaxo_word_is_allowed(code) }
}

pub fn word_encode(code: Code, message: &[u8], word: &mut [u8]) -> u8 {
    // Sound: two slices, of which the written one overlaps nothing.
    unsafe { header::yaxo_word_encode(code, message.as_ptr(), message.len(), word.as_mut_ptr(), word.len()) }
}

pub fn word_decode(code: Code, word: &mut [u8], marks: &[u8], map: &mut [u8]) -> Decoded {
    let (symbols, n) = (word.as_mut_ptr(), word.len());
    let (trust, trust_n) = (marks.as_ptr(), marks.len());
    // Sound: three slices; the two that are written overlap nothing.
    unsafe { header::yaxo_word_decode(code, symbols, n, trust, trust_n, map.as_mut_ptr(), map.len()) }
}

pub fn word_decode_part(code: Code, received: &[u8], marks: &[u8], part: &mut [u8], map: &mut [u8]) -> Decoded {
    let (word, n) = (received.as_ptr(), received.len());
    let (trust, trust_n) = (marks.as_ptr(), marks.len());
    let (out, k) = (part.as_mut_ptr(), part.len());
    // Sound: four slices, of which the two written ones overlap nothing; the two that are read may be one.
    unsafe { header::yaxo_word_decode_part(code, word, n, trust, trust_n, out, k, map.as_mut_ptr(), map.len()) }
}

pub fn word_is_clean(code: Code, word: &[u8]) -> WordClean {
    // Sound: one slice, which is only read.
    unsafe { header::yaxo_word_is_clean(code, word.as_ptr(), word.len()) }
}

pub fn block_spread(depth: usize, n: usize, words: &[u8], slots: &mut [u8]) -> u8 {
    // Sound: two slices, of which the written one overlaps nothing.
    unsafe { header::yaxo_block_spread(depth, n, words.as_ptr(), words.len(), slots.as_mut_ptr(), slots.len()) }
}

pub fn block_gather(depth: usize, n: usize, slots: &[u8], words: &mut [u8]) -> u8 {
    // Sound: two slices, of which the written one overlaps nothing.
    unsafe { header::yaxo_block_gather(depth, n, slots.as_ptr(), slots.len(), words.as_mut_ptr(), words.len()) }
}

pub fn line_fresh_sender(line: Line, memory: &mut [u8]) -> Ready {
    // Sound: one slice.
    unsafe { header::yaxo_line_fresh_sender(line, memory.as_mut_ptr(), memory.len()) }
}

pub fn line_fresh_receiver(line: Line, memory: &mut [u8], held: &mut [u8]) -> Ready {
    // Sound: two slices that do not overlap.
    unsafe { header::yaxo_line_fresh_receiver(line, memory.as_mut_ptr(), memory.len(), held.as_mut_ptr(), held.len()) }
}

pub fn line_send_step(line: Line, position: usize, memory: &mut [u8], byte: u8) -> LineSent {
    // Sound: one slice.
    unsafe { header::yaxo_line_send_step(line, position, memory.as_mut_ptr(), memory.len(), byte) }
}

pub fn line_send_run(line: Line, position: usize, memory: &mut [u8], bytes: &mut [u8]) -> Ready {
    let (rings, size) = (memory.as_mut_ptr(), memory.len());
    // Sound: two slices that do not overlap.
    unsafe { header::yaxo_line_send_run(line, position, rings, size, bytes.as_mut_ptr(), bytes.len()) }
}

pub fn line_receive_step(
    line: Line,
    position: usize,
    memory: &mut [u8],
    held: &mut [u8],
    byte: u8,
    mark: u8,
) -> LineReceived {
    let (rings, size) = (memory.as_mut_ptr(), memory.len());
    // Sound: two slices that do not overlap.
    unsafe { header::yaxo_line_receive_step(line, position, rings, size, held.as_mut_ptr(), held.len(), byte, mark) }
}

pub fn line_receive_run(
    line: Line,
    position: usize,
    memory: &mut [u8],
    held: &mut [u8],
    bytes: &mut [u8],
    marks: &mut [u8],
) -> Ready {
    let (rings, size) = (memory.as_mut_ptr(), memory.len());
    let (ring_marks, held_size) = (held.as_mut_ptr(), held.len());
    let (run, count) = (bytes.as_mut_ptr(), bytes.len());
    let (run_marks, marks_count) = (marks.as_mut_ptr(), marks.len());
    // Sound: four slices that do not overlap.
    unsafe {
        header::yaxo_line_receive_run(
            line,
            position,
            rings,
            size,
            ring_marks,
            held_size,
            run,
            count,
            run_marks,
            marks_count,
        )
    }
}

pub fn frame_is_allowed(framing: Framing) -> bool {
    // Sound: numbers alone cross.
    unsafe { header::yaxo_frame_is_allowed(framing) }
}

pub fn frame_send(framing: Framing, payload: &[u8], sequence: u16, slots: &mut [u8]) -> u8 {
    let (bytes, size) = (payload.as_ptr(), payload.len());
    // Sound: two slices, of which the written one overlaps nothing.
    unsafe { header::yaxo_frame_send(framing, bytes, size, sequence, slots.as_mut_ptr(), slots.len()) }
}

pub fn frame_receive(framing: Framing, slots: &[u8], marks: &[u8], area: &mut [u8], map: &mut [u8]) -> Received {
    let (bytes, size) = (slots.as_ptr(), slots.len());
    let (trust, trust_size) = (marks.as_ptr(), marks.len());
    let (lent, a) = (area.as_mut_ptr(), area.len());
    let (changed, changed_size) = (map.as_mut_ptr(), map.len());
    // Sound: four slices; the two that are written overlap nothing.
    unsafe { header::yaxo_frame_receive(framing, bytes, size, trust, trust_size, lent, a, changed, changed_size) }
}

pub fn frame_is_clean(framing: Framing, slots: &[u8]) -> FrameClean {
    // Sound: one slice, which is only read.
    unsafe { header::yaxo_frame_is_clean(framing, slots.as_ptr(), slots.len()) }
}

pub fn hear_in(
    record: &mut Record,
    framing: Framing,
    slots: &[u8],
    marks: &[u8],
    area: &mut [u8],
    map: &mut [u8],
) -> Received {
    let (bytes, size) = (slots.as_ptr(), slots.len());
    let (trust, trust_size) = (marks.as_ptr(), marks.len());
    let (lent, a) = (area.as_mut_ptr(), area.len());
    let (changed, changed_size) = (map.as_mut_ptr(), map.len());
    // Sound: a record and four slices; what is written of them overlaps nothing.
    unsafe { header::yaxo_hear_in(record, framing, bytes, size, trust, trust_size, lent, a, changed, changed_size) }
}

pub fn record_fresh() -> Record {
    // Sound: it takes nothing.
    unsafe { header::yaxo_record_fresh() }
}

pub fn record_standing(accepted: u8, last: u16, seen: u32, sequence: u16) -> u8 {
    // Sound: numbers alone cross.
    unsafe { header::yaxo_record_standing(accepted, last, seen, sequence) }
}

pub fn record_unseen(seen: u32) -> u32 {
    // Sound: numbers alone cross.
    unsafe { header::yaxo_record_unseen(seen) }
}

pub fn record_note_in(record: &mut Record, answer: u8, sequence: u16) {
    // Sound: one record, lent to this call alone.
    unsafe { header::yaxo_record_note_in(record, answer, sequence) }
}

pub fn replay_in(
    record: &mut Record,
    framing: Framing,
    slots: &[u8],
    marks: &[u8],
    areas: &mut [u8],
    maps: &mut [u8],
    results: &mut [Place],
) -> Replayed {
    let (bytes, size) = (slots.as_ptr(), slots.len());
    let (trust, trust_size) = (marks.as_ptr(), marks.len());
    let (lent, a) = (areas.as_mut_ptr(), areas.len());
    let (changed, map_size) = (maps.as_mut_ptr(), maps.len());
    // A place is 52 numbers and nothing else. No slice has so many places that their numbers could not be counted.
    let (told, numbers) = (results.as_mut_ptr().cast(), results.len().saturating_mul(Place::NUMBERS));
    // Sound: a record and five slices; what is written of them overlaps nothing.
    unsafe {
        header::yaxo_replay_in(
            record, framing, bytes, size, trust, trust_size, lent, a, changed, map_size, told, numbers,
        )
    }
}

pub fn masts_receive(framing: Framing, first: &mut Heard, second: &mut Heard) -> Chosen {
    // Sound: eight slices; the four that are written overlap nothing.
    unsafe {
        header::yaxo_masts_receive(
            framing,
            first.slots.as_ptr(),
            first.slots.len(),
            first.marks.as_ptr(),
            first.marks.len(),
            first.area.as_mut_ptr(),
            first.area.len(),
            first.map.as_mut_ptr(),
            first.map.len(),
            second.slots.as_ptr(),
            second.slots.len(),
            second.marks.as_ptr(),
            second.marks.len(),
            second.area.as_mut_ptr(),
            second.area.len(),
            second.map.as_mut_ptr(),
            second.map.len(),
        )
    }
}

pub fn masts_hear_in(record: &mut Record, framing: Framing, first: &mut Heard, second: &mut Heard) -> Chosen {
    // Sound: a record and eight slices; what is written of them overlaps nothing.
    unsafe {
        header::yaxo_masts_hear_in(
            record,
            framing,
            first.slots.as_ptr(),
            first.slots.len(),
            first.marks.as_ptr(),
            first.marks.len(),
            first.area.as_mut_ptr(),
            first.area.len(),
            first.map.as_mut_ptr(),
            first.map.len(),
            second.slots.as_ptr(),
            second.slots.len(),
            second.marks.as_ptr(),
            second.marks.len(),
            second.area.as_mut_ptr(),
            second.area.len(),
            second.map.as_mut_ptr(),
            second.map.len(),
        )
    }
}

pub fn cross_fresh_sender(memory: &mut [u8]) -> Ready {
    // Sound: one slice.
    unsafe { header::yaxo_cross_fresh_sender(memory.as_mut_ptr(), memory.len()) }
}

pub fn cross_fresh_receiver(memory: &mut [u8], held: &mut [u8]) -> Ready {
    // Sound: two slices that do not overlap.
    unsafe { header::yaxo_cross_fresh_receiver(memory.as_mut_ptr(), memory.len(), held.as_mut_ptr(), held.len()) }
}

pub fn cross_send(position: usize, memory: &mut [u8], message: &[u8], word: &mut [u8]) -> Ready {
    let (rings, size) = (memory.as_mut_ptr(), memory.len());
    let (bytes, k) = (message.as_ptr(), message.len());
    // Sound: three slices; the two that are written overlap nothing.
    unsafe { header::yaxo_cross_send(position, rings, size, bytes, k, word.as_mut_ptr(), word.len()) }
}

pub fn cross_receive(
    position: usize,
    memory: &mut [u8],
    held: &mut [u8],
    word: &[u8],
    message: &mut [u8],
    map: &mut [u8],
) -> CrossReceived {
    let (rings, size) = (memory.as_mut_ptr(), memory.len());
    let (marks, h) = (held.as_mut_ptr(), held.len());
    let (bytes, n) = (word.as_ptr(), word.len());
    let (out, k) = (message.as_mut_ptr(), message.len());
    let (changed, map_n) = (map.as_mut_ptr(), map.len());
    // Sound: five slices; the four that are written overlap nothing.
    unsafe { header::yaxo_cross_receive(position, rings, size, marks, h, bytes, n, out, k, changed, map_n) }
}
