//! `include/yaxopetzo.h` in Rust: its structs, field by field, and its declarations.
//!
//! Four calls of the header are left out, those that take and give a record by value: the face lends one.
//!
//! A replay's results cross as what they are, numbers of 16 bits: `yaxo_result` is [`Place`](crate::replay::Place).

/// `yaxo_figures`.
#[derive(Clone, Copy, Default)]
#[repr(C)]
pub struct Figures {
    pub errors: u16,
    pub marked: u16,
    pub bits: u16,
}

/// `yaxo_code`.
#[derive(Clone, Copy)]
#[repr(C)]
pub struct Code {
    pub m: u32,
    pub n: u32,
    pub r: u32,
    pub b: u32,
}

/// `yaxo_decoded`.
#[repr(C)]
pub struct Decoded {
    pub answer: u8,
    pub figures: Figures,
}

/// `yaxo_word_clean`.
#[repr(C)]
pub struct WordClean {
    pub answer: u8,
    pub clean: u8,
}

/// `yaxo_line`.
#[derive(Clone, Copy)]
#[repr(C)]
pub struct Line {
    pub branches: u32,
    pub unit: u32,
    pub n: u32,
}

/// `yaxo_ready`.
#[repr(C)]
pub struct Ready {
    pub answer: u8,
    pub position: usize,
}

/// `yaxo_line_sent`.
#[repr(C)]
pub struct LineSent {
    pub answer: u8,
    pub byte: u8,
    pub position: usize,
}

/// `yaxo_line_received`.
#[repr(C)]
pub struct LineReceived {
    pub answer: u8,
    pub byte: u8,
    pub mark: u8,
    pub position: usize,
}

/// `yaxo_framing`.
#[derive(Clone, Copy)]
#[repr(C)]
pub struct Framing {
    pub depth: u32,
    pub n: u32,
    pub r: u32,
    pub b: u32,
}

/// `yaxo_received`.
#[derive(Default)]
#[repr(C)]
pub struct Received {
    pub answer: u8,
    pub word: u8,
    pub sequence: u16,
    pub start: usize,
    pub length: usize,
    pub figures: [Figures; 16],
}

/// `yaxo_frame_clean`.
#[repr(C)]
pub struct FrameClean {
    pub answer: u8,
    pub clean: u8,
    pub word: u8,
}

/// `yaxo_record`.
#[derive(Clone, Copy)]
#[repr(C)]
pub struct Record {
    pub accepted: u8,
    pub last: u16,
    pub newer: u32,
    pub repeat: u32,
    pub older: u32,
    pub refused: u32,
    pub late: u32,
    pub seen: u32,
}

/// `yaxo_replayed`.
#[repr(C)]
pub struct Replayed {
    pub answer: u8,
    pub frames: usize,
}

/// `yaxo_chosen`.
#[repr(C)]
pub struct Chosen {
    pub mast: u8,
    pub frame: Received,
}

/// `yaxo_cross_received`.
#[repr(C)]
pub struct CrossReceived {
    pub answer: u8,
    pub figures: Figures,
    pub position: usize,
}

extern "C" {
    pub fn yaxo_word_is_allowed(code: Code) -> bool;
    pub fn yaxo_word_encode(code: Code, message: *const u8, k: usize, word: *mut u8, n: usize) -> u8;
    pub fn yaxo_word_decode(
        code: Code,
        word: *mut u8,
        n: usize,
        marks: *const u8,
        marks_n: usize,
        map: *mut u8,
        map_n: usize,
    ) -> Decoded;
    pub fn yaxo_word_decode_part(
        code: Code,
        received: *const u8,
        n: usize,
        marks: *const u8,
        marks_n: usize,
        part: *mut u8,
        k: usize,
        map: *mut u8,
        map_n: usize,
    ) -> Decoded;
    pub fn yaxo_word_is_clean(code: Code, word: *const u8, n: usize) -> WordClean;
    pub fn yaxo_block_spread(depth: usize, n: usize, words: *const u8, w: usize, slots: *mut u8, s: usize) -> u8;
    pub fn yaxo_block_gather(depth: usize, n: usize, slots: *const u8, s: usize, words: *mut u8, w: usize) -> u8;
    pub fn yaxo_line_fresh_sender(line: Line, memory: *mut u8, size: usize) -> Ready;
    pub fn yaxo_line_fresh_receiver(line: Line, memory: *mut u8, size: usize, held: *mut u8, h: usize) -> Ready;
    pub fn yaxo_line_send_step(line: Line, position: usize, memory: *mut u8, size: usize, byte: u8) -> LineSent;
    pub fn yaxo_line_send_run(
        line: Line,
        position: usize,
        memory: *mut u8,
        size: usize,
        bytes: *mut u8,
        count: usize,
    ) -> Ready;
    pub fn yaxo_line_receive_step(
        line: Line,
        position: usize,
        memory: *mut u8,
        size: usize,
        held: *mut u8,
        h: usize,
        byte: u8,
        mark: u8,
    ) -> LineReceived;
    pub fn yaxo_line_receive_run(
        line: Line,
        position: usize,
        memory: *mut u8,
        size: usize,
        held: *mut u8,
        h: usize,
        bytes: *mut u8,
        count: usize,
        marks: *mut u8,
        marks_count: usize,
    ) -> Ready;
    pub fn yaxo_frame_is_allowed(framing: Framing) -> bool;
    pub fn yaxo_frame_send(
        framing: Framing,
        payload: *const u8,
        size: usize,
        sequence: u16,
        slots: *mut u8,
        s: usize,
    ) -> u8;
    pub fn yaxo_frame_receive(
        framing: Framing,
        slots: *const u8,
        s: usize,
        marks: *const u8,
        marks_s: usize,
        area: *mut u8,
        a: usize,
        map: *mut u8,
        map_s: usize,
    ) -> Received;
    pub fn yaxo_frame_is_clean(framing: Framing, slots: *const u8, s: usize) -> FrameClean;
    pub fn yaxo_hear_in(
        record: *mut Record,
        framing: Framing,
        slots: *const u8,
        s: usize,
        marks: *const u8,
        marks_s: usize,
        area: *mut u8,
        a: usize,
        map: *mut u8,
        map_s: usize,
    ) -> Received;
    pub fn yaxo_record_fresh() -> Record;
    pub fn yaxo_record_standing(accepted: u8, last: u16, seen: u32, sequence: u16) -> u8;
    pub fn yaxo_record_unseen(seen: u32) -> u32;
    pub fn yaxo_record_note_in(record: *mut Record, answer: u8, sequence: u16);
    pub fn yaxo_replay_in(
        record: *mut Record,
        framing: Framing,
        slots: *const u8,
        s: usize,
        marks: *const u8,
        marks_s: usize,
        areas: *mut u8,
        a: usize,
        maps: *mut u8,
        maps_s: usize,
        results: *mut u16,
        numbers: usize,
    ) -> Replayed;
    pub fn yaxo_masts_receive(
        framing: Framing,
        first_slots: *const u8,
        first_s: usize,
        first_marks: *const u8,
        first_marks_s: usize,
        first_area: *mut u8,
        first_a: usize,
        first_map: *mut u8,
        first_map_s: usize,
        second_slots: *const u8,
        second_s: usize,
        second_marks: *const u8,
        second_marks_s: usize,
        second_area: *mut u8,
        second_a: usize,
        second_map: *mut u8,
        second_map_s: usize,
    ) -> Chosen;
    pub fn yaxo_masts_hear_in(
        record: *mut Record,
        framing: Framing,
        first_slots: *const u8,
        first_s: usize,
        first_marks: *const u8,
        first_marks_s: usize,
        first_area: *mut u8,
        first_a: usize,
        first_map: *mut u8,
        first_map_s: usize,
        second_slots: *const u8,
        second_s: usize,
        second_marks: *const u8,
        second_marks_s: usize,
        second_area: *mut u8,
        second_a: usize,
        second_map: *mut u8,
        second_map_s: usize,
    ) -> Chosen;
    pub fn yaxo_cross_fresh_sender(memory: *mut u8, size: usize) -> Ready;
    pub fn yaxo_cross_fresh_receiver(memory: *mut u8, size: usize, held: *mut u8, h: usize) -> Ready;
    pub fn yaxo_cross_send(
        position: usize,
        memory: *mut u8,
        size: usize,
        message: *const u8,
        k: usize,
        word: *mut u8,
        n: usize,
    ) -> Ready;
    pub fn yaxo_cross_receive(
        position: usize,
        memory: *mut u8,
        size: usize,
        held: *mut u8,
        h: usize,
        word: *const u8,
        n: usize,
        message: *mut u8,
        k: usize,
        map: *mut u8,
        map_n: usize,
    ) -> CrossReceived;
}
