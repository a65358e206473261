/*
 * Yaxopetzo: Reed-Solomon words, interleavers, position frames and the cross line, for C99 and C++.
 *
 * Link with libradio.a, which `tools/archive` writes for x86-64. Every call is proved: it answers one of the numbers
 * below for every input, it reads and writes nothing but the buffers that are lent to it, it keeps nothing between two
 * calls, it takes no memory of its own but the stack, and it ends. Two threads may call at once with buffers of their own.
 *
 * What a caller owes, since no call can test it:
 *   - a pointer with a length of L points to L bytes (an empty buffer's pointer may be NULL), one to a record to a record, and
 *     one to the results of a replay to as many numbers of 16 bits as the call is told;
 *   - what a call writes overlaps nothing else that is lent to the same call.
 *
 * What is not a buffer's content goes by value. A buffer that is not `const` is written only where the call says so.
 */
#ifndef YAXOPETZO_H
#define YAXOPETZO_H

#include <stdbool.h>
#include <stddef.h>
#include <stdint.h>

#ifdef __cplusplus
extern "C" {
#endif

/*
 * The numbers that a call answers, checked in the order 1, 2, 3, 6, 4, 5, 8; on the cross line 7 comes before 4.
 * Under 1, 2, 3 and 6 every lent buffer and record stays as it was, but for the second area and map of two masts, which are
 * left as their own copy's answer says. What 4, 5, 7 and 8 leave stands at each call. A replay answers a number for the whole
 * call, and writes one for each frame into its results, which speaks of this frame's own area and map.
 * Under any answer but 0 the returned figures, sequence number, mast, byte, mark, number of frames and `clean` are 0.
 */
#define YAXO_DONE 0         /* the result is there */
#define YAXO_SETTING 1      /* a limit of the setting is broken, no number of steps reaches the position, or over 64 frames */
#define YAXO_LENGTH 2       /* a buffer has not the length that the setting asks for */
#define YAXO_SYMBOL 3       /* a symbol is 2^m or more, or a mark is above 1 */
#define YAXO_BEYOND_REACH 4 /* no codeword has 2e + f <= r */
#define YAXO_TRAILER 5      /* a frame's trailer points outside its area, or a byte before the payload is not 0 */
#define YAXO_PAYLOAD 6      /* the payload to be sent is longer than the area less its trailer */
#define YAXO_NOT_YET 7      /* the cross line's first 108 frames: its first message is still under way */
#define YAXO_DIFFER 8       /* two masts: both copies are accepted, and their sequence numbers differ */

/* The largest buffers: 255 symbols a word; 16 words a frame, so 4080 slots, and an area of at most 16 * 253 bytes. */
#define YAXO_WORD_MOST 255
#define YAXO_DEPTH_MOST 16
#define YAXO_SLOTS_MOST 4080
#define YAXO_AREA_MOST 4048
#define YAXO_TRAILER_BYTES 4

/*
 * What an accepted word was found to have. Where it was changed stands in the map that every decoding call is lent, as long
 * as what was received: 1 at each place where the corrected word differs from the received one, else 0. A marked symbol that
 * was right has 0. What the map held before is not looked at. A caller who does not want it lends it all the same.
 */
typedef struct yaxo_figures {
    uint16_t errors; /* e: unmarked symbols that were wrong */
    uint16_t marked; /* f: marks, whether the symbol was wrong or not */
    uint16_t bits;   /* bits that were changed, in marked symbols too */
} yaxo_figures;

/* ---- Words ------------------------------------------------------------------------------------------------------- */

/*
 * A word code. EN 300 421 is { 8, 204, 16, 0 }; Sklar's example is { 3, 7, 4, 1 }.
 * A word of n symbols is k = n - r message symbols and then r check symbols. A byte of a buffer holds one symbol.
 */
typedef struct yaxo_code {
    uint32_t m; /* bits a symbol: 3 or 8 */
    uint32_t n; /* symbols a word: r + 1 to 2^m - 1 */
    uint32_t r; /* check symbols: 2 to 16 */
    uint32_t b; /* the power of the element 2 at which the code's zeros start: 0 or 1 */
} yaxo_code;

typedef struct yaxo_decoded {
    uint8_t answer;
    yaxo_figures figures; /* 0 unless the answer is 0 */
} yaxo_decoded;

/* Whether the code keeps the limits above; one that does not is answered 1 by every call. */
bool yaxo_word_is_allowed(yaxo_code code);

/*
 * Encodes. message: k symbols, read. word: n symbols, written: the message and its check symbols.
 * Answers 0; 1 for the code; 2 for either length; 3 for a message symbol of 2^m or more. Refused, the word stays.
 */
uint8_t yaxo_word_encode(yaxo_code code,
                         const uint8_t *message, size_t message_length,
                         uint8_t *word, size_t word_length);

/*
 * Decodes where the word stands, to the one codeword with 2e + f <= r.
 * word: n symbols as received, corrected. marks: n marks, read; 1 where the receiver distrusts the symbol, else 0.
 * map: n bytes, written: 1 at each place that was changed, else 0.
 * Answers 0 with e, f and bits; 1 for the code; 2 for a length; 3 for a symbol of 2^m or more or a mark above 1;
 * 4 where no codeword is near enough. Refused, the word stays as received; the map is zeros under 4, and stays under 1, 2
 * and 3.
 */
yaxo_decoded yaxo_word_decode(yaxo_code code,
                              uint8_t *word, size_t word_length,
                              const uint8_t *marks, size_t marks_length,
                              uint8_t *map, size_t map_length);

/*
 * The same with the received word only read. part: k symbols, written: the message of the corrected word. The map is that of
 * all n places, check symbols too.
 * Answers as yaxo_word_decode does, and 2 also for a part that has not k symbols. Refused, the part stays, under 4 too; the
 * map is left as yaxo_word_decode leaves it.
 */
yaxo_decoded yaxo_word_decode_part(yaxo_code code,
                                   const uint8_t *received, size_t received_length,
                                   const uint8_t *marks, size_t marks_length,
                                   uint8_t *part, size_t part_length,
                                   uint8_t *map, size_t map_length);

typedef struct yaxo_word_clean {
    uint8_t answer;
    uint8_t clean; /* 1 where the word is a codeword, else 0; 0 unless the answer is 0 */
} yaxo_word_clean;

/*
 * Tells whether a word is a codeword as received, so that yaxo_word_decode with every mark 0 would accept it unchanged.
 * word: n symbols, only read. There are no marks here, and no map: nothing is corrected.
 * Answers 0; 1 for the code; 2 for the length; 3 for a symbol of 2^m or more, which a byte can be at m = 3 alone.
 */
yaxo_word_clean yaxo_word_is_clean(yaxo_code code, const uint8_t *word, size_t word_length);

/* ---- Block interleaver ------------------------------------------------------------------------------------------- */

/*
 * Spreads `depth` words of n bytes, which lie end to end, over the slots: byte i of word w goes to slot i * depth + w.
 * depth is 1 to 16, n is 3 to 255, and both buffers have depth * n bytes; the words are read, the slots written.
 * Answers 0; 1 for depth or n; 2 for either length. Refused, the slots stay.
 */
uint8_t yaxo_block_spread(size_t depth, size_t n,
                          const uint8_t *words, size_t words_length,
                          uint8_t *slots, size_t slots_length);

/* The way back: the slots are read, the words written. Answers as yaxo_block_spread does. */
uint8_t yaxo_block_gather(size_t depth, size_t n,
                          const uint8_t *slots, size_t slots_length,
                          uint8_t *words, size_t words_length);

/* ---- Delay line -------------------------------------------------------------------------------------------------- */

/* A delay line's setting. EN 300 421 is { 12, 17, 204 }, with memories of 1122 bytes. */
typedef struct yaxo_line {
    uint32_t branches; /* I: 2 to 16, and it divides n */
    uint32_t unit;     /* M: 1 to 128, and M * I is at least n */
    uint32_t n;        /* bytes a word: 3 to 255 */
} yaxo_line;

/* The bytes of a line's memory: M * I * (I - 1) / 2. A receiver has a second memory as long for its marks. */
#define YAXO_LINE_MEMORY(branches, unit) ((size_t)(unit) * (branches) * ((branches) - 1) / 2)
#define YAXO_LINE_MEMORY_MOST 15360

/*
 * What a call on a line answers, and the position for the next call. The position is the caller's to keep, beside the
 * memory. Under a refusal it is the one that was handed in, so that it may be stored without a test.
 */
typedef struct yaxo_ready {
    uint8_t answer;
    size_t position;
} yaxo_ready;

typedef struct yaxo_line_sent {
    uint8_t answer;
    uint8_t byte; /* what leaves at this step; 0 under a refusal */
    size_t position;
} yaxo_line_sent;

typedef struct yaxo_line_received {
    uint8_t answer;
    uint8_t byte; /* what leaves at this step, and its mark; 0 under a refusal */
    uint8_t mark;
    size_t position;
} yaxo_line_received;

/* Makes a fresh sender: the memory is filled with zeros, and the position is 0. Answers 0; 1 for the setting; 2 for the
 * memory's length. Refused, the memory stays. What it held before is not looked at. */
yaxo_ready yaxo_line_fresh_sender(yaxo_line line, uint8_t *memory, size_t memory_length);

/* Makes a fresh receiver: `memory` is filled with zeros and `held`, its marks, with ones. Answers as above. */
yaxo_ready yaxo_line_fresh_receiver(yaxo_line line,
                                    uint8_t *memory, size_t memory_length,
                                    uint8_t *held, size_t held_length);

/*
 * One step of a sender: a byte goes in, and the byte that is due comes out (0 for the line's first ones).
 * Answers 0; 1 for the setting or a position that no number of steps reaches; 2 for the memory's length. Refused, the
 * memory stays.
 */
yaxo_line_sent yaxo_line_send_step(yaxo_line line, size_t position,
                                   uint8_t *memory, size_t memory_length,
                                   uint8_t byte);

/* A step for each of the bytes, in order: what leaves at a step takes the place of what went in. Any number of bytes,
 * also none. Answers as a step does, and a refusal leaves memory and bytes as they were. */
yaxo_ready yaxo_line_send_run(yaxo_line line, size_t position,
                              uint8_t *memory, size_t memory_length,
                              uint8_t *bytes, size_t bytes_length);

/*
 * One step of a receiver: a byte and its mark go in, and those that are due come out (0 marked 1 for the first ones).
 * Answers 0; 1 for the setting or the position; 2 for a memory's length; 3 for a mark above 1, handed in or in `held`.
 * Refused, both memories stay.
 */
yaxo_line_received yaxo_line_receive_step(yaxo_line line, size_t position,
                                          uint8_t *memory, size_t memory_length,
                                          uint8_t *held, size_t held_length,
                                          uint8_t byte, uint8_t mark);

/* A step for each of the bytes with its mark, both in place. Answers as a step does, and 2 also where bytes and marks are
 * not equally many. It is all or nothing: refused, the memories, the bytes and the marks stay as they were. */
yaxo_ready yaxo_line_receive_run(yaxo_line line, size_t position,
                                 uint8_t *memory, size_t memory_length,
                                 uint8_t *held, size_t held_length,
                                 uint8_t *bytes, size_t bytes_length,
                                 uint8_t *marks, size_t marks_length);

/* ---- Frames ------------------------------------------------------------------------------------------------------ */

/*
 * A frame's setting: `depth` words of n bytes with r check bytes each, in n * depth slots. Its message area has
 * A = depth * (n - r) bytes: zeros, the payload, and a trailer of 4 bytes with the payload's length and the sequence
 * number. A is at least 4, depth is 1 to 16, and n, r and b keep the limits of a word code with m = 8.
 */
typedef struct yaxo_framing {
    uint32_t depth;
    uint32_t n;
    uint32_t r;
    uint32_t b;
} yaxo_framing;

/* The slots of a frame, and so its marks and its map; and the bytes of its area. */
#define YAXO_FRAME_SLOTS(depth, n) ((size_t)(n) * (depth))
#define YAXO_FRAME_AREA(depth, n, r) ((size_t)(depth) * ((n) - (r)))

/* What receiving answers. The payload is the part area[start] .. area[start + length - 1] of the lent area itself. */
typedef struct yaxo_received {
    uint8_t answer;
    uint8_t word;             /* the first word beyond reach where the answer is 4, else 0 */
    uint16_t sequence;        /* 0 unless the answer is 0, as are all that follow */
    size_t start;
    size_t length;            /* the payload may be empty: only the answer tells that a frame was accepted */
    yaxo_figures figures[16]; /* of each word; 0 for words that the frame does not have */
} yaxo_received;

/* Whether the setting keeps the limits above; one that does not is answered 1 by every call. */
bool yaxo_frame_is_allowed(yaxo_framing framing);

/*
 * Sends a payload of at most A - 4 bytes with its sequence number. payload: read. slots: n * depth bytes, written.
 * Answers 0; 1 for the setting; 2 for the slots' length; 6 for a payload that is too long. Refused, the slots stay.
 */
uint8_t yaxo_frame_send(yaxo_framing framing,
                        const uint8_t *payload, size_t payload_length,
                        uint16_t sequence,
                        uint8_t *slots, size_t slots_length);

/*
 * Receives a frame. slots: n * depth bytes, and marks: a mark (0 or 1) for each; both only read. area: A bytes, written.
 * map: n * depth bytes, written: 1 at each slot that was changed, else 0, in the order of the slots.
 * Answers 0, and the area holds the frame's area; 1 for the setting; 2 for a length; 3 for a mark above 1, and area and map
 * stay; 4 where a word is beyond reach, with its number, and 5 for the trailer, and area and map are zeros, also where other
 * words were corrected.
 */
yaxo_received yaxo_frame_receive(yaxo_framing framing,
                                 const uint8_t *slots, size_t slots_length,
                                 const uint8_t *marks, size_t marks_length,
                                 uint8_t *area, size_t area_length,
                                 uint8_t *map, size_t map_length);

typedef struct yaxo_frame_clean {
    uint8_t answer;
    uint8_t clean; /* 1 where every word is a codeword, else 0; 0 unless the answer is 0 */
    uint8_t word;  /* the first word that is none, which may be 0; 0 too where the frame is clean or refused */
} yaxo_frame_clean;

/*
 * Tells whether every word of a frame is a codeword as received, and if not, the number of the first that is none.
 * slots: n * depth bytes, only read. There are no marks here, and the trailer is not looked at: yaxo_frame_receive with every
 * mark 0 answers a clean frame 0, with nothing changed, or 5 for its trailer, and never 4.
 * Answers 0; 1 for the setting, also where A is below 4; 2 for the slots' length.
 */
yaxo_frame_clean yaxo_frame_is_clean(yaxo_framing framing, const uint8_t *slots, size_t slots_length);

/* ---- The receiver's record --------------------------------------------------------------------------------------- */

/*
 * What a receiver has heard. Make it with yaxo_record_fresh and lend it to every call that receives.
 * `accepted` is 0 until a frame was accepted. Any other value means that one was, and stays as it is.
 * `seen` is a memory of the 32 numbers just below the newest one: the bit of weight 2^(d - 1) is 1 where the number `last` - d
 * was accepted, for d from 1 to 32. Numbers go round at 65536, so that 65535 is just below 0.
 * A count at 4294967295 stays there.
 */
typedef struct yaxo_record {
    uint8_t accepted;
    uint16_t last;    /* the newest sequence number */
    uint32_t newer;   /* accepted frames that were newer than all before */
    uint32_t repeat;  /* accepted frames that repeated the newest number, or one of the 32 below it that is in the memory */
    uint32_t older;   /* accepted frames that were farther back than 32, which are not remembered */
    uint32_t refused; /* frames that were answered 4 or 5 */
    uint32_t late;    /* accepted frames that were the first copy of one of the 32 numbers below the newest */
    uint32_t seen;    /* which of these 32 were accepted */
} yaxo_record;

/* How a sequence number stands to the newest one and to the memory. The first accepted frame is newer. */
#define YAXO_NEWER 0  /* ahead by 1 to 32767 */
#define YAXO_REPEAT 1 /* the same number, or behind by 1 to 32 and seen */
#define YAXO_OLDER 2  /* behind by 33 to 32768 */
#define YAXO_LATE 3   /* behind by 1 to 32 and not seen */

/* A record that has accepted nothing; all its numbers are 0. */
yaxo_record yaxo_record_fresh(void);

/* The standing of a sequence number, YAXO_NEWER, YAXO_REPEAT, YAXO_OLDER or YAXO_LATE, to a record's `accepted`, `last` and
 * `seen`. Ask it before the frame is noted: afterwards a newer or late frame is its own repeat. */
uint8_t yaxo_record_standing(uint8_t accepted, uint16_t last, uint32_t seen, uint16_t sequence);

/* How many of the 32 numbers below the newest were not accepted: the zeros of a record's `seen`. */
uint32_t yaxo_record_unseen(uint32_t seen);

/*
 * Notes what a frame was answered: 0 counts it as newer, repeat, older or late; 4 and 5 count it as refused; every other
 * number leaves the record as it was. Only newer moves `last`, and the memory slides with it: the newest number before becomes
 * seen, a number that was skipped is unseen, and what is then farther back than 32 is forgotten. The first accepted frame
 * leaves all 32 unseen, whatever `seen` was. Late becomes seen. Nothing else changes the memory.
 * yaxo_record_note gives the record after it, yaxo_record_note_in updates the lent one. The calls that hear, yaxo_hear,
 * yaxo_replay, yaxo_masts_hear and those of the same names with _in, do it themselves.
 */
yaxo_record yaxo_record_note(yaxo_record before, uint8_t answer, uint16_t sequence);
void yaxo_record_note_in(yaxo_record *record, uint8_t answer, uint16_t sequence);

/* The record after a frame, and what the frame was answered. */
typedef struct yaxo_heard {
    yaxo_record next;
    yaxo_received answer;
} yaxo_heard;

/* The receiver's whole call: yaxo_frame_receive, which leaves area and map as it says, and its answer noted in the record.
 * yaxo_hear gives the record after it, yaxo_hear_in updates the lent one. */
yaxo_heard yaxo_hear(yaxo_record before, yaxo_framing framing,
                     const uint8_t *slots, size_t slots_length,
                     const uint8_t *marks, size_t marks_length,
                     uint8_t *area, size_t area_length,
                     uint8_t *map, size_t map_length);
yaxo_received yaxo_hear_in(yaxo_record *record, yaxo_framing framing,
                           const uint8_t *slots, size_t slots_length,
                           const uint8_t *marks, size_t marks_length,
                           uint8_t *area, size_t area_length,
                           uint8_t *map, size_t map_length);

/* ---- Replay ------------------------------------------------------------------------------------------------------ */

/*
 * Frames of one setting that were kept, heard at once. Their slots, marks, areas, maps and results lie end to end, frame 0
 * first: for N frames there are N * n * depth slots, as many marks and bytes of maps, areas of N * A bytes, and N results. N is
 * 0 to 64, so that slots, marks and maps have at most 64 * 4080 bytes each, the areas 64 * 4048, and the results 64 * 104.
 */
#define YAXO_REPLAY_MOST 64

/*
 * What one frame of a replay was answered: 52 numbers of 16 bits, with no gap between them. The payload of frame i ends
 * YAXO_TRAILER_BYTES before the end of this frame's own area, so that it starts at areas + (i + 1) * A - 4 - results[i].back.
 */
typedef struct yaxo_result {
    uint16_t answer;          /* 0, 3, 4 or 5 */
    uint16_t word;            /* the first word beyond reach where the answer is 4, else 0 */
    uint16_t sequence;        /* 0 unless the answer is 0, as are all that follow */
    uint16_t back;            /* the payload's length, which may be 0: only the answer tells that a frame was accepted */
    yaxo_figures figures[16]; /* of each word; 0 for words that the frame does not have */
} yaxo_result;

/* The numbers of a result. A call is told how many numbers it is lent for all its results: 52 for each frame. */
#define YAXO_RESULT_NUMBERS 52

/* What the whole call is answered. */
typedef struct yaxo_replayed {
    uint8_t answer; /* 0, 1 or 2 */
    size_t frames;  /* N, how many were heard; 0 unless the answer is 0 */
} yaxo_replayed;

/* The record after a replay, and what the whole call was answered. */
typedef struct yaxo_replay_heard {
    yaxo_record next;
    yaxo_replayed answer;
} yaxo_replay_heard;

/*
 * Hears up to 64 frames into one record: each frame's result, its area and its map, and the record after the last, are those of
 * one yaxo_hear for each frame in order. slots and marks are only read; areas, maps and results are written, frame by frame.
 * What the results held before is not looked at.
 * Answers 0, also for no frames; 1 for the setting or for more slots than 64 frames have; 2 for slots that are no whole number
 * of frames, or for marks, areas, maps or results that are not as long as these frames ask. Both come before any frame is
 * read, and areas, maps, results and record stay. A refused frame does not stop the rest: 3 leaves its own area and map as they
 * were, and 4 and 5 leave zeros there. yaxo_replay gives the record after it, yaxo_replay_in updates the lent one.
 */
yaxo_replay_heard yaxo_replay(yaxo_record before, yaxo_framing framing,
                              const uint8_t *slots, size_t slots_length,
                              const uint8_t *marks, size_t marks_length,
                              uint8_t *areas, size_t areas_length,
                              uint8_t *maps, size_t maps_length,
                              yaxo_result *results, size_t results_numbers);
yaxo_replayed yaxo_replay_in(yaxo_record *record, yaxo_framing framing,
                             const uint8_t *slots, size_t slots_length,
                             const uint8_t *marks, size_t marks_length,
                             uint8_t *areas, size_t areas_length,
                             uint8_t *maps, size_t maps_length,
                             yaxo_result *results, size_t results_numbers);

/* ---- Two masts --------------------------------------------------------------------------------------------------- */

/* Two receivers hear one frame, each with its own damage. Both copies are decoded, and the better one is used. */
#define YAXO_MAST_NEITHER 0
#define YAXO_MAST_FIRST 1
#define YAXO_MAST_SECOND 2

/* The mast whose copy is used, and the answer. The payload is at frame.start in that mast's area. */
typedef struct yaxo_chosen {
    uint8_t mast; /* YAXO_MAST_NEITHER unless frame.answer is 0 */
    yaxo_received frame;
} yaxo_chosen;

/*
 * Receives two copies of one frame. The buffers are those of yaxo_frame_receive, the first mast's and then the second's.
 * Slots and marks are only read, so that one buffer may serve both copies; the two areas and the two maps may not overlap.
 * Each area and each map is left as yaxo_frame_receive leaves it, whatever the other copy was answered.
 * Answers 0 where a copy is used. If both were accepted with one sequence number, that is the copy whose 2e + f, summed
 * over its words, is smaller, and the first where the sums are equal, even if the payloads differ. If one was refused, by
 * any number, it is the other. Where both were refused the answer is the first's number, and its word under 4. 8 where both
 * were accepted with different sequence numbers: they are two frames, and each area and each map holds its own.
 */
yaxo_chosen yaxo_masts_receive(yaxo_framing framing,
                               const uint8_t *first_slots, size_t first_slots_length,
                               const uint8_t *first_marks, size_t first_marks_length,
                               uint8_t *first_area, size_t first_area_length,
                               uint8_t *first_map, size_t first_map_length,
                               const uint8_t *second_slots, size_t second_slots_length,
                               const uint8_t *second_marks, size_t second_marks_length,
                               uint8_t *second_area, size_t second_area_length,
                               uint8_t *second_map, size_t second_map_length);

/* The record after two copies, and what they were answered. */
typedef struct yaxo_masts_heard {
    yaxo_record next;
    yaxo_chosen answer;
} yaxo_masts_heard;

/*
 * The whole call for two receivers with one record: yaxo_masts_receive, and its answer noted once. A copy that was refused
 * beside an accepted one is not counted, and 8 leaves the record as it was. yaxo_masts_hear gives the record after it,
 * yaxo_masts_hear_in updates the lent one.
 */
yaxo_masts_heard yaxo_masts_hear(yaxo_record before, yaxo_framing framing,
                                 const uint8_t *first_slots, size_t first_slots_length,
                                 const uint8_t *first_marks, size_t first_marks_length,
                                 uint8_t *first_area, size_t first_area_length,
                                 uint8_t *first_map, size_t first_map_length,
                                 const uint8_t *second_slots, size_t second_slots_length,
                                 const uint8_t *second_marks, size_t second_marks_length,
                                 uint8_t *second_area, size_t second_area_length,
                                 uint8_t *second_map, size_t second_map_length);
yaxo_chosen yaxo_masts_hear_in(yaxo_record *record, yaxo_framing framing,
                               const uint8_t *first_slots, size_t first_slots_length,
                               const uint8_t *first_marks, size_t first_marks_length,
                               uint8_t *first_area, size_t first_area_length,
                               uint8_t *first_map, size_t first_map_length,
                               const uint8_t *second_slots, size_t second_slots_length,
                               const uint8_t *second_marks, size_t second_marks_length,
                               uint8_t *second_area, size_t second_area_length,
                               uint8_t *second_map, size_t second_map_length);

/* ---- Cross line -------------------------------------------------------------------------------------------------- */

/*
 * The compact disc's two codes: 24 message bytes a frame, sent as 32, and spread over 109 frames. A message comes out of
 * the receiver 108 frames after it went into the sender. Positions are the caller's to keep, as on the delay line.
 */
#define YAXO_CROSS_MESSAGE 24
#define YAXO_CROSS_WORD 32
#define YAXO_CROSS_MEMORY 1512
#define YAXO_CROSS_DELAY 108

typedef struct yaxo_cross_received {
    uint8_t answer;
    yaxo_figures figures; /* of the outer word; 0 unless the answer is 0 */
    size_t position;
} yaxo_cross_received;

/* Makes a fresh sender: a memory of 1512 zeros, and position 0. Answers 0, or 2 for the length, and the memory stays. */
yaxo_ready yaxo_cross_fresh_sender(uint8_t *memory, size_t memory_length);

/* Makes a fresh receiver: 1512 zeros in `memory` and 1512 ones in `held`, its marks. Answers as above. */
yaxo_ready yaxo_cross_fresh_receiver(uint8_t *memory, size_t memory_length,
                                     uint8_t *held, size_t held_length);

/*
 * Sends a frame. message: 24 bytes, read. word: 32 bytes, written.
 * Answers 0; 1 for a position that no number of frames reaches; 2 for a length. Refused, memory and word stay.
 */
yaxo_ready yaxo_cross_send(size_t position,
                           uint8_t *memory, size_t memory_length,
                           const uint8_t *message, size_t message_length,
                           uint8_t *word, size_t word_length);

/*
 * Receives a frame. word: 32 bytes, read. message: 24 bytes, written with the message of 108 frames before. map: 32 bytes,
 * written: 1 at each byte of this frame's inner word that was changed, check bytes too, else 0.
 * Answers 0 with the outer word's figures. 7 for the first 108 frames: the line has taken the frame, and the message bytes
 * stay. 4 where the outer word is beyond reach: the line has taken the frame, and the message bytes are zeros.
 * Under 0, 7 and 4 alike the map is the inner word's, and zeros where the inner word was beyond reach: it tells of the frame
 * that came in, and not of the message that went out.
 * 1 for a position that no number of frames reaches, 2 for a length, 3 for a mark above 1 in `held`: all stays.
 */
yaxo_cross_received yaxo_cross_receive(size_t position,
                                       uint8_t *memory, size_t memory_length,
                                       uint8_t *held, size_t held_length,
                                       const uint8_t *word, size_t word_length,
                                       uint8_t *message, size_t message_length,
                                       uint8_t *map, size_t map_length);

#ifdef __cplusplus
}
#endif

#endif
