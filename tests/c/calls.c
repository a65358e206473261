/*
 * The radio library from C: each call once or more through the header, against document 01's worked table and against damage whose
 * end is known. It catches a wrong layout of a struct, arguments in another order, a wrong number, and a buffer that a refusal changed.
 * It prints the line of each thing that does not hold, and ends with status 0 only where all holds.
 */
#include <stdio.h>
#include <string.h>

#include "yaxopetzo.h"

static int failures = 0;

static void expect(bool holds, int line)
{
    if (!holds) {
        printf("calls.c:%d does not hold\n", line);
        failures++;
    }
}

#define EXPECT(condition) expect((condition), __LINE__)
#define SAME(buffer, ...)                                                                                   \
    EXPECT(memcmp((buffer), (const uint8_t[])__VA_ARGS__, sizeof((const uint8_t[])__VA_ARGS__)) == 0)

static bool has_figures(yaxo_figures f, unsigned errors, unsigned marked, unsigned bits)
{
    return f.errors == errors && f.marked == marked && f.bits == bits;
}

/* P3 to P10 of the worked table, and each refusal. */
static void words(void)
{
    const yaxo_code sklar = { 3, 7, 4, 1 };
    const yaxo_code s = { 8, 3, 2, 0 };
    const uint8_t message[3] = { 7, 3, 2 };
    const uint8_t none[7] = { 0 };
    uint8_t word[7] = { 9, 9, 9, 9, 9, 9, 9 };
    uint8_t part[3] = { 9, 9, 9 };
    uint8_t map[8] = { 9, 9, 9, 9, 9, 9, 9, 9 };
    yaxo_decoded d;

    EXPECT(yaxo_word_is_allowed(sklar));
    EXPECT(!yaxo_word_is_allowed((yaxo_code){ 8, 256, 16, 0 }));
    EXPECT(!yaxo_word_is_allowed((yaxo_code){ 8, (uint32_t)-1, 16, 0 }));
    EXPECT(yaxo_word_encode((yaxo_code){ 3, 7, 4, 2 }, message, 3, word, 7) == YAXO_SETTING);
    EXPECT(yaxo_word_encode(sklar, message, 2, word, 7) == YAXO_LENGTH);
    EXPECT(yaxo_word_encode(sklar, (const uint8_t[]){ 7, 3, 8 }, 3, word, 7) == YAXO_SYMBOL);
    SAME(word, { 9, 9, 9, 9, 9, 9, 9 });
    EXPECT(yaxo_word_encode(sklar, message, 3, word, 7) == YAXO_DONE);
    SAME(word, { 7, 3, 2, 5, 6, 4, 1 });

    word[2] = 5;
    word[3] = 1;
    EXPECT(yaxo_word_decode_part(sklar, word, 7, none, 7, part, 3, map, 6).answer == YAXO_LENGTH);
    EXPECT(yaxo_word_decode(sklar, word, 7, none, 7, map, 8).answer == YAXO_LENGTH);
    SAME(part, { 9, 9, 9 });
    SAME(map, { 9, 9, 9, 9, 9, 9, 9, 9 });
    d = yaxo_word_decode_part(sklar, word, 7, none, 7, part, 3, map, 7);
    EXPECT(d.answer == YAXO_DONE && has_figures(d.figures, 2, 0, 4));
    SAME(part, { 7, 3, 2 });
    SAME(word, { 7, 3, 5, 1, 6, 4, 1 });
    SAME(map, { 0, 0, 1, 1, 0, 0, 0, 9 });
    memset(map, 9, sizeof map);
    d = yaxo_word_decode(sklar, word, 7, none, 7, map, 7);
    EXPECT(d.answer == YAXO_DONE && has_figures(d.figures, 2, 0, 4));
    SAME(word, { 7, 3, 2, 5, 6, 4, 1 });
    SAME(map, { 0, 0, 1, 1, 0, 0, 0, 9 });

    /* Marked symbols that were wrong are in the map, those that were right are not; refused 4 it is zeros, and 2 or 3 it stays. */
    memcpy(word, (const uint8_t[]){ 0, 0, 2 }, 3);
    d = yaxo_word_decode(s, word, 3, (const uint8_t[]){ 1, 1, 0 }, 3, map, 3);
    EXPECT(d.answer == YAXO_DONE && has_figures(d.figures, 0, 2, 3));
    SAME(word, { 1, 3, 2 });
    SAME(map, { 1, 1, 0 });
    d = yaxo_word_decode(s, word, 3, (const uint8_t[]){ 1, 1, 0 }, 3, map, 3);
    EXPECT(d.answer == YAXO_DONE && has_figures(d.figures, 0, 2, 0));
    SAME(map, { 0, 0, 0 });
    memset(map, 9, sizeof map);
    d = yaxo_word_decode(s, word, 3, (const uint8_t[]){ 0, 2, 0 }, 3, map, 3);
    EXPECT(d.answer == YAXO_SYMBOL);
    d = yaxo_word_decode(s, word, 3, (const uint8_t[]){ 0, 2, 0 }, 3, map, 2);
    EXPECT(d.answer == YAXO_LENGTH);
    SAME(map, { 9, 9, 9 });
    d = yaxo_word_decode(s, word, 3, (const uint8_t[]){ 1, 1, 1 }, 3, map, 3);
    EXPECT(d.answer == YAXO_BEYOND_REACH && has_figures(d.figures, 0, 0, 0));
    SAME(word, { 1, 3, 2 });
    SAME(map, { 0, 0, 0, 9 });
}

/* P11, both ways. */
static void block(void)
{
    const uint8_t words[6] = { 1, 3, 2, 2, 6, 4 };
    uint8_t slots[6] = { 0 };
    uint8_t back[6] = { 0 };

    EXPECT(yaxo_block_spread(17, 3, words, 6, slots, 6) == YAXO_SETTING);
    EXPECT(yaxo_block_spread(2, 3, words, 6, slots, 5) == YAXO_LENGTH);
    EXPECT(yaxo_block_spread(2, 3, words, 6, slots, 6) == YAXO_DONE);
    SAME(slots, { 1, 2, 3, 6, 2, 4 });
    EXPECT(yaxo_block_gather(2, 3, slots, 6, back, 6) == YAXO_DONE);
    EXPECT(memcmp(back, words, 6) == 0);
}

/* P12: the sender by runs and by steps, the receiver by steps and by runs. */
static void line(void)
{
    const yaxo_line setting = { 2, 2, 4 };
    uint8_t memory[YAXO_LINE_MEMORY(2, 2)] = { 5, 5 };
    uint8_t held[YAXO_LINE_MEMORY(2, 2)] = { 5, 5 };
    uint8_t bytes[8] = { 1, 2, 3, 4, 5, 6, 7, 8 };
    uint8_t marks[8] = { 0 };
    yaxo_ready ready;
    yaxo_line_sent sent;
    yaxo_line_received received;

    EXPECT(yaxo_line_fresh_sender((yaxo_line){ 2, 1, 4 }, memory, 1).answer == YAXO_SETTING);
    EXPECT(yaxo_line_fresh_sender(setting, memory, 1).answer == YAXO_LENGTH);
    SAME(memory, { 5, 5 });
    ready = yaxo_line_fresh_sender(setting, memory, sizeof memory);
    EXPECT(ready.answer == YAXO_DONE && ready.position == 0);
    ready = yaxo_line_send_run(setting, ready.position, memory, sizeof memory, NULL, 0);
    EXPECT(ready.answer == YAXO_DONE && ready.position == 0);
    ready = yaxo_line_send_run(setting, ready.position, memory, sizeof memory, bytes, 7);
    EXPECT(ready.answer == YAXO_DONE && ready.position == 3);
    sent = yaxo_line_send_step(setting, ready.position, memory, sizeof memory, bytes[7]);
    EXPECT(sent.answer == YAXO_DONE && sent.position == 0);
    bytes[7] = sent.byte;
    SAME(bytes, { 1, 0, 3, 0, 5, 2, 7, 4 });
    sent = yaxo_line_send_step(setting, 4, memory, sizeof memory, 1);
    EXPECT(sent.answer == YAXO_SETTING && sent.byte == 0 && sent.position == 4);

    ready = yaxo_line_fresh_receiver(setting, memory, sizeof memory, held, sizeof held);
    EXPECT(ready.answer == YAXO_DONE && ready.position == 0);
    SAME(memory, { 0, 0 });
    SAME(held, { 1, 1 });
    received = yaxo_line_receive_step(setting, 0, memory, sizeof memory, held, sizeof held, bytes[0], 2);
    EXPECT(received.answer == YAXO_SYMBOL && received.byte == 0 && received.mark == 0 && received.position == 0);
    received = yaxo_line_receive_step(setting, 0, memory, sizeof memory, held, sizeof held, bytes[0], 0);
    EXPECT(received.answer == YAXO_DONE && received.byte == 0 && received.mark == 1 && received.position == 1);
    bytes[0] = received.byte;
    ready = yaxo_line_receive_run(setting, 1, memory, sizeof memory, held, sizeof held, bytes + 1, 7, marks, 6);
    EXPECT(ready.answer == YAXO_LENGTH && ready.position == 1);
    ready = yaxo_line_receive_run(setting, 1, memory, sizeof memory, held, sizeof held, bytes + 1, 7, marks + 1, 7);
    EXPECT(ready.answer == YAXO_DONE && ready.position == 0);
    marks[0] = received.mark;
    SAME(bytes, { 0, 0, 0, 0, 1, 2, 3, 4 });
    SAME(marks, { 1, 0, 1, 0, 0, 0, 0, 0 });
}

static bool has_counts(yaxo_record r, uint32_t newer, uint32_t repeat, uint32_t older, uint32_t refused, uint32_t late)
{
    return r.newer == newer && r.repeat == repeat && r.older == older && r.refused == refused && r.late == late;
}

static bool has_memory(yaxo_record r, unsigned accepted, unsigned last, uint32_t seen)
{
    return r.accepted == accepted && r.last == last && r.seen == seen;
}

/* The bench reader's example: a frame of two words, sent, damaged, and received with the record. */
static void frame(void)
{
    const yaxo_framing framing = { 2, 5, 2, 0 };
    const uint8_t none[10] = { 0 };
    const uint8_t sent[10] = { 0, 0, 65, 2, 1, 1, 217, 13, 153, 14 };
    uint8_t slots[10] = { 0 };
    uint8_t area[6] = { 9, 9, 9, 9, 9, 9 };
    uint8_t map[YAXO_FRAME_SLOTS(2, 5)] = { 9, 9, 9, 9, 9, 9, 9, 9, 9, 9 };
    yaxo_record record = yaxo_record_fresh();
    yaxo_received got;
    yaxo_heard heard;

    EXPECT(yaxo_frame_is_allowed(framing));
    EXPECT(!yaxo_frame_is_allowed((yaxo_framing){ 1, 5, 2, 0 }));
    EXPECT(yaxo_frame_send(framing, (const uint8_t *)"ABC", 3, 258, slots, 10) == YAXO_PAYLOAD);
    EXPECT(yaxo_frame_send(framing, (const uint8_t *)"A", 1, 258, slots, 9) == YAXO_LENGTH);
    EXPECT(memcmp(slots, none, 10) == 0);
    EXPECT(yaxo_frame_send(framing, NULL, 0, 7, slots, 10) == YAXO_DONE);
    got = yaxo_frame_receive(framing, slots, 10, none, 10, area, 6, map, 9);
    EXPECT(got.answer == YAXO_LENGTH && got.sequence == 0);
    SAME(area, { 9, 9, 9, 9, 9, 9 });
    SAME(map, { 9, 9, 9, 9, 9, 9, 9, 9, 9, 9 });
    got = yaxo_frame_receive(framing, slots, 10, none, 10, area, 6, map, 10);
    EXPECT(got.answer == YAXO_DONE && got.sequence == 7 && got.length == 0 && got.start == 2);
    EXPECT(memcmp(map, none, 10) == 0);
    EXPECT(yaxo_frame_send(framing, (const uint8_t *)"A", 1, 258, slots, 10) == YAXO_DONE);
    EXPECT(memcmp(slots, sent, 10) == 0);

    slots[2] = 0;
    slots[3] = 0;
    got = yaxo_frame_receive(framing, slots, 10, none, 10, area, 6, map, 10);
    EXPECT(got.answer == YAXO_DONE && got.word == 0 && got.sequence == 258);
    EXPECT(got.length == 1 && got.start == 1 && area[got.start] == 'A');
    EXPECT(has_figures(got.figures[0], 1, 0, 2) && has_figures(got.figures[1], 1, 0, 1) && has_figures(got.figures[15], 0, 0, 0));
    SAME(area, { 0, 65, 1, 0, 2, 1 });
    SAME(map, { 0, 0, 1, 1, 0, 0, 0, 0, 0, 0 });

    EXPECT(yaxo_record_standing(record.accepted, record.last, record.seen, 258) == YAXO_NEWER);
    memset(map, 9, sizeof map);
    got = yaxo_hear_in(&record, framing, slots, 10, none, 10, area, 6, map, 10);
    EXPECT(got.answer == YAXO_DONE && got.sequence == 258 && got.start == 1 && got.length == 1);
    SAME(map, { 0, 0, 1, 1, 0, 0, 0, 0, 0, 0 });
    EXPECT(has_counts(record, 1, 0, 0, 0, 0) && has_memory(record, 1, 258, 0));

    /* Two errors in word 0: refused, area and map are zeros, and the record counts it. */
    slots[4] = 77;
    heard = yaxo_hear(record, framing, slots, 10, none, 10, area, 6, map, 10);
    EXPECT(heard.answer.answer == YAXO_BEYOND_REACH && heard.answer.word == 0 && heard.answer.length == 0);
    EXPECT(has_counts(heard.next, 1, 0, 0, 1, 0) && has_memory(heard.next, 1, 258, 0) && record.refused == 0);
    SAME(area, { 0, 0, 0, 0, 0, 0 });
    EXPECT(memcmp(map, none, 10) == 0);

    /* The frame again where the newest number is two ahead of it: it is late, and then a repeat. */
    slots[4] = sent[4];
    record.last = 260;
    record.seen = 0x80000001;
    heard = yaxo_hear(record, framing, slots, 10, none, 10, area, 6, map, 10);
    EXPECT(heard.answer.answer == YAXO_DONE && heard.answer.sequence == 258);
    EXPECT(has_counts(heard.next, 1, 0, 0, 0, 1) && has_memory(heard.next, 1, 260, 0x80000003));
    EXPECT(has_counts(record, 1, 0, 0, 0, 0) && has_memory(record, 1, 260, 0x80000001));
    got = yaxo_hear_in(&record, framing, slots, 10, none, 10, area, 6, map, 10);
    EXPECT(has_counts(record, 1, 0, 0, 0, 1) && has_memory(record, 1, 260, 0x80000003));
    got = yaxo_hear_in(&record, framing, slots, 10, none, 10, area, 6, map, 10);
    EXPECT(got.answer == YAXO_DONE && has_counts(record, 1, 1, 0, 0, 1) && has_memory(record, 1, 260, 0x80000003));
}

static bool word_is(yaxo_word_clean got, unsigned answer, unsigned clean)
{
    return got.answer == answer && got.clean == clean;
}

static bool frame_is(yaxo_frame_clean got, unsigned answer, unsigned clean, unsigned word)
{
    return got.answer == answer && got.clean == clean && got.word == word;
}

/* Words and frames that are clean, damaged and refused: every field under each answer, and what is lent is only read. */
static void clean(void)
{
    const yaxo_code sklar = { 3, 7, 4, 1 };
    const yaxo_code short_word = { 3, 5, 4, 1 };
    const yaxo_code other_zeros = { 3, 5, 4, 0 };
    const yaxo_framing framing = { 2, 5, 2, 0 };
    const yaxo_framing largest = { YAXO_DEPTH_MOST, YAXO_WORD_MOST, 2, 1 };
    uint8_t word[7] = { 7, 3, 2, 5, 6, 4, 1 };
    uint8_t words[10], slots[10], many[YAXO_SLOTS_MOST] = { 0 };

    EXPECT(sizeof(yaxo_word_clean) == 2 && offsetof(yaxo_word_clean, clean) == 1);
    EXPECT(sizeof(yaxo_frame_clean) == 3 && offsetof(yaxo_frame_clean, clean) == 1 && offsetof(yaxo_frame_clean, word) == 2);

    /* P3's word, its check polynomial under both b, each symbol changed, and the words of P5 to P9. */
    EXPECT(word_is(yaxo_word_is_clean(sklar, word, 7), YAXO_DONE, 1));
    EXPECT(word_is(yaxo_word_is_clean(short_word, (const uint8_t[]){ 1, 3, 1, 2, 3 }, 5), YAXO_DONE, 1));
    EXPECT(word_is(yaxo_word_is_clean(other_zeros, (const uint8_t[]){ 1, 3, 1, 2, 3 }, 5), YAXO_DONE, 0));
    for (unsigned i = 0; i < 7; i++) {
        word[i] ^= 4;
        EXPECT(word_is(yaxo_word_is_clean(sklar, word, 7), YAXO_DONE, 0));
        word[i] ^= 4;
    }
    EXPECT(word_is(yaxo_word_is_clean((yaxo_code){ 8, 3, 2, 0 }, (const uint8_t[]){ 1, 3, 2 }, 3), YAXO_DONE, 1));
    EXPECT(word_is(yaxo_word_is_clean((yaxo_code){ 8, 3, 2, 0 }, (const uint8_t[]){ 0, 3, 2 }, 3), YAXO_DONE, 0));
    EXPECT(word_is(yaxo_word_is_clean((yaxo_code){ 8, 3, 2, 0 }, (const uint8_t[]){ 0, 1, 2 }, 3), YAXO_DONE, 0));

    /* A bad symbol comes after the length, and the length after the code. */
    word[6] |= 8;
    EXPECT(word_is(yaxo_word_is_clean(sklar, word, 7), YAXO_SYMBOL, 0));
    EXPECT(word_is(yaxo_word_is_clean(sklar, word + 1, 6), YAXO_LENGTH, 0));
    EXPECT(word_is(yaxo_word_is_clean(sklar, NULL, 0), YAXO_LENGTH, 0));
    EXPECT(word_is(yaxo_word_is_clean((yaxo_code){ 3, 7, 4, 2 }, word + 1, 6), YAXO_SETTING, 0));
    EXPECT(word_is(yaxo_word_is_clean((yaxo_code){ 3, 8, 4, 1 }, word, 7), YAXO_SETTING, 0));
    SAME(word, { 7, 3, 2, 5, 6, 4, 9 });

    /* The frame above as it was sent, then with its last slot wrong, then with its first as well: the first word is told. */
    EXPECT(yaxo_frame_send(framing, (const uint8_t *)"A", 1, 258, slots, 10) == YAXO_DONE);
    EXPECT(frame_is(yaxo_frame_is_clean(framing, slots, 10), YAXO_DONE, 1, 0));
    slots[9] ^= 1;
    EXPECT(frame_is(yaxo_frame_is_clean(framing, slots, 10), YAXO_DONE, 0, 1));
    slots[0] ^= 128;
    EXPECT(frame_is(yaxo_frame_is_clean(framing, slots, 10), YAXO_DONE, 0, 0));
    EXPECT(frame_is(yaxo_frame_is_clean(framing, slots, 9), YAXO_LENGTH, 0, 0));
    EXPECT(frame_is(yaxo_frame_is_clean(framing, NULL, 0), YAXO_LENGTH, 0, 0));
    EXPECT(frame_is(yaxo_frame_is_clean((yaxo_framing){ 2, 5, 2, 2 }, slots, 9), YAXO_SETTING, 0, 0));
    EXPECT(frame_is(yaxo_frame_is_clean((yaxo_framing){ 2, 5, 2, 1 }, slots, 10), YAXO_DONE, 0, 0));
    SAME(slots, { 128, 0, 65, 2, 1, 1, 217, 13, 153, 15 });

    /* An area of three bytes is no setting, and one of four is. */
    EXPECT(frame_is(yaxo_frame_is_clean((yaxo_framing){ 1, 5, 2, 0 }, many, 5), YAXO_SETTING, 0, 0));
    EXPECT(frame_is(yaxo_frame_is_clean((yaxo_framing){ 3, 3, 2, 0 }, many, 9), YAXO_SETTING, 0, 0));
    EXPECT(frame_is(yaxo_frame_is_clean((yaxo_framing){ 4, 3, 2, 0 }, many, 12), YAXO_DONE, 1, 0));

    /* A trailer that points outside the area is not looked at. */
    EXPECT(yaxo_word_encode((yaxo_code){ 8, 5, 2, 0 }, (const uint8_t[]){ 0, 0, 3 }, 3, words, 5) == YAXO_DONE);
    EXPECT(yaxo_word_encode((yaxo_code){ 8, 5, 2, 0 }, (const uint8_t[]){ 0, 2, 1 }, 3, words + 5, 5) == YAXO_DONE);
    EXPECT(yaxo_block_spread(2, 5, words, 10, slots, 10) == YAXO_DONE);
    EXPECT(frame_is(yaxo_frame_is_clean(framing, slots, 10), YAXO_DONE, 1, 0));

    /* The largest frame: each word in turn, from the last. */
    EXPECT(frame_is(yaxo_frame_is_clean(largest, many, sizeof many), YAXO_DONE, 1, 0));
    for (unsigned w = YAXO_DEPTH_MOST; w-- > 0;) {
        many[4064 + w] = 1;
        EXPECT(frame_is(yaxo_frame_is_clean(largest, many, sizeof many), YAXO_DONE, 0, w));
    }
}

/* Every field of a record in its place, each standing, and the memory as it slides, by both calls that note. */
static void record(void)
{
    const uint32_t top = 0xFFFFFFFF;
    yaxo_record r = yaxo_record_fresh();
    yaxo_record next;

    EXPECT(sizeof r == 28 && offsetof(yaxo_record, last) == 2 && offsetof(yaxo_record, newer) == 4);
    EXPECT(offsetof(yaxo_record, repeat) == 8 && offsetof(yaxo_record, older) == 12 && offsetof(yaxo_record, refused) == 16);
    EXPECT(offsetof(yaxo_record, late) == 20 && offsetof(yaxo_record, seen) == 24);
    EXPECT(offsetof(yaxo_heard, answer) == 32 && offsetof(yaxo_masts_heard, answer) == 32);
    EXPECT(has_counts(r, 0, 0, 0, 0, 0) && has_memory(r, 0, 0, 0));

    /* P13 of the worked table, and both ends of the memory. */
    EXPECT(yaxo_record_standing(0, 0, 0, 0) == YAXO_NEWER && yaxo_record_standing(0, 258, top, 257) == YAXO_NEWER);
    EXPECT(yaxo_record_standing(1, 65535, 0, 2) == YAXO_NEWER && yaxo_record_standing(1, 0, 0, 32767) == YAXO_NEWER);
    EXPECT(yaxo_record_standing(1, 0, top, 32768) == YAXO_OLDER && yaxo_record_standing(1, 0, 0, 0) == YAXO_REPEAT);
    EXPECT(yaxo_record_standing(1, 258, 0, 257) == YAXO_LATE && yaxo_record_standing(1, 258, 1, 257) == YAXO_REPEAT);
    EXPECT(yaxo_record_standing(1, 258, top - 1, 257) == YAXO_LATE && yaxo_record_standing(7, 258, 0, 226) == YAXO_LATE);
    EXPECT(yaxo_record_standing(1, 258, 0x80000000, 226) == YAXO_REPEAT && yaxo_record_standing(1, 258, top, 225) == YAXO_OLDER);
    EXPECT(yaxo_record_standing(1, 2, 4, 65535) == YAXO_REPEAT && yaxo_record_standing(1, 2, 2, 65535) == YAXO_LATE);
    EXPECT(yaxo_record_unseen(0) == 32 && yaxo_record_unseen(1) == 31 && yaxo_record_unseen(0x80000000) == 31);
    EXPECT(yaxo_record_unseen(top) == 0 && yaxo_record_unseen(0xF0F0000F) == 20);

    /* The first accepted frame forgets what was lent, which a refused one keeps. */
    r.last = 256;
    r.seen = top;
    r = yaxo_record_note(r, YAXO_BEYOND_REACH, 0);
    EXPECT(has_counts(r, 0, 0, 0, 1, 0) && has_memory(r, 0, 256, top));
    next = yaxo_record_note(r, YAXO_DONE, 258);
    EXPECT(has_counts(next, 1, 0, 0, 1, 0) && has_memory(next, 1, 258, 0));
    yaxo_record_note_in(&r, YAXO_DONE, 258);
    EXPECT(has_counts(r, 1, 0, 0, 1, 0) && has_memory(r, 1, 258, 0));

    /* Nothing but 0, 4 and 5 changes the record, and a byte for `accepted` that C alone could have put there is kept. */
    r.accepted = 7;
    yaxo_record_note_in(&r, YAXO_SYMBOL, 300);
    EXPECT(has_counts(r, 1, 0, 0, 1, 0) && has_memory(r, 7, 258, 0));
    yaxo_record_note_in(&r, YAXO_TRAILER, 300);
    EXPECT(has_counts(r, 1, 0, 0, 2, 0) && has_memory(r, 7, 258, 0));

    /* Late once and then a repeat, at both ends of the memory; one farther back is older each time. */
    next = yaxo_record_note(r, YAXO_DONE, 257);
    EXPECT(has_counts(next, 1, 0, 0, 2, 1) && has_memory(next, 7, 258, 1) && has_memory(r, 7, 258, 0));
    yaxo_record_note_in(&r, YAXO_DONE, 257);
    EXPECT(has_counts(r, 1, 0, 0, 2, 1) && has_memory(r, 7, 258, 1));
    yaxo_record_note_in(&r, YAXO_DONE, 257);
    EXPECT(has_counts(r, 1, 1, 0, 2, 1) && has_memory(r, 7, 258, 1));
    yaxo_record_note_in(&r, YAXO_DONE, 226);
    EXPECT(has_counts(r, 1, 1, 0, 2, 2) && has_memory(r, 7, 258, 0x80000001));
    yaxo_record_note_in(&r, YAXO_DONE, 225);
    EXPECT(has_counts(r, 1, 1, 1, 2, 2) && has_memory(r, 7, 258, 0x80000001));

    /* A step of two slides it, one of 32 keeps the old newest number alone, and one of 33 clears it. */
    r = yaxo_record_note(r, YAXO_DONE, 260);
    EXPECT(has_counts(r, 2, 1, 1, 2, 2) && has_memory(r, 7, 260, 6));
    next = yaxo_record_note(r, YAXO_DONE, 293);
    EXPECT(has_counts(next, 3, 1, 1, 2, 2) && has_memory(next, 7, 293, 0));
    yaxo_record_note_in(&r, YAXO_DONE, 292);
    EXPECT(has_counts(r, 3, 1, 1, 2, 2) && has_memory(r, 7, 292, 0x80000000));

    /* A count at the top stays there, and the number is remembered all the same. */
    r.late = top;
    yaxo_record_note_in(&r, YAXO_DONE, 291);
    EXPECT(has_counts(r, 3, 1, 1, 2, top) && has_memory(r, 7, 292, 0x80000001));
}

/* Whether a frame's result has these four numbers and, unless it was accepted, no figures. */
static bool has_result(const yaxo_result *result, unsigned answer, unsigned word, unsigned sequence, unsigned back)
{
    bool holds = result->answer == answer && result->word == word && result->sequence == sequence && result->back == back;
    for (int w = 0; w < YAXO_DEPTH_MOST && answer != YAXO_DONE; w++) {
        holds = holds && has_figures(result->figures[w], 0, 0, 0);
    }
    return holds;
}

static bool is_answered(yaxo_replayed got, unsigned answer, size_t frames)
{
    return got.answer == answer && got.frames == frames;
}

/* Three frames with the middle one refused, one with a bad mark, every total, and as many frames as there may be and one more. */
static void replay(void)
{
    enum { MANY = YAXO_REPLAY_MOST + 1, A = YAXO_FRAME_AREA(2, 5, 2), RESULT = YAXO_RESULT_NUMBERS };
    const yaxo_framing framing = { 2, 5, 2, 0 };
    const struct { size_t slots, marks, areas, maps, numbers; } totals[] = {
        { 29, 30, 18, 30, 156 }, { 31, 30, 18, 30, 156 }, { 20, 30, 18, 30, 156 }, { 29, 29, 12, 29, 104 }, { 0, 30, 18, 30, 156 },
        { 30, 29, 18, 30, 156 }, { 30, 31, 18, 30, 156 }, { 30, 20, 18, 30, 156 }, { 30, 30, 17, 30, 156 }, { 30, 30, 19, 30, 156 },
        { 30, 30, 12, 30, 156 }, { 30, 30, 18, 29, 156 }, { 30, 30, 18, 31, 156 }, { 30, 30, 18, 40, 156 }, { 0, 0, 6, 0, 0 },
        { 30, 30, 18, 30, 155 }, { 30, 30, 18, 30, 157 }, { 30, 30, 18, 30, 104 }, { 30, 30, 18, 30, 208 }, { 30, 30, 18, 30, 3 },
        { 30, 30, 18, 30, 0 }, { 0, 0, 0, 0, 52 }, { 0, 0, 0, 0, 1 },
    };
    uint8_t slots[MANY * YAXO_FRAME_SLOTS(2, 5)] = { 0 }, marks[sizeof slots] = { 0 }, maps[sizeof slots], kept_maps[sizeof slots];
    uint8_t areas[MANY * A], kept[sizeof areas];
    yaxo_result results[MANY], kept_results[MANY], old;
    yaxo_record record = yaxo_record_fresh();
    yaxo_replayed got;
    yaxo_replay_heard heard;

    EXPECT(sizeof results[0] == 104 && sizeof results[0] == RESULT * sizeof(uint16_t) && sizeof got == 16 && sizeof heard == 48);
    EXPECT(offsetof(yaxo_result, word) == 2 && offsetof(yaxo_result, sequence) == 4 && offsetof(yaxo_result, back) == 6);
    EXPECT(offsetof(yaxo_result, figures) == 8 && sizeof(yaxo_figures) == 6 && offsetof(yaxo_figures, marked) == 2);
    EXPECT(offsetof(yaxo_figures, bits) == 4 && offsetof(yaxo_replayed, frames) == 8 && offsetof(yaxo_replay_heard, answer) == 32);
    EXPECT(yaxo_frame_send(framing, (const uint8_t *)"A", 1, 258, slots, 10) == YAXO_DONE);
    EXPECT(yaxo_frame_send(framing, (const uint8_t *)"B", 1, 259, slots + 10, 10) == YAXO_DONE);
    EXPECT(yaxo_frame_send(framing, (const uint8_t *)"CD", 2, 260, slots + 20, 10) == YAXO_DONE);
    slots[2] = 0;
    marks[11] = marks[13] = marks[15] = 1; /* word 1 of the middle frame has more marks than check bytes */
    marks[29] = 1;
    slots[28] ^= 1;
    memset(areas, 9, sizeof areas);
    memset(maps, 9, sizeof maps);
    memset(results, 9, sizeof results);
    memset(&old, 9, sizeof old);
    got = yaxo_replay_in(&record, framing, slots, 30, marks, 30, areas, 3 * A, maps, 30, results, 3 * RESULT);
    EXPECT(is_answered(got, YAXO_DONE, 3));
    EXPECT(has_result(&results[0], YAXO_DONE, 0, 258, 1));
    EXPECT(has_figures(results[0].figures[0], 1, 0, 2) && has_figures(results[0].figures[1], 0, 0, 0));
    EXPECT(has_result(&results[1], YAXO_BEYOND_REACH, 1, 0, 0));
    EXPECT(has_result(&results[2], YAXO_DONE, 0, 260, 2));
    EXPECT(memcmp(areas + 3 * A - YAXO_TRAILER_BYTES - results[2].back, "CD", 2) == 0);
    EXPECT(has_figures(results[2].figures[0], 1, 0, 1) && has_figures(results[2].figures[1], 0, 1, 0));
    EXPECT(has_figures(results[2].figures[2], 0, 0, 0) && has_figures(results[2].figures[15], 0, 0, 0));
    EXPECT(memcmp(&results[3], &old, sizeof old) == 0);
    SAME(areas, { 0, 65, 1, 0, 2, 1, 0, 0, 0, 0, 0, 0, 67, 68, 2, 0, 4, 1, 9 });
    SAME(maps, { 0, 0, 1, 0, 0, 0, 0, 0, 0, 0, 0, 0, 0, 0, 0, 0, 0, 0, 0, 0, 0, 0, 0, 0, 0, 0, 0, 0, 1, 0, 9 });
    EXPECT(has_counts(record, 2, 0, 0, 1, 0) && has_memory(record, 1, 260, 2));

    /* A bad mark is its own frame's alone: area and map stay there, and the record does not count it. The record is given here. */
    marks[4] = 2;
    memset(areas, 9, sizeof areas);
    memset(maps, 9, sizeof maps);
    memset(results, 9, sizeof results);
    heard = yaxo_replay(record, framing, slots, 30, marks, 30, areas, 3 * A, maps, 30, results, 3 * RESULT);
    EXPECT(is_answered(heard.answer, YAXO_DONE, 3));
    EXPECT(has_result(&results[0], YAXO_SYMBOL, 0, 0, 0) && has_result(&results[1], YAXO_BEYOND_REACH, 1, 0, 0));
    EXPECT(has_result(&results[2], YAXO_DONE, 0, 260, 2) && memcmp(&results[3], &old, sizeof old) == 0);
    EXPECT(has_counts(heard.next, 2, 1, 0, 2, 0) && has_memory(heard.next, 1, 260, 2));
    EXPECT(has_counts(record, 2, 0, 0, 1, 0) && has_memory(record, 1, 260, 2));
    SAME(areas, { 9, 9, 9, 9, 9, 9, 0, 0, 0, 0, 0, 0, 67, 68, 2, 0, 4, 1, 9 });
    SAME(maps, { 9, 9, 9, 9, 9, 9, 9, 9, 9, 9, 0, 0, 0, 0, 0, 0, 0, 0, 0, 0, 0, 0, 0, 0, 0, 0, 0, 0, 1, 0, 9 });

    /* Totals that do not fit come before that mark, too many frames before totals, and the setting before both: all stays. */
    record.accepted = 7;
    memset(results, 9, sizeof results);
    memcpy(kept, areas, sizeof areas);
    memcpy(kept_maps, maps, sizeof maps);
    memcpy(kept_results, results, sizeof results);
    for (size_t i = 0; i < sizeof totals / sizeof totals[0]; i++) {
        got = yaxo_replay_in(&record, framing, slots, totals[i].slots, marks, totals[i].marks,
                             areas, totals[i].areas, maps, totals[i].maps, results, totals[i].numbers);
        EXPECT(is_answered(got, YAXO_LENGTH, 0));
    }
    got = yaxo_replay_in(&record, framing, slots, 650, marks, 650, areas, MANY * A, maps, 650, results, MANY * RESULT);
    EXPECT(is_answered(got, YAXO_SETTING, 0));
    got = yaxo_replay_in(&record, framing, slots, 641, marks, 1, areas, 1, maps, 1, results, 1);
    EXPECT(is_answered(got, YAXO_SETTING, 0));
    heard = yaxo_replay(record, (yaxo_framing){ 2, 5, 2, 2 }, NULL, 0, NULL, 0, NULL, 0, NULL, 0, NULL, 0);
    EXPECT(is_answered(heard.answer, YAXO_SETTING, 0));
    EXPECT(has_counts(heard.next, 2, 0, 0, 1, 0) && has_memory(heard.next, 7, 260, 2));
    EXPECT(has_counts(record, 2, 0, 0, 1, 0) && has_memory(record, 7, 260, 2));
    EXPECT(memcmp(kept, areas, sizeof areas) == 0 && memcmp(kept_maps, maps, sizeof maps) == 0);
    EXPECT(memcmp(kept_results, results, sizeof results) == 0);

    /* No frames at all, and 64: the last 61 are zeros, which is an empty payload with the number 0, far behind 260. */
    got = yaxo_replay_in(&record, framing, NULL, 0, NULL, 0, NULL, 0, NULL, 0, NULL, 0);
    EXPECT(is_answered(got, YAXO_DONE, 0));
    EXPECT(has_counts(record, 2, 0, 0, 1, 0) && has_memory(record, 7, 260, 2));
    got = yaxo_replay_in(&record, framing, slots, 640, marks, 640, areas, 64 * A, maps, 640, results, 64 * RESULT);
    EXPECT(is_answered(got, YAXO_DONE, 64));
    EXPECT(has_result(&results[63], YAXO_DONE, 0, 0, 0) && memcmp(&results[64], &old, sizeof old) == 0);
    EXPECT(areas[383] == 0 && areas[384] == 9 && maps[639] == 0 && maps[640] == 9);
    EXPECT(has_counts(record, 2, 1, 61, 2, 0) && has_memory(record, 7, 260, 2));

    /* These 61 where the number 0 is 20 behind: the first of them is late, and each other one repeats it. */
    record.last = 20;
    heard = yaxo_replay(record, framing, slots + 30, 610, marks + 30, 610, areas, 61 * A, maps, 610, results, 61 * RESULT);
    EXPECT(is_answered(heard.answer, YAXO_DONE, 61));
    EXPECT(has_counts(heard.next, 2, 61, 61, 2, 1) && has_memory(heard.next, 7, 20, 0x80002));
    EXPECT(has_counts(record, 2, 1, 61, 2, 0) && has_memory(record, 7, 20, 2));
    got = yaxo_replay_in(&record, framing, slots + 30, 610, marks + 30, 610, areas, 61 * A, maps, 610, results, 61 * RESULT);
    EXPECT(is_answered(got, YAXO_DONE, 61));
    EXPECT(has_counts(record, 2, 61, 61, 2, 1) && has_memory(record, 7, 20, 0x80002));
}

/* Two masts: two copies of the frame above and of its neighbour, by each way in which one of them is used or none. */
static void masts(void)
{
    const yaxo_framing framing = { 2, 5, 2, 0 };
    const uint8_t none[10] = { 0 };
    const uint8_t one[10] = { 1 };
    const uint8_t two[10] = { 1, 1 };
    const uint8_t three[10] = { 0, 1, 0, 1, 0, 1 }; /* word 1 has more marks than check bytes */
    const uint8_t bad[10] = { 0, 0, 2 };
    uint8_t sent[10], struck[10], next[10];
    uint8_t first[6] = { 9, 9, 9, 9, 9, 9 };
    uint8_t second[6] = { 9, 9, 9, 9, 9, 9 };
    uint8_t first_map[10] = { 9, 9, 9, 9, 9, 9, 9, 9, 9, 9 };
    uint8_t second_map[10] = { 9, 9, 9, 9, 9, 9, 9, 9, 9, 9 };
    yaxo_record record = yaxo_record_fresh();
    yaxo_chosen got;
    yaxo_masts_heard heard;

    EXPECT(yaxo_frame_send(framing, (const uint8_t *)"A", 1, 258, sent, 10) == YAXO_DONE);
    EXPECT(yaxo_frame_send(framing, (const uint8_t *)"BC", 2, 259, next, 10) == YAXO_DONE);
    memcpy(struck, sent, 10);
    struck[2] = 0;

    /* An error weighs two and a mark one: the better copy is the second, then the first, and then neither is better. */
    got = yaxo_masts_receive(framing, struck, 10, none, 10, first, 6, first_map, 10,
                             sent, 10, one, 10, second, 6, second_map, 10);
    EXPECT(got.mast == YAXO_MAST_SECOND && got.frame.answer == YAXO_DONE && got.frame.word == 0 && got.frame.sequence == 258);
    EXPECT(got.frame.start == 1 && got.frame.length == 1 && second[got.frame.start] == 'A');
    EXPECT(has_figures(got.frame.figures[0], 0, 1, 0) && has_figures(got.frame.figures[15], 0, 0, 0));
    SAME(first, { 0, 65, 1, 0, 2, 1 });
    SAME(second, { 0, 65, 1, 0, 2, 1 });
    SAME(first_map, { 0, 0, 1, 0, 0, 0, 0, 0, 0, 0 });
    EXPECT(memcmp(second_map, none, 10) == 0);
    got = yaxo_masts_receive(framing, sent, 10, one, 10, first, 6, first_map, 10,
                             struck, 10, none, 10, second, 6, second_map, 10);
    EXPECT(got.mast == YAXO_MAST_FIRST && has_figures(got.frame.figures[0], 0, 1, 0));
    got = yaxo_masts_receive(framing, struck, 10, none, 10, first, 6, first_map, 10,
                             sent, 10, two, 10, second, 6, second_map, 10);
    EXPECT(got.mast == YAXO_MAST_FIRST && has_figures(got.frame.figures[0], 1, 0, 2) && has_figures(got.frame.figures[1], 0, 0, 0));
    got = yaxo_masts_receive((yaxo_framing){ 1, 5, 2, 0 }, sent, 5, none, 5, first, 3, first_map, 5,
                             sent, 5, none, 5, second, 3, second_map, 5);
    EXPECT(got.mast == YAXO_MAST_NEITHER && got.frame.answer == YAXO_SETTING);

    /* One refused: the other is used, and only it is counted. The record is the lent one, then the one that is given. */
    memset(first_map, 9, 10);
    got = yaxo_masts_hear_in(&record, framing, sent, 10, three, 10, first, 6, first_map, 10,
                             sent, 10, none, 10, second, 6, second_map, 10);
    EXPECT(got.mast == YAXO_MAST_SECOND && got.frame.answer == YAXO_DONE && got.frame.start == 1 && got.frame.length == 1);
    EXPECT(has_counts(record, 1, 0, 0, 0, 0) && has_memory(record, 1, 258, 0));
    SAME(first, { 0, 0, 0, 0, 0, 0 });
    EXPECT(memcmp(first_map, none, 10) == 0);
    memset(second, 9, 6);
    memset(second_map, 9, 10);
    heard = yaxo_masts_hear(record, framing, next, 10, none, 10, first, 6, first_map, 10,
                            sent, 9, none, 10, second, 6, second_map, 10);
    EXPECT(heard.answer.mast == YAXO_MAST_FIRST && heard.answer.frame.sequence == 259);
    EXPECT(heard.answer.frame.start == 0 && heard.answer.frame.length == 2);
    EXPECT(has_counts(heard.next, 2, 0, 0, 0, 0) && has_memory(heard.next, 1, 259, 1) && has_memory(record, 1, 258, 0));
    SAME(first, { 66, 67, 2, 0, 3, 1 });
    SAME(second, { 9, 9, 9, 9, 9, 9 });
    SAME(second_map, { 9, 9, 9, 9, 9, 9, 9, 9, 9, 9 });

    /* Both refused: the first's number and word decide, and each area and each map is left by its own copy's answer. */
    memset(first, 9, 6);
    memset(first_map, 9, 10);
    got = yaxo_masts_hear_in(&record, framing, sent, 10, bad, 10, first, 6, first_map, 10,
                             sent, 10, three, 10, second, 6, second_map, 10);
    EXPECT(got.mast == YAXO_MAST_NEITHER && got.frame.answer == YAXO_SYMBOL && got.frame.word == 0 && record.refused == 0);
    SAME(first, { 9, 9, 9, 9, 9, 9 });
    SAME(second, { 0, 0, 0, 0, 0, 0 });
    SAME(first_map, { 9, 9, 9, 9, 9, 9, 9, 9, 9, 9 });
    EXPECT(memcmp(second_map, none, 10) == 0);
    got = yaxo_masts_hear_in(&record, framing, sent, 10, three, 10, first, 6, first_map, 10,
                             sent, 10, bad, 10, second, 6, second_map, 10);
    EXPECT(got.mast == YAXO_MAST_NEITHER && got.frame.answer == YAXO_BEYOND_REACH && got.frame.word == 1 && got.frame.length == 0);
    EXPECT(has_counts(record, 1, 0, 0, 1, 0) && has_memory(record, 1, 258, 0));

    /* Two frames: neither is used, both are decoded and mapped, and the record stays. */
    next[9] ^= 1;
    got = yaxo_masts_hear_in(&record, framing, struck, 10, none, 10, first, 6, first_map, 10,
                             next, 10, one, 10, second, 6, second_map, 10);
    EXPECT(got.mast == YAXO_MAST_NEITHER && got.frame.answer == YAXO_DIFFER && got.frame.word == 0 && got.frame.sequence == 0);
    EXPECT(got.frame.start == 0 && got.frame.length == 0 && has_figures(got.frame.figures[0], 0, 0, 0));
    EXPECT(has_counts(record, 1, 0, 0, 1, 0) && has_memory(record, 1, 258, 0));
    SAME(first, { 0, 65, 1, 0, 2, 1 });
    SAME(second, { 66, 67, 2, 0, 3, 1 });
    SAME(first_map, { 0, 0, 1, 0, 0, 0, 0, 0, 0, 0 });
    SAME(second_map, { 0, 0, 0, 0, 0, 0, 0, 0, 0, 1 });

    /* One frame behind the newest number is late once, and then a repeat. */
    record.last = 290;
    heard = yaxo_masts_hear(record, framing, sent, 10, none, 10, first, 6, first_map, 10,
                            sent, 10, none, 10, second, 6, second_map, 10);
    EXPECT(has_counts(heard.next, 1, 0, 0, 1, 1) && has_memory(heard.next, 1, 290, 0x80000000) && has_memory(record, 1, 290, 0));
    got = yaxo_masts_hear_in(&record, framing, sent, 10, none, 10, first, 6, first_map, 10,
                             sent, 10, none, 10, second, 6, second_map, 10);
    EXPECT(has_counts(record, 1, 0, 0, 1, 1) && has_memory(record, 1, 290, 0x80000000));
    got = yaxo_masts_hear_in(&record, framing, sent, 10, none, 10, first, 6, first_map, 10,
                             sent, 10, none, 10, second, 6, second_map, 10);
    EXPECT(got.frame.answer == YAXO_DONE && has_counts(record, 1, 1, 0, 1, 1) && has_memory(record, 1, 290, 0x80000000));
}

/*
 * The cross line both ways: a run of ten lost frames, a wrong last byte now and then, and each message 108 frames after it was
 * sent. The map tells of the frame that comes in, under 7 too, and is zeros for a lost one.
 */
static void cross(void)
{
    enum { FRAMES = 300 };
    uint8_t sender[YAXO_CROSS_MEMORY], receiver[YAXO_CROSS_MEMORY], held[YAXO_CROSS_MEMORY];
    uint8_t message[YAXO_CROSS_MESSAGE], word[YAXO_CROSS_WORD], out[YAXO_CROSS_MESSAGE], map[YAXO_CROSS_WORD];
    yaxo_ready at;
    yaxo_ready there;
    yaxo_cross_received got;
    unsigned marked = 0;

    EXPECT(yaxo_cross_fresh_sender(sender, 1511).answer == YAXO_LENGTH);
    at = yaxo_cross_fresh_sender(sender, sizeof sender);
    there = yaxo_cross_fresh_receiver(receiver, sizeof receiver, held, sizeof held);
    EXPECT(at.answer == YAXO_DONE && at.position == 0 && there.answer == YAXO_DONE && there.position == 0);
    for (unsigned f = 0; f < FRAMES; f++) {
        const bool lost = 120 <= f && f < 130;
        const bool struck = f % 50 == 25 && !lost;
        for (unsigned i = 0; i < sizeof message; i++) {
            message[i] = (uint8_t)(31 * f + i);
        }
        at = yaxo_cross_send(at.position, sender, sizeof sender, message, sizeof message, word, sizeof word);
        EXPECT(at.answer == YAXO_DONE && at.position == f + 1);
        if (lost) {
            memset(word, (int)f, sizeof word);
        }
        word[31] ^= struck;
        memset(out, 0xEE, sizeof out);
        memset(map, 0xEE, sizeof map);
        got = yaxo_cross_receive(there.position, receiver, sizeof receiver, held, sizeof held, word, sizeof word, out, sizeof out,
                                 map, sizeof map);
        there.position = got.position;
        for (unsigned i = 0; i < sizeof map; i++) {
            EXPECT(map[i] == (struck && i == 31));
        }
        if (f < YAXO_CROSS_DELAY) {
            EXPECT(got.answer == YAXO_NOT_YET && out[0] == 0xEE && out[23] == 0xEE);
            continue;
        }
        EXPECT(got.answer == YAXO_DONE && got.position == f + 1);
        for (unsigned i = 0; i < sizeof out; i++) {
            EXPECT(out[i] == (uint8_t)(31 * (f - YAXO_CROSS_DELAY) + i));
        }
        marked += got.figures.marked;
    }
    /* Each byte of a lost frame is marked in one outer word: ten frames of 28. */
    EXPECT(marked == 280);

    held[5] = 2;
    memset(map, 0xEE, sizeof map);
    got = yaxo_cross_receive(there.position, receiver, sizeof receiver, held, sizeof held, word, sizeof word, out, sizeof out,
                             map, sizeof map);
    EXPECT(got.answer == YAXO_SYMBOL && got.position == FRAMES);
    got = yaxo_cross_receive(there.position, receiver, sizeof receiver, held, sizeof held, word, sizeof word, out, sizeof out,
                             map, sizeof map - 1);
    EXPECT(got.answer == YAXO_LENGTH && got.position == FRAMES && map[0] == 0xEE && map[31] == 0xEE);
    EXPECT(yaxo_cross_send((size_t)-1, sender, sizeof sender, message, sizeof message, word, sizeof word).answer == YAXO_SETTING);
}

int main(void)
{
    words();
    block();
    line();
    frame();
    clean();
    record();
    replay();
    masts();
    cross();
    return failures == 0 ? 0 : 1;
}
