/* Calls each short form of the header and the full form beside it on the same input, accepted and refused, and compares
 * what they return and all that they were lent with each other and with what is due. Then the places and ranges of
 * samples, the limits of each field of a record, the parts of what is returned, and the words for them. Prints a line
 * for each fault, and exits 1 if there is one. It is C and C++. */
#include "faults.h"

#include <hpsdr.h>

#include <stdio.h>
#include <string.h>

#define MOST_BYTES (UINT64_C(1) << 48)

/* All that can be lent, and the numbers that are passed. */
struct desk {
    struct hpsdr_row row;
    struct hpsdr_status status;
    struct hpsdr_host host;
    struct hpsdr_builder builder;
    struct hpsdr_stream stream;
    struct hpsdr_samples samples;
    struct hpsdr_transfer transfer;
    uint8_t frame[512];
    uint8_t input[4608];
    int16_t audio[252];
    uint8_t piece[4097];
    uint8_t output[4096];
    size_t receivers, word, length;
};

static struct desk given, by_short, by_full;

/* ---- the forms; the numbers of the full ones are written out ---- */

static uint32_t short_row(struct desk *d) { return hpsdr_row_of(d->receivers, &d->row); }
static uint32_t full_row(struct desk *d) { return hpsdr_layout(d->receivers, &d->row, 3); }
static uint32_t short_status(struct desk *d) { return hpsdr_status_init(&d->status), 0; }
static uint32_t full_status(struct desk *d) { return hpsdr_status_fresh(&d->status, 26); }
static uint32_t short_read(struct desk *d) { return hpsdr_read(d->frame, d->receivers, &d->samples, &d->status); }
static uint32_t full_read(struct desk *d) {
    return hpsdr_radio_read(d->frame, 512, d->receivers, d->samples.iq, 160, d->samples.mic, 63, &d->status, 26);
}
static uint32_t short_transfer(struct desk *d) {
    return hpsdr_read_transfer(d->input, d->length, d->receivers, &d->transfer, &d->status);
}
static uint32_t full_transfer(struct desk *d) {
    return hpsdr_radio_read_transfer(d->input, d->length, d->receivers, d->transfer.iq, 1280, d->transfer.mic, 504,
                                     &d->status, 26);
}
static uint32_t short_write(struct desk *d) {
    return hpsdr_write(&d->status, d->word, d->receivers, &d->samples, d->frame);
}
static uint32_t full_write(struct desk *d) {
    return hpsdr_radio_write(&d->status, 26, d->word, d->receivers, d->samples.iq, 160, d->samples.mic, 63, d->frame,
                             512);
}
static uint32_t short_host(struct desk *d) { return hpsdr_host_init(&d->host), 0; }
static uint32_t full_host(struct desk *d) { return hpsdr_host_fresh(&d->host, 62); }
static uint32_t short_hear(struct desk *d) { return hpsdr_hear(d->frame, d->audio, &d->host); }
static uint32_t full_hear(struct desk *d) { return hpsdr_host_read(d->frame, 512, d->audio, 252, &d->host, 62); }
static uint32_t short_builder(struct desk *d) { return hpsdr_builder_init(&d->builder), 0; }
static uint32_t full_builder(struct desk *d) { return hpsdr_builder_fresh(&d->builder, 63); }
static uint32_t short_build(struct desk *d) { return hpsdr_build_next(&d->builder, d->audio, d->frame); }
static uint32_t full_build(struct desk *d) { return hpsdr_build(&d->builder, 63, d->audio, 252, d->frame, 512); }
static uint32_t short_stream(struct desk *d) { return hpsdr_stream_init(&d->stream), 0; }
static uint32_t full_stream(struct desk *d) { return hpsdr_stream_fresh(&d->stream.counts, 4, d->stream.held, 514); }
static uint32_t short_sound(struct desk *d) {
    return hpsdr_stream_is_sound(&d->stream) == 1 ? HPSDR_ACCEPTED : HPSDR_BAD_STATE;
}
static uint32_t full_sound(struct desk *d) { return hpsdr_stream_sound(&d->stream.counts, 4, d->stream.held, 514); }
static uint32_t short_feed(struct desk *d) { return hpsdr_feed(&d->stream, d->piece, d->length, d->output); }
static uint32_t full_feed(struct desk *d) {
    return hpsdr_stream_feed(&d->stream.counts, 4, d->stream.held, 514, d->piece, d->length, d->output, 4096);
}

struct form {
    const char *name;
    uint32_t (*in_short)(struct desk *), (*in_full)(struct desk *);
};
static const struct form row = {"row_of", short_row, full_row};
static const struct form status_init = {"status_init", short_status, full_status};
static const struct form radio_read = {"read", short_read, full_read};
static const struct form read_transfer = {"read_transfer", short_transfer, full_transfer};
static const struct form radio_write = {"write", short_write, full_write};
static const struct form host_init = {"host_init", short_host, full_host};
static const struct form hear = {"hear", short_hear, full_hear};
static const struct form builder_init = {"builder_init", short_builder, full_builder};
static const struct form build = {"build_next", short_build, full_build};
static const struct form stream_init = {"stream_init", short_stream, full_stream};
static const struct form sound = {"stream_is_sound", short_sound, full_sound};
static const struct form feed = {"feed", short_feed, full_feed};

/* Calls both forms on what is given. A refusal that finds nothing leaves all as it was. */
static void both_at(const struct form *form, enum hpsdr_answer answer, uint32_t found, uint32_t place, size_t number) {
    memcpy(&by_short, &given, sizeof given);
    memcpy(&by_full, &given, sizeof given);
    const uint32_t got = form->in_short(&by_short);
    check(hpsdr_answer_of(got) == answer, form->name, "the answer is another", number);
    check(hpsdr_found_in(got) == found, form->name, "what is found is another", number);
    check(hpsdr_place_in(got) == place, form->name, "the place is another", number);
    check(form->in_full(&by_full) == got, form->name, "the full form returns another", number);
    check(memcmp(&by_short, &by_full, sizeof given) == 0, form->name, "the full form leaves another", number);
    if (answer != HPSDR_ACCEPTED && found == 0)
        check(memcmp(&by_short, &given, sizeof given) == 0, form->name, "a refusal leaves a change", number);
}

/* The answers that have no place. */
static void both(const struct form *form, enum hpsdr_answer answer, uint32_t found, size_t number) {
    both_at(form, answer, found, 0, number);
}

static void refuse(const struct form *form, enum hpsdr_answer answer, size_t number) { both(form, answer, 0, number); }

static void refuse_at(const struct form *form, enum hpsdr_answer answer, uint32_t place, size_t number) {
    both_at(form, answer, 0, place, number);
}

/* Noise, but for fresh records, I and Q that fit, and a frame of sync and zeros; one receiver. */
static void set_out(void) {
    uint8_t *bytes = (uint8_t *)&given;
    for (size_t at = 0; at < sizeof given; at++)
        bytes[at] = (uint8_t)(at * 31 + at / 256 + 7);
    memset(&given.status, 0, sizeof given.status);
    given.status.io1 = given.status.io2 = given.status.io3 = given.status.io4 = 1;
    memset(&given.host, 0, sizeof given.host);
    given.host.receivers = 1;
    memset(&given.builder, 0, sizeof given.builder);
    given.builder.host.receivers = 1;
    memset(&given.stream.counts, 0, sizeof given.stream.counts);
    memset(given.stream.held, 0, sizeof given.stream.held);
    for (size_t at = 0; at < 160; at++)
        given.samples.iq[at] = (int32_t)at * 100003 - 8000000;
    memset(given.frame, 0, sizeof given.frame);
    memset(given.frame, 0x7F, 3);
    given.receivers = 1;
    given.word = 0;
    given.length = 0;
}

/* ---- each form on accepted and refused input ---- */

static void test_row(void) {
    static const uint32_t rows[8][3] = {{8, 63, 0},   {14, 36, 0},  {20, 25, 4},  {26, 19, 10},
                                        {32, 15, 24}, {38, 13, 10}, {44, 11, 20}, {50, 10, 4}};
    set_out();
    for (size_t n = 1; n <= 8; n++) {
        given.receivers = n;
        both(&row, HPSDR_ACCEPTED, 0, n);
        check(memcmp(&by_short.row, rows[n - 1], sizeof rows[0]) == 0, "row_of", "the row is another", n);
    }
    static const size_t wrong[] = {0, 9, SIZE_MAX};
    for (size_t at = 0; at < 3; at++) {
        given.receivers = wrong[at];
        refuse(&row, HPSDR_BAD_COUNT, wrong[at]);
        refuse(&radio_read, HPSDR_BAD_COUNT, wrong[at]);
        refuse(&read_transfer, HPSDR_BAD_COUNT, wrong[at]);
        refuse(&radio_write, HPSDR_BAD_COUNT, wrong[at]);
    }
}

/* Over records of noise. */
static void test_inits(void) {
    set_out();
    const struct desk fresh = given;
    memset(&given.status, 0xFF, sizeof given.status);
    memset(&given.host, 0xFF, sizeof given.host);
    memset(&given.builder, 0xFF, sizeof given.builder);
    memset(&given.stream.counts, 0xFF, sizeof given.stream.counts);
    memset(given.stream.held, 0xFF, sizeof given.stream.held);
    both(&status_init, HPSDR_ACCEPTED, 0, 0);
    check(memcmp(&by_short.status, &fresh.status, sizeof fresh.status) == 0, "status_init", "the record is another", 0);
    both(&host_init, HPSDR_ACCEPTED, 0, 0);
    check(memcmp(&by_short.host, &fresh.host, sizeof fresh.host) == 0, "host_init", "the record is another", 0);
    both(&builder_init, HPSDR_ACCEPTED, 0, 0);
    check(memcmp(&by_short.builder, &fresh.builder, sizeof fresh.builder) == 0, "builder_init",
          "the record is another", 0);
    refuse(&sound, HPSDR_BAD_STATE, 0);
    both(&stream_init, HPSDR_ACCEPTED, 0, 0);
    check(memcmp(&by_short.stream.counts, &fresh.stream.counts, sizeof fresh.stream.counts) == 0, "stream_init",
          "the counts are others", 0);
    check(memcmp(by_short.stream.held, fresh.stream.held, sizeof fresh.stream.held) == 0, "stream_init",
          "the held bytes are others", 0);
}

static void test_read(void) {
    for (size_t n = 1; n <= 8; n++) {
        set_out();
        given.receivers = n;
        for (uint32_t address = 0; address < 32; address++) {
            given.frame[3] = (uint8_t)(address << 3 | 5);
            given.frame[4] = address < 1 || address > 3 ? 0xFF : 0x0F;
            both(&radio_read, HPSDR_ACCEPTED, address, n);
            check(by_short.status.dot == 1 && by_short.status.dash == 0 && by_short.status.ptt == 1, "read",
                  "the keys are others", n);
        }
        given.frame[511] = 1;
        both_at(&radio_read, n < 3 ? HPSDR_ACCEPTED : HPSDR_PADDING, n < 3 ? 31 : 0, n < 3 ? 0 : 511, n);
        given.frame[2] = 0x7E;
        refuse_at(&radio_read, HPSDR_NO_SYNC, 2, n);
        given.status.pll = 2;
        refuse(&radio_read, HPSDR_BAD_STATE, n);
    }
}

/* Words 1 to 3 with a level above 4,095 in C1 and C2, with one in C3 and C4, and with both. */
static void test_read_levels(void) {
    static const uint32_t causes[3][2] = {{HPSDR_CAUSE_AIN5, HPSDR_CAUSE_AIN1},
                                          {HPSDR_CAUSE_AIN2, HPSDR_CAUSE_AIN3},
                                          {HPSDR_CAUSE_AIN4, HPSDR_CAUSE_AIN6}};
    set_out();
    for (size_t word = 1; word <= 3; word++) {
        given.frame[3] = (uint8_t)(word << 3 | 7);
        given.frame[4] = 0x10;
        given.frame[6] = 0x0F;
        refuse_at(&radio_read, HPSDR_RESERVED, causes[word - 1][0], word);
        given.frame[6] = 0x9C;
        refuse_at(&radio_read, HPSDR_RESERVED, causes[word - 1][0], word);
        given.frame[4] = 0x0F;
        refuse_at(&radio_read, HPSDR_RESERVED, causes[word - 1][1], word);
    }
}

/* Eight frames, each with word 1 and an AIN5 of its own; then one of them without a byte of sync, or with one of its
 * levels above 4,095. */
static void test_transfer(void) {
    set_out();
    for (size_t k = 0; k < 8; k++) {
        memcpy(given.input + 512 * k, given.frame, 512);
        given.input[512 * k + 3] = 1 << 3;
        given.input[512 * k + 5] = (uint8_t)(k + 1);
    }
    for (uint32_t frames = 1; frames <= 8; frames++) {
        given.length = 512 * frames;
        both(&read_transfer, HPSDR_ACCEPTED, frames, frames);
        check(by_short.status.ain5 == frames, "read_transfer", "the record is another", frames);
    }
    for (uint32_t frames = 0; frames < 8; frames++) {
        const uint32_t place = frames % 3;
        given.input[512 * frames + place] = 0x7E;
        both_at(&read_transfer, HPSDR_NO_SYNC, frames, place, frames);
        check(by_short.status.ain5 == frames, "read_transfer", "the record is not that of the frames before", frames);
        given.input[512 * frames + place] = 0x7F;
        given.input[512 * frames + 6] = 0x10;
        both_at(&read_transfer, HPSDR_RESERVED, frames, HPSDR_CAUSE_AIN1, frames);
        check(by_short.status.ain5 == frames, "read_transfer", "the record is not that of the frames before", frames);
        given.input[512 * frames + 6] = 0;
    }
    static const size_t wrong[] = {0, 511, 513, 4095, 4097, 4608};
    for (size_t at = 0; at < sizeof wrong / sizeof *wrong; at++) {
        given.length = wrong[at];
        refuse(&read_transfer, HPSDR_LENGTH, wrong[at]);
    }
}

/* Writes the samples that are given, and reads them again over zeros. */
static void write_and_read(void) {
    const size_t n = given.receivers, slots = 504 / (6 * n + 2);
    const struct hpsdr_samples sent = given.samples;
    given.status.ptt = 1;
    both(&radio_write, HPSDR_ACCEPTED, 0, n);
    given.status.ptt = 0;
    memcpy(given.frame, by_short.frame, 512);
    memset(&given.samples, 0, sizeof given.samples);
    both(&radio_read, HPSDR_ACCEPTED, (uint32_t)given.word, n);
    check(memcmp(by_short.samples.iq, sent.iq, 2 * n * slots * sizeof(int32_t)) == 0, "write", "I and Q are lost", n);
    check(memcmp(by_short.samples.mic, sent.mic, slots * sizeof(int16_t)) == 0, "write", "the microphone is lost", n);
    check(by_short.status.ptt == 1, "write", "PTT is lost", n);
    given.samples = sent;
}

static void test_write(void) {
    set_out();
    for (given.receivers = 1; given.receivers <= 8; given.receivers++)
        for (given.word = 0; given.word <= 4; given.word++)
            write_and_read();
    given.receivers = 8;
    given.word = 5;
    refuse(&radio_write, HPSDR_RANGE, 5);
    given.word = SIZE_MAX;
    refuse(&radio_write, HPSDR_RANGE, SIZE_MAX);
}

static void test_hear_and_build(void) {
    int16_t sent[252];
    set_out();
    memcpy(sent, given.audio, sizeof sent);
    given.builder.host.mox = 1;
    for (uint32_t turn = 0; turn <= 10; turn++) {
        given.builder.turn = turn;
        both(&build, HPSDR_ACCEPTED, 0, turn);
        check(by_short.builder.turn == (turn == 10 ? 0 : turn + 1), "build_next", "the turn is another", turn);
        memcpy(given.frame, by_short.frame, 512);
        memset(given.audio, 0, sizeof sent);
        both(&hear, HPSDR_ACCEPTED, turn, turn);
        check(by_short.host.mox == 1, "hear", "MOX is lost", turn);
        check(memcmp(by_short.audio, sent, sizeof sent) == 0, "hear", "the audio is another", turn);
        memcpy(given.audio, sent, sizeof sent);
    }
    given.frame[3] = 127 << 1;
    both(&hear, HPSDR_ACCEPTED, 127, 127);
    given.frame[3] = 10 << 1;
    given.frame[4] = 0x80;
    refuse_at(&hear, HPSDR_RESERVED, HPSDR_CAUSE_WORD10_C1_BIT7, 10);
    given.frame[1] = 0;
    refuse_at(&hear, HPSDR_NO_SYNC, 1, 10);
    given.host.mox = 2;
    refuse(&hear, HPSDR_BAD_STATE, 0);
}

static void test_stream(void) {
    static const size_t lengths[] = {0, 1, 514, 515, 4096};
    static const uint32_t found[] = {0, 0, 0, 1, 7};
    set_out();
    for (size_t place = 0; place < 4097; place++)
        given.piece[place] = place % 512 < 3 ? 0x7F : (uint8_t)(place / 512);
    for (size_t at = 0; at < 5; at++) {
        given.length = lengths[at];
        both(&feed, HPSDR_ACCEPTED, found[at], lengths[at]);
        check(memcmp(by_short.output, given.piece, 512 * found[at]) == 0, "feed", "the frames are others", lengths[at]);
        check(memcmp(by_short.stream.held, given.piece + 512 * found[at], lengths[at] - 512 * found[at]) == 0, "feed",
              "the held bytes are others", lengths[at]);
        both(&sound, HPSDR_ACCEPTED, 0, lengths[at]);
    }
    given.length = 4097;
    refuse(&feed, HPSDR_LENGTH, 4097);
    given.length = 1;
    given.stream.counts.skipped = given.stream.counts.total = MOST_BYTES;
    both(&sound, HPSDR_ACCEPTED, 0, 0);
    refuse(&feed, HPSDR_STREAM_FULL, 0);
    given.stream.held[513] = 1;
    refuse(&sound, HPSDR_BAD_STATE, 513);
    refuse(&feed, HPSDR_BAD_STATE, 513);
    given.stream.held[513] = 0;
    given.stream.counts.held = 1;
    refuse(&sound, HPSDR_BAD_STATE, 1);
    refuse(&feed, HPSDR_BAD_STATE, 1);
}

/* ---- samples ---- */

/* In frame k receiver r's I in slot t has the bytes r + 1, t, 10 + k, its Q 80 more, t, 20 + k, and the slot's
 * microphone value t, 30 + k. */
static void draw_slots(uint8_t *frame, size_t n, size_t k) {
    uint8_t *place = frame + 8;
    for (size_t t = 0; t < 504 / (6 * n + 2); t++) {
        for (size_t r = 0; r < n; r++, place += 6) {
            const uint8_t pair[] = {(uint8_t)(r + 1),    (uint8_t)t, (uint8_t)(0x10 + k),
                                    (uint8_t)(r + 0x81), (uint8_t)t, (uint8_t)(0x20 + k)};
            memcpy(place, pair, 6);
        }
        *place++ = (uint8_t)t;
        *place++ = (uint8_t)(0x30 + k);
    }
}
static int32_t drawn_i(size_t r, size_t t, size_t k) { return (int32_t)(65536 * (r + 1) + 256 * t + 0x10 + k); }
static int32_t drawn_q(size_t r, size_t t, size_t k) { return drawn_i(r, t, k) + 0x10 - 8388608; }
static int16_t drawn_mic(size_t t, size_t k) { return (int16_t)(256 * t + 0x30 + k); }

/* Of an array of so many bytes those after its values. */
static void check_rest(const char *name, const void *left, const void *was, size_t values, size_t bytes, size_t n) {
    check(memcmp((const uint8_t *)left + values, (const uint8_t *)was + values, bytes - values) == 0, name,
          "what stands after the values is changed", n);
}

static void test_places(size_t n) {
    set_out();
    given.receivers = n;
    draw_slots(given.frame, n, 0);
    both(&radio_read, HPSDR_ACCEPTED, 0, n);
    const size_t slots = 504 / (6 * n + 2);
    const struct hpsdr_samples *samples = &by_short.samples;
    for (size_t t = 0; t < slots; t++) {
        for (size_t r = 0; r < n; r++) {
            const int32_t i = drawn_i(r, t, 0), q = drawn_q(r, t, 0);
            check(hpsdr_i(samples, n, r, t) == i && samples->iq[2 * (t * n + r)] == i, "I", "it is another", r);
            check(hpsdr_q(samples, n, r, t) == q && samples->iq[2 * (t * n + r) + 1] == q, "Q", "it is another", r);
        }
        check(samples->mic[t] == drawn_mic(t, 0), "microphone", "it is another", t);
    }
    check_rest("iq", samples->iq, given.samples.iq, 2 * n * slots * sizeof(int32_t), sizeof samples->iq, n);
    check_rest("mic", samples->mic, given.samples.mic, slots * sizeof(int16_t), sizeof samples->mic, n);
}

/* Slot t of frame k is slot k * slots + t of the transfer. */
static void check_transfer_slot(const struct hpsdr_transfer *transfer, size_t n, size_t k, size_t t) {
    const size_t slot = k * (504 / (6 * n + 2)) + t;
    for (size_t r = 0; r < n; r++) {
        const int32_t i = drawn_i(r, t, k), q = drawn_q(r, t, k);
        check(hpsdr_transfer_i(transfer, n, r, slot) == i && transfer->iq[2 * (slot * n + r)] == i, "transfer's I",
              "it is another", slot);
        check(hpsdr_transfer_q(transfer, n, r, slot) == q && transfer->iq[2 * (slot * n + r) + 1] == q,
              "transfer's Q", "it is another", slot);
    }
    check(transfer->mic[slot] == drawn_mic(t, k), "transfer's microphone", "it is another", slot);
}

static void test_transfer_places(size_t n) {
    const size_t slots = 504 / (6 * n + 2);
    set_out();
    given.receivers = n;
    given.length = 4096;
    for (size_t k = 0; k < 8; k++) {
        memcpy(given.input + 512 * k, given.frame, 512);
        draw_slots(given.input + 512 * k, n, k);
    }
    both(&read_transfer, HPSDR_ACCEPTED, 8, n);
    const struct hpsdr_transfer *left = &by_short.transfer;
    for (size_t k = 0; k < 8; k++)
        for (size_t t = 0; t < slots; t++)
            check_transfer_slot(left, n, k, t);
    check_rest("iq", left->iq, given.transfer.iq, 8 * 2 * n * slots * sizeof(int32_t), sizeof left->iq, n);
    check_rest("mic", left->mic, given.transfer.mic, 8 * slots * sizeof(int16_t), sizeof left->mic, n);
}

/* The ends of the ranges come back, and one past an end is RANGE, in each value of the frame and not after them. */
static void test_sample_range(size_t n) {
    const size_t values = 2 * n * (504 / (6 * n + 2));
    set_out();
    given.receivers = n;
    for (size_t at = 0; at < 160; at++)
        given.samples.iq[at] = at < values ? (at % 2 ? -8388608 : 8388607) : INT32_MAX;
    for (size_t at = 0; at < 63; at++)
        given.samples.mic[at] = at % 2 ? -32768 : 32767;
    write_and_read();
    for (size_t at = 0; at < values; at++) {
        given.samples.iq[at] += at % 2 ? -1 : 1;
        refuse(&radio_write, HPSDR_RANGE, at);
        given.samples.iq[at] -= at % 2 ? -1 : 1;
    }
}

/* A wrong number of receivers: the frame of three has zeros in its last four bytes, where eight have their padding, and
 * samples where four to seven have some of theirs: from the first byte of it on. */
static void test_wrong_count(void) {
    static const enum hpsdr_answer due[] = {HPSDR_ACCEPTED, HPSDR_ACCEPTED, HPSDR_ACCEPTED, HPSDR_PADDING,
                                            HPSDR_PADDING,  HPSDR_PADDING,  HPSDR_PADDING,  HPSDR_ACCEPTED};
    static const uint32_t places[] = {0, 0, 0, 512 - 10, 512 - 24, 512 - 10, 512 - 20, 0};
    set_out();
    memset(given.frame + 8, 0x11, 500);
    for (size_t n = 1; n <= 8; n++) {
        given.receivers = n;
        both_at(&radio_read, due[n - 1], 0, places[n - 1], n);
    }
}

/* ---- the plain reader, which returns 64 bits and takes more than the desk has ---- */

static uint8_t recorded[65537], untouched[65537], output_by_short[65537], output_by_full[65537];

/* Frames one after another, without the first bytes. No two are alike. */
static void record_without(size_t bytes) {
    for (size_t place = 0; place < sizeof recorded; place++)
        recorded[place] = (place + bytes) % 512 < 3 ? 0x7F : (uint8_t)(0x80 + (place + bytes) / 512);
}

/* Calls both forms on the first so many bytes that are recorded. The frames begin behind those skipped. */
static void both_at_once(size_t length, const struct hpsdr_plain *due) {
    memset(untouched, 0xEE, sizeof untouched);
    memcpy(output_by_short, untouched, sizeof untouched);
    memcpy(output_by_full, untouched, sizeof untouched);
    const struct hpsdr_plain plain = hpsdr_read_at_once(recorded, length, output_by_short);
    const uint64_t returned = hpsdr_plain_read(recorded, length, output_by_full, length);
    check(plain.got == due->got, "read_at_once", "what is got is another", length);
    check(plain.frames == due->frames, "read_at_once", "the number of frames is another", length);
    check(plain.skipped == due->skipped, "read_at_once", "skipped is another", length);
    check(plain.left == due->left, "read_at_once", "left is another", length);
    check(returned == (due->got | (uint64_t)due->skipped << 32 | (uint64_t)due->left << 48), "read_at_once",
          "the full form returns another", length);
    check(memcmp(output_by_short, recorded + due->skipped, 512 * due->frames) == 0, "read_at_once",
          "the frames are others", length);
    check_rest("read_at_once", output_by_short, untouched, 512 * due->frames, sizeof untouched, length);
    check(memcmp(output_by_short, output_by_full, sizeof output_by_full) == 0, "read_at_once",
          "the full form leaves another", length);
}

/* Where the first bytes are missing, so is the first frame, and what remains of it is skipped. */
static void test_at_once(void) {
    static const struct {
        size_t without, length;
        struct hpsdr_plain due;
    } cases[] = {{0, 0, {0, 0, 0, 0}},
                 {0, 514, {0, 0, 0, 514}},
                 {0, 515, {1 << 8, 1, 0, 3}},
                 {0, 1026, {1 << 8, 1, 0, 514}},
                 {0, 1027, {2 << 8, 2, 0, 3}},
                 {0, 65536, {127 << 8, 127, 0, 512}},
                 {1, 4096, {6 << 8, 6, 511, 513}},
                 {3, 65533, {126 << 8, 126, 509, 512}},
                 {0, 65537, {HPSDR_LENGTH, 0, 0, 0}}};
    for (size_t at = 0; at < sizeof cases / sizeof *cases; at++) {
        record_without(cases[at].without);
        both_at_once(cases[at].length, &cases[at].due);
    }
}

/* ---- the reasons, of the same bytes ---- */

/* Calls both forms on a place of the first so many bytes that are recorded. */
static void both_explain(size_t length, size_t place, const struct hpsdr_why *due) {
    const struct hpsdr_why why = hpsdr_explain(recorded, length, place);
    const uint64_t returned = hpsdr_why_byte(recorded, length, place);
    check(why.got == due->got, "explain", "what is got is another", place);
    check(why.reason == due->reason, "explain", "the reason is another", place);
    check(why.start == due->start, "explain", "the frame's start is another", place);
    check(why.byte == due->byte, "explain", "the byte of the sync is another", place);
    check(returned == (due->got | (uint64_t)(due->start + due->byte) << 32), "explain", "the full form returns another",
          place);
}

/* Without the first byte two of the first sync remain, and the first frame begins at 511. The byte at `wrong` is 0: of
 * the sync at 512, which is the far one of place 0 and the near one of place 512, or, at 65,536, of none. */
static void test_explain(void) {
    static const struct {
        size_t without, wrong, length, place;
        struct hpsdr_why due;
    } cases[] = {{0, 65536, 515, 0, {HPSDR_INSIDE << 8, HPSDR_INSIDE, 0, 0}},
                 {0, 65536, 515, 511, {HPSDR_INSIDE << 8, HPSDR_INSIDE, 0, 0}},
                 {0, 65536, 515, 512, {HPSDR_STILL_HELD << 8, HPSDR_STILL_HELD, 0, 0}},
                 {0, 65536, 65536, 64512, {HPSDR_INSIDE << 8, HPSDR_INSIDE, 64512, 0}},
                 {0, 65536, 65536, 65023, {HPSDR_INSIDE << 8, HPSDR_INSIDE, 64512, 0}},
                 {0, 65536, 65536, 65024, {HPSDR_STILL_HELD << 8, HPSDR_STILL_HELD, 0, 0}},
                 {0, 65536, 65536, 65535, {HPSDR_STILL_HELD << 8, HPSDR_STILL_HELD, 0, 0}},
                 {1, 65536, 4096, 0, {HPSDR_NEAR_SYNC << 8, HPSDR_NEAR_SYNC, 0, 2}},
                 {1, 65536, 4096, 1, {HPSDR_NEAR_SYNC << 8, HPSDR_NEAR_SYNC, 0, 1}},
                 {1, 65536, 4096, 2, {HPSDR_NEAR_SYNC << 8, HPSDR_NEAR_SYNC, 0, 0}},
                 {1, 65536, 4096, 511, {HPSDR_INSIDE << 8, HPSDR_INSIDE, 511, 0}},
                 {0, 512, 1539, 0, {HPSDR_FAR_SYNC << 8, HPSDR_FAR_SYNC, 0, 0}},
                 {0, 513, 1539, 0, {HPSDR_FAR_SYNC << 8, HPSDR_FAR_SYNC, 0, 1}},
                 {0, 514, 1539, 0, {HPSDR_FAR_SYNC << 8, HPSDR_FAR_SYNC, 0, 2}},
                 {0, 514, 1539, 512, {HPSDR_NEAR_SYNC << 8, HPSDR_NEAR_SYNC, 0, 2}},
                 {0, 514, 1539, 1535, {HPSDR_INSIDE << 8, HPSDR_INSIDE, 1024, 0}},
                 {0, 514, 1538, 1024, {HPSDR_STILL_HELD << 8, HPSDR_STILL_HELD, 0, 0}},
                 {0, 65536, 515, 515, {HPSDR_RANGE, HPSDR_NOT_GIVEN, 0, 0}},
                 {0, 65536, 0, 0, {HPSDR_RANGE, HPSDR_NOT_GIVEN, 0, 0}},
                 {0, 65536, 65536, SIZE_MAX, {HPSDR_RANGE, HPSDR_NOT_GIVEN, 0, 0}},
                 {0, 65536, 65537, 0, {HPSDR_LENGTH, HPSDR_NOT_GIVEN, 0, 0}},
                 {0, 65536, 65537, 65537, {HPSDR_LENGTH, HPSDR_NOT_GIVEN, 0, 0}}};
    for (size_t at = 0; at < sizeof cases / sizeof *cases; at++) {
        record_without(cases[at].without);
        recorded[cases[at].wrong] = 0;
        memcpy(untouched, recorded, sizeof recorded);
        both_explain(cases[at].length, cases[at].place, &cases[at].due);
        check(memcmp(recorded, untouched, sizeof recorded) == 0, "explain", "the input is changed", at);
    }
}

/* ---- the limits of each field ---- */

enum { ANY = -1 };

struct field {
    const char *name;
    size_t place;
    int32_t cell, frame; /* the most that the cell holds, and a frame */
};

#define FIELD(member, cell, frame) {#member, offsetof(struct hpsdr_status, member), cell, frame}
#define FLAG(member) FIELD(member, 1, 1)
static const struct field status_fields[] = {
    FLAG(dot), FLAG(dash), FLAG(ptt), FLAG(adc1), FLAG(adc2), FLAG(adc3), FLAG(adc4), FLAG(io1), FLAG(io2), FLAG(io3),
    FLAG(io4), FLAG(pll), FLAG(toggle), FIELD(mercury, 255, 255), FIELD(penelope, 255, 255), FIELD(main, 255, 255),
    FIELD(ain5, 65535, 4095), FIELD(ain1, 65535, 4095), FIELD(ain2, 65535, 4095), FIELD(ain3, 65535, 4095),
    FIELD(ain4, 65535, 4095), FIELD(ain6, 65535, 4095), FIELD(board1, 255, 127), FIELD(board2, 255, 127),
    FIELD(board3, 255, 127), FIELD(board4, 255, 127)};
#undef FIELD
#define FIELD(member, cell, frame) {#member, offsetof(struct hpsdr_host, member), cell, frame}
static const struct field host_fields[] = {
    FLAG(mox), FIELD(speed, HPSDR_384_KHZ, 3), FIELD(source10, HPSDR_10_MERCURY, 2),
    FIELD(source122, HPSDR_122_MERCURY, 1), FIELD(boards, HPSDR_BOTH_BOARDS, 3),
    FIELD(microphone, HPSDR_MICROPHONE_PENELOPE, 1), FLAG(class_e), FIELD(outputs, 255, 127),
    FIELD(attenuator, HPSDR_30_DB, 3), FLAG(preamp), FLAG(dither), FLAG(random), FIELD(antenna, HPSDR_ANTENNA_XV, 3),
    FLAG(rx_out), FIELD(relay, HPSDR_TX3, 2), FLAG(duplex), FIELD(receivers, 255, 8), FLAG(time_stamp),
    FLAG(common_frequency), FIELD(transmitter, ANY, ANY), FIELD(frequencies[0], ANY, ANY),
    FIELD(frequencies[1], ANY, ANY), FIELD(frequencies[2], ANY, ANY), FIELD(frequencies[3], ANY, ANY),
    FIELD(frequencies[4], ANY, ANY), FIELD(frequencies[5], ANY, ANY), FIELD(frequencies[6], ANY, ANY),
    FIELD(drive, 255, 255), FLAG(mic_boost), FLAG(line_in), FLAG(apollo_filter), FLAG(apollo_tuner), FLAG(auto_tune),
    FLAG(filter_board), FLAG(manual_filters), FLAG(vna), FLAG(high_pass_13), FLAG(high_pass_20), FLAG(high_pass_9_5),
    FLAG(high_pass_6_5), FLAG(high_pass_1_5), FLAG(bypass), FLAG(amplifier_6m), FLAG(tr_disabled),
    FLAG(low_pass_30_20), FLAG(low_pass_60_40), FLAG(low_pass_80), FLAG(low_pass_160), FLAG(low_pass_6),
    FLAG(low_pass_12_10), FLAG(low_pass_17_15), FLAG(rx_preamps[0]), FLAG(rx_preamps[1]), FLAG(rx_preamps[2]),
    FLAG(rx_preamps[3]), FIELD(orion_jack, HPSDR_PTT_TO_TIP, 1), FLAG(mic_bias), FLAG(mic_ptt_disabled),
    FIELD(line_in_gain, 255, 31), FIELD(word10_c2_top, 255, 7), FIELD(word10_c3, 255, 255),
    FIELD(word10_c4, 255, 255)};

static void put(void *record, const struct field *field, uint32_t value) {
    memcpy((uint8_t *)record + field->place, &value, sizeof value);
}

static uint32_t get(const void *record, const struct field *field) {
    uint32_t value;
    memcpy(&value, (const uint8_t *)record + field->place, sizeof value);
    return value;
}

/* A value that the cell holds: a reader of an unlisted word keeps it, and a writer says RANGE if it is above what the
 * frame has, whichever word it writes. */
static void status_holds(const struct field *field, uint32_t value) {
    put(&given.status, field, value);
    both(&radio_read, HPSDR_ACCEPTED, 31, value);
    check(get(&by_short.status, field) == value, field->name, "a reader does not keep it", value);
    for (given.word = 0; given.word <= 4; given.word++)
        both(&radio_write, value <= (uint32_t)field->frame ? HPSDR_ACCEPTED : HPSDR_RANGE, 0, value);
}

static void status_lacks(const struct field *field, uint32_t value) {
    put(&given.status, field, value);
    given.word = 5;
    refuse(&radio_read, HPSDR_BAD_STATE, value);
    refuse(&read_transfer, HPSDR_BAD_STATE, value);
    refuse(&radio_write, HPSDR_BAD_STATE, value);
}

static void test_status_fields(void) {
    for (size_t at = 0; at < 26; at++) {
        const struct field *field = &status_fields[at];
        check(field->place == 4 * at, field->name, "the field is not at this place", at);
        set_out();
        given.frame[3] = 31 << 3 | 7;
        status_holds(field, (uint32_t)field->frame);
        status_holds(field, (uint32_t)field->cell);
        if (field->frame < field->cell)
            status_holds(field, (uint32_t)field->frame + 1);
        status_lacks(field, (uint32_t)field->cell + 1);
        status_lacks(field, UINT32_MAX);
    }
}

/* The same for a host record, with the answer that is due for it from a build. */
static void host_holds(const struct field *field, uint32_t value, enum hpsdr_answer due) {
    put(&given.host, field, value);
    put(&given.builder.host, field, value);
    both(&hear, HPSDR_ACCEPTED, 127, value);
    check(get(&by_short.host, field) == value, field->name, "a reader does not keep it", value);
    for (given.builder.turn = 0; given.builder.turn <= 10; given.builder.turn++)
        both(&build, due, 0, value);
}

static void host_lacks(const struct field *field, uint32_t value) {
    put(&given.host, field, value);
    put(&given.builder.host, field, value);
    given.builder.turn = 0;
    refuse(&hear, HPSDR_BAD_STATE, value);
    refuse(&build, HPSDR_BAD_STATE, value);
}

static void test_host_fields(void) {
    for (size_t at = 0; at < 62; at++) {
        const struct field *field = &host_fields[at];
        check(field->place == 4 * at, field->name, "the field is not at this place", at);
        set_out();
        given.frame[3] = 127 << 1 | 1;
        host_holds(field, (uint32_t)field->frame, HPSDR_ACCEPTED);
        if (field->cell == ANY)
            continue;
        if (field->frame < field->cell) {
            host_holds(field, (uint32_t)field->frame + 1, HPSDR_RANGE);
            host_holds(field, (uint32_t)field->cell, HPSDR_RANGE);
        }
        host_lacks(field, (uint32_t)field->cell + 1);
        host_lacks(field, UINT32_MAX);
    }
}

static void test_least_receivers_and_turns(void) {
    set_out();
    given.host.receivers = given.builder.host.receivers = 0;
    refuse(&build, HPSDR_RANGE, 0);
    given.frame[3] = 127 << 1;
    both(&hear, HPSDR_ACCEPTED, 127, 0);
    check(by_short.host.receivers == 0, "hear", "0 receivers are not kept", 0);
    static const uint32_t turns[] = {11, 255, 256, UINT32_MAX};
    for (size_t at = 0; at < 4; at++) {
        given.builder.turn = turns[at];
        refuse(&build, HPSDR_BAD_STATE, turns[at]);
    }
}

/* ---- what is returned, and the words for it ---- */

static void test_parts(void) {
    static const struct {
        uint32_t got;
        enum hpsdr_answer answer;
        uint32_t found, place;
    } parts[] = {{0x00000000, HPSDR_ACCEPTED, 0, 0},   {0x00007F00, HPSDR_ACCEPTED, 127, 0},
                 {0x0000FF00, HPSDR_ACCEPTED, 255, 0}, {0x00000009, HPSDR_RANGE, 0, 0},
                 {0x00000006, HPSDR_NO_SYNC, 0, 0},    {0x00020706, HPSDR_NO_SYNC, 7, 2},
                 {0x01E80007, HPSDR_PADDING, 0, 488},  {0x01FD0307, HPSDR_PADDING, 3, 509},
                 {0x00040008, HPSDR_RESERVED, 0, 4},   {0x000A0708, HPSDR_RESERVED, 7, 10},
                 {0xFFFF0008, HPSDR_RESERVED, 0, 65535}};
    for (size_t at = 0; at < sizeof parts / sizeof *parts; at++) {
        check(hpsdr_answer_of(parts[at].got) == parts[at].answer, "answer_of", "another answer", at);
        check(hpsdr_found_in(parts[at].got) == parts[at].found, "found_in", "another number", at);
        check(hpsdr_place_in(parts[at].got) == parts[at].place, "place_in", "another place", at);
    }
}

static void test_parts_of_a_plain_reading(void) {
    static const struct {
        uint64_t returned;
        struct hpsdr_plain plain;
    } parts[] = {{0, {0, 0, 0, 0}},
                 {3, {3, 0, 0, 0}},
                 {UINT64_C(0x0202FDFE00007F00), {0x7F00, 127, 65022, 514}},
                 {UINT64_C(0x0001000200030405), {0x00030405, 4, 2, 1}},
                 {UINT64_MAX, {UINT32_MAX, 255, 65535, 65535}}};
    for (size_t at = 0; at < sizeof parts / sizeof *parts; at++) {
        const struct hpsdr_plain plain = hpsdr_plain_of(parts[at].returned);
        check(memcmp(&plain, &parts[at].plain, sizeof plain) == 0, "plain_of", "a part is another", at);
    }
}

static void test_parts_of_a_reason(void) {
    static const struct {
        uint64_t returned;
        struct hpsdr_why why;
    } parts[] = {{0, {0, 0, 0, 0}},
                 {HPSDR_LENGTH, {3, 0, 0, 0}},
                 {HPSDR_RANGE, {9, 0, 0, 0}},
                 {UINT64_C(0x0000000000000100), {0x0100, HPSDR_INSIDE, 0, 0}},
                 {UINT64_C(0x0000FDFD00000100), {0x0100, HPSDR_INSIDE, 65021, 0}},
                 {UINT64_C(0xFFFFFFFF00000100), {0x0100, HPSDR_INSIDE, UINT32_MAX, 0}},
                 {UINT64_C(0x0000000000000200), {0x0200, HPSDR_NEAR_SYNC, 0, 0}},
                 {UINT64_C(0x0000000200000200), {0x0200, HPSDR_NEAR_SYNC, 0, 2}},
                 {UINT64_C(0x0000000100000300), {0x0300, HPSDR_FAR_SYNC, 0, 1}},
                 {UINT64_C(0x0000000000000400), {0x0400, HPSDR_STILL_HELD, 0, 0}},
                 {UINT64_C(0x0000000700000400), {0x0400, HPSDR_STILL_HELD, 0, 0}},
                 {UINT64_MAX, {UINT32_MAX, 255, 0, 0}}};
    for (size_t at = 0; at < sizeof parts / sizeof *parts; at++) {
        const struct hpsdr_why why = hpsdr_why_of(parts[at].returned);
        check(memcmp(&why, &parts[at].why, sizeof why) == 0, "why_of", "a part is another", at);
    }
}

static void test_words(void) {
    static const struct {
        uint32_t answer;
        const char *name, *sentence;
    } words[] = {{0, "ACCEPTED", "the call did its work"},
                 {1, "BAD_STATE", "the stream record is unsound, the turn is above 10, or cells hold no record"},
                 {2, "BAD_COUNT", "the receiver count is not 1 to 8"},
                 {3, "LENGTH",
                  "the frame is not 512 bytes, the transfer is not 1 to 8 times 512, the piece is above 4,096, "
                  "or the input is above 65,536"},
                 {4, "SHORT_BUFFER",
                  "a sample slice is shorter than needed, a stream's output is under 4,096 bytes, "
                  "or the output is shorter than the input"},
                 {5, "STREAM_FULL", "more than 2^48 bytes would have been fed"},
                 {6, "NO_SYNC", "the frame's first three bytes are not 7F 7F 7F"},
                 {7, "PADDING", "a padding byte is not 0"},
                 {8, "RESERVED",
                  "an unassigned host code or bit is set, or a level of a radio frame is above 4,095"},
                 {9, "RANGE", "a value to be written does not fit, or the place is not below the input's length"},
                 {10, "?", "this number is no answer"},
                 {255, "?", "this number is no answer"},
                 {256, "?", "this number is no answer"},
                 {UINT32_MAX, "?", "this number is no answer"}};
    for (size_t at = 0; at < sizeof words / sizeof *words; at++) {
        check(strcmp(hpsdr_answer_name(words[at].answer), words[at].name) == 0, words[at].name, "not its name", at);
        check(strcmp(hpsdr_answer_sentence(words[at].answer), words[at].sentence) == 0, words[at].name,
              "not its sentence", at);
    }
}

static void test_causes(void) {
    static const struct {
        uint32_t cause;
        const char *sentence;
    } causes[] = {{HPSDR_CAUSE_SOURCE10, "the 10 MHz source has the unassigned code 3"},
                  {HPSDR_CAUSE_RELAY, "the transmit relay has the unassigned code 3"},
                  {HPSDR_CAUSE_WORD9_C4_BIT7, "word 9's C4 bit 7 is set, which is unassigned"},
                  {HPSDR_CAUSE_WORD10_C1_BIT7, "word 10's C1 bit 7 is set, which is unassigned"},
                  {HPSDR_CAUSE_AIN5, "level AIN5 is above 4,095"},
                  {HPSDR_CAUSE_AIN1, "level AIN1 is above 4,095"},
                  {HPSDR_CAUSE_AIN2, "level AIN2 is above 4,095"},
                  {HPSDR_CAUSE_AIN3, "level AIN3 is above 4,095"},
                  {HPSDR_CAUSE_AIN4, "level AIN4 is above 4,095"},
                  {HPSDR_CAUSE_AIN6, "level AIN6 is above 4,095"},
                  {0, "this number is no cause"},
                  {11, "this number is no cause"},
                  {UINT32_MAX, "this number is no cause"}};
    for (size_t at = 0; at < sizeof causes / sizeof *causes; at++)
        check(strcmp(hpsdr_cause_sentence(causes[at].cause), causes[at].sentence) == 0, "cause_sentence",
              "another sentence", at);
}

static void check_text(const char *name, const char *given_back, const char *text, const char *due, size_t number) {
    check(given_back == text, name, "it does not give back what it was lent", number);
    check(strcmp(text, due) == 0, name, text, number);
}

/* An answer with a place, of a call and of a transfer. */
static void test_texts_with_a_place(void) {
    static const struct {
        uint32_t got;
        const char *of_a_call, *of_a_transfer;
    } texts[] = {
        {0x00000006, "sync byte 0 is not 7F", "sync byte 0 of frame 0 is not 7F"},
        {0x00010306, "sync byte 1 is not 7F", "sync byte 1 of frame 3 is not 7F"},
        {0x00020706, "sync byte 2 is not 7F", "sync byte 2 of frame 7 is not 7F"},
        {0x01FD0307, "padding byte 509 is not zero", "padding byte 509 of frame 3 is not zero"},
        {0x01E80007, "padding byte 488 is not zero", "padding byte 488 of frame 0 is not zero"},
        {0x01FF0707, "padding byte 511 is not zero", "padding byte 511 of frame 7 is not zero"},
        {0xFFFFFF07, "padding byte 65535 is not zero", "padding byte 65535 of frame 255 is not zero"},
        {0x00010008, "the 10 MHz source has the unassigned code 3", "the 10 MHz source has the unassigned code 3"},
        {0x00020008, "the transmit relay has the unassigned code 3", "the transmit relay has the unassigned code 3"},
        {0x00030008, "word 9's C4 bit 7 is set, which is unassigned", "word 9's C4 bit 7 is set, which is unassigned"},
        {0x00040008, "word 10's C1 bit 7 is set, which is unassigned",
         "word 10's C1 bit 7 is set, which is unassigned"},
        {0x00050308, "level AIN5 is above 4,095", "level AIN5 of frame 3 is above 4,095"},
        {0x00060008, "level AIN1 is above 4,095", "level AIN1 of frame 0 is above 4,095"},
        {0x00070108, "level AIN2 is above 4,095", "level AIN2 of frame 1 is above 4,095"},
        {0x00080208, "level AIN3 is above 4,095", "level AIN3 of frame 2 is above 4,095"},
        {0x00090408, "level AIN4 is above 4,095", "level AIN4 of frame 4 is above 4,095"},
        {0x000A0708, "level AIN6 is above 4,095", "level AIN6 of frame 7 is above 4,095"},
        {0x000AFF08, "level AIN6 is above 4,095", "level AIN6 of frame 255 is above 4,095"},
        {0x000B0008, "this number is no cause", "this number is no cause"},
        {0x00000008, "this number is no cause", "this number is no cause"}};
    char text[HPSDR_TEXT];
    for (size_t at = 0; at < sizeof texts / sizeof *texts; at++) {
        check_text("refusal_text", hpsdr_refusal_text(texts[at].got, text), text, texts[at].of_a_call, at);
        check_text("transfer_text", hpsdr_transfer_text(texts[at].got, text), text, texts[at].of_a_transfer, at);
    }
}

/* The others are the answer's sentence, which test_words compares, whatever was found. */
static void test_texts_without_a_place(void) {
    static const uint32_t answers[] = {0, 1, 2, 3, 4, 5, 9, 10};
    char text[HPSDR_TEXT];
    for (size_t at = 0; at < sizeof answers / sizeof *answers; at++)
        for (uint32_t found = 0; found < 256; found += 51) {
            const uint32_t got = answers[at] | found << 8;
            const char *due = hpsdr_answer_sentence(answers[at]);
            check_text("refusal_text", hpsdr_refusal_text(got, text), text, due, at);
            check_text("transfer_text", hpsdr_transfer_text(got, text), text, due, at);
        }
}

/* Each reason, refusals whatever stands beside them, and numbers that are no reason. */
static void test_texts_of_reasons(void) {
    static const struct {
        struct hpsdr_why why;
        const char *due;
    } texts[] = {
        {{0x0100, HPSDR_INSIDE, 0, 0}, "inside the frame handed out that begins at byte 0"},
        {{0x0100, HPSDR_INSIDE, 1024, 0}, "inside the frame handed out that begins at byte 1024"},
        {{0x0100, HPSDR_INSIDE, 65021, 0}, "inside the frame handed out that begins at byte 65021"},
        {{0x0100, HPSDR_INSIDE, UINT32_MAX, 0}, "inside the frame handed out that begins at byte 4294967295"},
        {{0x0200, HPSDR_NEAR_SYNC, 0, 0}, "skipped: byte 0 of the sync at this place is not 7F"},
        {{0x0200, HPSDR_NEAR_SYNC, 0, 1}, "skipped: byte 1 of the sync at this place is not 7F"},
        {{0x0200, HPSDR_NEAR_SYNC, 0, 2}, "skipped: byte 2 of the sync at this place is not 7F"},
        {{0x0300, HPSDR_FAR_SYNC, 0, 0}, "skipped: byte 0 of the sync 512 bytes later is not 7F"},
        {{0x0300, HPSDR_FAR_SYNC, 0, 1}, "skipped: byte 1 of the sync 512 bytes later is not 7F"},
        {{0x0300, HPSDR_FAR_SYNC, 0, 2}, "skipped: byte 2 of the sync 512 bytes later is not 7F"},
        {{0x0400, HPSDR_STILL_HELD, 0, 0}, "still held"},
        {{HPSDR_LENGTH, HPSDR_NOT_GIVEN, 0, 0},
         "the frame is not 512 bytes, the transfer is not 1 to 8 times 512, the piece is above 4,096, "
         "or the input is above 65,536"},
        {{HPSDR_RANGE, HPSDR_NOT_GIVEN, 0, 0},
         "a value to be written does not fit, or the place is not below the input's length"},
        {{0x0100 | HPSDR_RANGE, HPSDR_INSIDE, 1024, 0},
         "a value to be written does not fit, or the place is not below the input's length"},
        {{0, HPSDR_NOT_GIVEN, 0, 0}, "this number is no reason"},
        {{0x0500, 5, 0, 0}, "this number is no reason"}};
    char text[HPSDR_TEXT];
    for (size_t at = 0; at < sizeof texts / sizeof *texts; at++)
        check_text("why_text", hpsdr_why_text(texts[at].why, text), text, texts[at].due, at);
}

/* From the call to the text. */
static void test_read_and_told(void) {
    char text[HPSDR_TEXT];
    set_out();
    given.receivers = 3;
    given.frame[509] = 1;
    hpsdr_refusal_text(short_read(&given), text);
    check(strcmp(text, "padding byte 509 is not zero") == 0, "read", text, 509);
    given.length = 4096;
    for (size_t k = 0; k < 8; k++)
        memcpy(given.input + 512 * k, given.frame, 512);
    for (size_t k = 0; k < 3; k++)
        given.input[512 * k + 509] = 0;
    hpsdr_transfer_text(short_transfer(&given), text);
    check(strcmp(text, "padding byte 509 of frame 3 is not zero") == 0, "read_transfer", text, 509);
    memcpy(given.input + 512 * 3, "\x7F\x7F\x7F\x08\x9C\x40", 6);
    given.input[512 * 3 + 509] = 0;
    hpsdr_transfer_text(short_transfer(&given), text);
    check(strcmp(text, "level AIN5 of frame 3 is above 4,095") == 0, "read_transfer", text, 40000);
    memcpy(given.frame, given.input + 512 * 3, 512);
    hpsdr_refusal_text(short_read(&given), text);
    check(strcmp(text, "level AIN5 is above 4,095") == 0, "read", text, 40000);
    memset(given.frame + 3, 0, 4);
    given.frame[7] = 0x17;
    hpsdr_refusal_text(short_hear(&given), text);
    check(strcmp(text, "the transmit relay has the unassigned code 3") == 0, "hear", text, 2);
    record_without(0);
    recorded[514] = 0;
    hpsdr_why_text(hpsdr_explain(recorded, 65536, 0), text);
    check(strcmp(text, "skipped: byte 2 of the sync 512 bytes later is not 7F") == 0, "explain", text, 0);
    hpsdr_why_text(hpsdr_explain(recorded, 65536, 1535), text);
    check(strcmp(text, "inside the frame handed out that begins at byte 1024") == 0, "explain", text, 1535);
}

int main(void) {
    test_row();
    test_inits();
    test_read();
    test_read_levels();
    test_transfer();
    test_write();
    test_hear_and_build();
    test_stream();
    for (size_t n = 1; n <= 8; n++) {
        test_places(n);
        test_transfer_places(n);
        test_sample_range(n);
    }
    test_wrong_count();
    test_at_once();
    test_explain();
    test_status_fields();
    test_host_fields();
    test_least_receivers_and_turns();
    test_parts();
    test_parts_of_a_plain_reading();
    test_parts_of_a_reason();
    test_words();
    test_causes();
    test_texts_with_a_place();
    test_texts_without_a_place();
    test_texts_of_reasons();
    test_read_and_told();
    return faults ? 1 : 0;
}
