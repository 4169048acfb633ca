/* Calls every function of the header with good and refused input, and compares the answer and every lent cell with
 * what document 01 says. Prints a line for each fault, and exits 1 if there is one. */
#include "report.h"

#include <hpsdr.h>

#include <inttypes.h>
#include <stdbool.h>
#include <stddef.h>
#include <stdint.h>
#include <string.h>

enum { LAST_WORD = 4, LAST_TURN = 10, FIRST_PAYLOAD = 8, NINE_FRAMES = 9 * HPSDR_FRAME };
#define MOST_BYTES (UINT64_C(1) << 48)

/* All that can be lent. Of each three the middle one is lent, and the other two are its guards. */
struct desk {
    struct hpsdr_row row[3];
    struct hpsdr_status status[3];
    struct hpsdr_host host[3];
    struct hpsdr_builder builder[3];
    struct hpsdr_counts counts[3];
    uint8_t held[3][HPSDR_HELD];
    uint8_t frame[3][HPSDR_FRAME + 1];
    uint8_t input[3][NINE_FRAMES];
    uint8_t piece[3][HPSDR_PIECE_MOST + 1];
    uint8_t output[3][HPSDR_OUTPUT_LEAST];
    int32_t iq[3][HPSDR_MOST_FRAMES * HPSDR_MOST_IQ];
    int16_t mic[3][HPSDR_MOST_FRAMES * HPSDR_MOST_MIC];
    int16_t audio[3][HPSDR_AUDIO];
};

static const struct area {
    const char *name;
    size_t start, size;
} areas[] = {
#define AREA(member) {#member, offsetof(struct desk, member), sizeof(((struct desk *)0)->member)}
    AREA(row),   AREA(status), AREA(host),   AREA(builder), AREA(counts), AREA(held),  AREA(frame),
    AREA(input), AREA(piece),  AREA(output), AREA(iq),      AREA(mic),    AREA(audio),
#undef AREA
};

/* What is passed besides the pointers. */
struct numbers {
    size_t row, status, host, builder, counts, held, frame, input, piece, output, iq, mic, audio, receivers, word;
};
static const struct numbers usual = {
    .row = HPSDR_ROW_CELLS, .status = HPSDR_STATUS_CELLS, .host = HPSDR_HOST_CELLS, .builder = HPSDR_BUILDER_CELLS,
    .counts = HPSDR_COUNTS_CELLS, .held = HPSDR_HELD, .frame = HPSDR_FRAME, .output = HPSDR_OUTPUT_LEAST,
    .iq = HPSDR_MOST_IQ, .mic = HPSDR_MOST_MIC, .audio = HPSDR_AUDIO, .receivers = 1};

static const struct hpsdr_row rows[HPSDR_MOST_RECEIVERS] = {
    {8, 63, 0}, {14, 36, 0}, {20, 25, 4}, {26, 19, 10}, {32, 15, 24}, {38, 13, 10}, {44, 11, 20}, {50, 10, 4}};
static const struct hpsdr_status fresh_status = {.io1 = 1, .io2 = 1, .io3 = 1, .io4 = 1};
static const struct hpsdr_host fresh_host = {.receivers = 1};

static struct desk lent, expected;
static struct numbers pass;

static uint32_t layout(void) { return hpsdr_layout(pass.receivers, &lent.row[1], pass.row); }
static uint32_t status_fresh(void) { return hpsdr_status_fresh(&lent.status[1], pass.status); }
static uint32_t host_fresh(void) { return hpsdr_host_fresh(&lent.host[1], pass.host); }
static uint32_t builder_fresh(void) { return hpsdr_builder_fresh(&lent.builder[1], pass.builder); }
static uint32_t radio_read(void) {
    return hpsdr_radio_read(lent.frame[1], pass.frame, pass.receivers, lent.iq[1], pass.iq, lent.mic[1], pass.mic,
                            &lent.status[1], pass.status);
}
static uint32_t radio_read_transfer(void) {
    return hpsdr_radio_read_transfer(lent.input[1], pass.input, pass.receivers, lent.iq[1], pass.iq, lent.mic[1],
                                     pass.mic, &lent.status[1], pass.status);
}
static uint32_t radio_write(void) {
    return hpsdr_radio_write(&lent.status[1], pass.status, pass.word, pass.receivers, lent.iq[1], pass.iq,
                             lent.mic[1], pass.mic, lent.frame[1], pass.frame);
}
static uint32_t host_read(void) {
    return hpsdr_host_read(lent.frame[1], pass.frame, lent.audio[1], pass.audio, &lent.host[1], pass.host);
}
static uint32_t build(void) {
    return hpsdr_build(&lent.builder[1], pass.builder, lent.audio[1], pass.audio, lent.frame[1], pass.frame);
}
static uint32_t stream_fresh(void) {
    return hpsdr_stream_fresh(&lent.counts[1], pass.counts, lent.held[1], pass.held);
}
static uint32_t stream_sound(void) {
    return hpsdr_stream_sound(&lent.counts[1], pass.counts, lent.held[1], pass.held);
}
static uint32_t stream_feed(void) {
    return hpsdr_stream_feed(&lent.counts[1], pass.counts, lent.held[1], pass.held, lent.piece[1], pass.piece,
                             lent.output[1], pass.output);
}

/* Reports the first byte that is not as expected. */
static void compare(const char *what, const char *name, const uint8_t *is, const uint8_t *should, size_t size) {
    if (memcmp(is, should, size) == 0)
        return;
    for (size_t place = 0; place < size; place++)
        if (is[place] != should[place]) {
            report("%s: byte %zu of the three of %s is %02X, expected %02X", what, place, name, is[place],
                   should[place]);
            return;
        }
}

/* Calls, and compares with the answer, what is found and the place, all 32 bits, and with the expected desk. */
static void run_at(const char *what, uint32_t (*call)(void), uint32_t answer, uint32_t found, size_t place) {
    uint32_t got = call();
    if (got != (answer | found << 8 | (uint32_t)place << 16))
        report("%s: got answer %u, found %u, place %u, expected %u, %u, %zu", what, (unsigned)hpsdr_answer_of(got),
               (unsigned)hpsdr_found_in(got), (unsigned)hpsdr_place_in(got), (unsigned)answer, (unsigned)found, place);
    for (const struct area *area = areas; area < areas + sizeof areas / sizeof *areas; area++)
        compare(what, area->name, (const uint8_t *)&lent + area->start, (const uint8_t *)&expected + area->start,
                area->size);
}

/* The answers that have no place. */
static void run(const char *what, uint32_t (*call)(void), uint32_t answer, uint32_t found) {
    run_at(what, call, answer, found, 0);
}

static void expect_unchanged(void) { memcpy(&expected, &lent, sizeof lent); }

static void refuse_at(const char *what, uint32_t (*call)(void), enum hpsdr_answer refusal, size_t place) {
    expect_unchanged();
    run_at(what, call, refusal, 0, place);
}

static void refuse(const char *what, uint32_t (*call)(void), enum hpsdr_answer refusal) {
    refuse_at(what, call, refusal, 0);
}

/* A desk of noise, but for fresh records and a frame of sync and zeros. */
static void set_out(void) {
    uint8_t *bytes = (uint8_t *)&lent;
    for (size_t at = 0; at < sizeof lent; at++)
        bytes[at] = (uint8_t)(at * 31 + at / 256 + 7);
    pass = usual;
    lent.status[1] = fresh_status;
    lent.host[1] = fresh_host;
    lent.builder[1] = (struct hpsdr_builder){fresh_host, 0};
    lent.counts[1] = (struct hpsdr_counts){0, 0, 0, 0};
    memset(lent.held[1], 0, sizeof lent.held[1]);
    memset(lent.frame[1], 0, sizeof lent.frame[1]);
    memset(lent.frame[1], 0x7F, 3);
    expect_unchanged();
}

/* Those of one receiver. */
static void expect_zero_samples(void) {
    memset(expected.iq[1], 0, 2 * rows[0].slots * sizeof *expected.iq[1]);
    memset(expected.mic[1], 0, rows[0].slots * sizeof *expected.mic[1]);
}

static void set_control(uint8_t *frame, const uint8_t control[5]) { memcpy(frame + 3, control, 5); }

/* ---- layout and fresh records ---- */

static void test_layout(void) {
    for (size_t receivers = 1; receivers <= HPSDR_MOST_RECEIVERS; receivers++) {
        set_out();
        pass.receivers = receivers;
        pass.row = receivers % 2 ? HPSDR_ROW_CELLS : HPSDR_ROW_CELLS + 2;
        expected.row[1] = rows[receivers - 1];
        run("layout", layout, HPSDR_ACCEPTED, 0);
    }
    const size_t wrong[] = {0, 9, SIZE_MAX};
    for (size_t at = 0; at < 3; at++) {
        set_out();
        pass.receivers = wrong[at];
        refuse("layout of a wrong count", layout, HPSDR_BAD_COUNT);
        pass.row = HPSDR_ROW_CELLS - 1;
        refuse("layout of a wrong count and too few cells", layout, HPSDR_BAD_STATE);
    }
}

/* What stood in the cells before plays no part. */
static void set_out_unset_records(void) {
    set_out();
    memset(&lent.status[1], 0xFF, sizeof lent.status[1]);
    memset(&lent.host[1], 0xFF, sizeof lent.host[1]);
    memset(&lent.builder[1], 0xFF, sizeof lent.builder[1]);
    memset(&lent.counts[1], 0xFF, sizeof lent.counts[1]);
    memset(lent.held[1], 0xFF, sizeof lent.held[1]);
    expect_unchanged();
}

static void test_fresh(size_t more) {
    set_out_unset_records();
    pass.status += more;
    pass.host += more;
    pass.builder += more;
    pass.counts += more;
    pass.held += more;
    expected.status[1] = fresh_status;
    run("status fresh", status_fresh, HPSDR_ACCEPTED, 0);
    expected.host[1] = fresh_host;
    run("host fresh", host_fresh, HPSDR_ACCEPTED, 0);
    expected.builder[1] = (struct hpsdr_builder){fresh_host, 0};
    run("builder fresh", builder_fresh, HPSDR_ACCEPTED, 0);
    expected.counts[1] = (struct hpsdr_counts){0, 0, 0, 0};
    memset(expected.held[1], 0, sizeof expected.held[1]);
    run("stream fresh", stream_fresh, HPSDR_ACCEPTED, 0);
}

static void test_too_few_cells(void) {
    set_out_unset_records();
    pass.status--;
    pass.host--;
    pass.builder--;
    pass.counts--;
    refuse("status fresh of 25 cells", status_fresh, HPSDR_BAD_STATE);
    refuse("host fresh of 61 cells", host_fresh, HPSDR_BAD_STATE);
    refuse("builder fresh of 62 cells", builder_fresh, HPSDR_BAD_STATE);
    refuse("stream fresh of 3 counts", stream_fresh, HPSDR_BAD_STATE);
    pass.counts = HPSDR_COUNTS_CELLS;
    pass.held--;
    refuse("stream fresh of 513 bytes", stream_fresh, HPSDR_BAD_STATE);
    set_out();
    pass.host--;
    pass.builder--;
    refuse("host read of 61 cells", host_read, HPSDR_BAD_STATE);
    refuse("build of 62 cells", build, HPSDR_BAD_STATE);
    pass.status = pass.host = pass.builder = pass.counts = 0;
    refuse("radio read without a record", radio_read, HPSDR_BAD_STATE);
    refuse("transfer without a record", radio_read_transfer, HPSDR_BAD_STATE);
    refuse("radio write without a record", radio_write, HPSDR_BAD_STATE);
    refuse("host read without a record", host_read, HPSDR_BAD_STATE);
    refuse("build without a record", build, HPSDR_BAD_STATE);
    refuse("stream sound without counts", stream_sound, HPSDR_BAD_STATE);
    refuse("stream feed without counts", stream_feed, HPSDR_BAD_STATE);
    pass.counts = HPSDR_COUNTS_CELLS;
    pass.held--;
    refuse("stream sound of 513 bytes", stream_sound, HPSDR_BAD_STATE);
    refuse("stream feed of 513 bytes", stream_feed, HPSDR_BAD_STATE);
}

/* ---- cells that no record holds ---- */

enum { ANY = -1, BYTE = 255, LEVEL = 65535 };

static const int64_t status_most[] = {
    1, 1, 1, 1, 1, 1, 1, 1, 1, 1, 1, 1, 1, BYTE, BYTE, BYTE, /* keys and word 0 */
    LEVEL, LEVEL, LEVEL, LEVEL, LEVEL, LEVEL,                /* words 1 to 3 */
    BYTE, BYTE, BYTE, BYTE};
static const int64_t builder_most[] = {
    1, 3, 2, 1, 3, 1, 1, BYTE, 3, 1, 1, 1, 3, 1, 2, 1, BYTE, 1, 1, /* MOX and word 0 */
    ANY, ANY, ANY, ANY, ANY, ANY, ANY, ANY,                         /* words 1 to 8 */
    BYTE, 1, 1, 1, 1, 1, 1, 1, 1, 1, 1, 1, 1, 1, 1, 1, 1, 1, 1, 1, 1, 1, 1, 1, /* word 9 */
    1, 1, 1, 1, 1, 1, 1, BYTE, BYTE, BYTE, BYTE,                    /* word 10 */
    BYTE /* the turn */};

static void refuse_above(const char *what, uint32_t (*call)(void), uint32_t *cell, int64_t most) {
    if (most == ANY)
        return;
    const uint32_t before = *cell;
    *cell = (uint32_t)most + 1;
    refuse(what, call, HPSDR_BAD_STATE);
    *cell = UINT32_MAX;
    refuse(what, call, HPSDR_BAD_STATE);
    *cell = before;
}

/* An unlisted word keeps each cell as it is, the keys (whose bits are set) or MOX apart. */
static void test_cells(void) {
    const uint8_t unlisted_radio[5] = {31 << 3 | 7, 1, 2, 3, 4}, unlisted_host[5] = {127 << 1 | 1, 1, 2, 3, 4};
    for (size_t at = 0; at < HPSDR_STATUS_CELLS; at++) {
        set_out();
        set_control(lent.frame[1], unlisted_radio);
        uint32_t *cell = (uint32_t *)&lent.status[1] + at;
        refuse_above("radio read of a cell too large", radio_read, cell, status_most[at]);
        refuse_above("transfer of a cell too large", radio_read_transfer, cell, status_most[at]);
        refuse_above("radio write of a cell too large", radio_write, cell, status_most[at]);
        *cell = (uint32_t)status_most[at];
        expect_unchanged();
        expect_zero_samples();
        expected.status[1].dot = expected.status[1].dash = expected.status[1].ptt = 1;
        run("radio read of the largest cell", radio_read, HPSDR_ACCEPTED, 31);
    }
    for (size_t at = 0; at < HPSDR_BUILDER_CELLS; at++) {
        set_out();
        refuse_above("build of a cell too large", build, (uint32_t *)&lent.builder[1] + at, builder_most[at]);
        if (at >= HPSDR_HOST_CELLS)
            continue;
        set_control(lent.frame[1], unlisted_host);
        uint32_t *cell = (uint32_t *)&lent.host[1] + at;
        refuse_above("host read of a cell too large", host_read, cell, builder_most[at]);
        *cell = (uint32_t)builder_most[at];
        expect_unchanged();
        memset(expected.audio[1], 0, sizeof expected.audio[1]);
        expected.host[1].mox = 1;
        run("host read of the largest cell", host_read, HPSDR_ACCEPTED, 127);
    }
}

/* ---- radio frames ---- */

/* They come again after 241, a prime, so that no two frames of a transfer have the same. */
static int32_t sample(size_t at) {
    static const int32_t first[] = {8388607, -8388608, -1, 0};
    return at % 241 < 4 ? first[at % 241] : (int32_t)(at % 241) * 50021 - 4000000;
}

static int16_t microphone_value(size_t slot) { return (int16_t)(slot ? 500 - 13 * (int)slot : -32768); }

static void put_samples(struct desk *desk, size_t receivers, size_t frames) {
    const size_t slots = frames * rows[receivers - 1].slots;
    for (size_t at = 0; at < 2 * receivers * slots; at++)
        desk->iq[1][at] = sample(at);
    for (size_t slot = 0; slot < slots; slot++)
        desk->mic[1][slot] = microphone_value(slot);
}

static uint8_t *put_number(uint8_t *place, uint32_t number, unsigned bytes) {
    while (bytes--)
        *place++ = (uint8_t)(number >> 8 * bytes);
    return place;
}

/* The payload of those samples in the frame of a number, by document 01's drawing. */
static void draw_samples(uint8_t *frame, size_t receivers, size_t number) {
    const size_t slots = rows[receivers - 1].slots;
    uint8_t *place = frame + FIRST_PAYLOAD;
    for (size_t slot = number * slots; slot < (number + 1) * slots; slot++) {
        for (size_t at = 2 * receivers * slot; at < 2 * receivers * (slot + 1); at++)
            place = put_number(place, (uint32_t)sample(at), 3);
        place = put_number(place, (uint32_t)microphone_value(slot), 2);
    }
    memset(place, 0, (size_t)(frame + HPSDR_FRAME - place));
}

static void test_samples(size_t receivers, bool longer) {
    set_out();
    pass.receivers = receivers;
    if (!longer) {
        pass.mic = rows[receivers - 1].slots;
        pass.iq = 2 * receivers * pass.mic;
    }
    draw_samples(lent.frame[1], receivers, 0);
    expect_unchanged();
    put_samples(&expected, receivers, 1);
    run("radio read of samples", radio_read, HPSDR_ACCEPTED, 0);
    memset(lent.frame[1], 0xEE, HPSDR_FRAME);
    if (longer && receivers < HPSDR_MOST_RECEIVERS)
        lent.iq[1][HPSDR_MOST_IQ - 1] = INT32_MAX;
    expect_unchanged();
    memset(expected.frame[1], 0, HPSDR_FRAME);
    memset(expected.frame[1], 0x7F, 3);
    draw_samples(expected.frame[1], receivers, 0);
    run("radio write of samples", radio_write, HPSDR_ACCEPTED, 0);
}

static const struct hpsdr_status full_status = {
    .dot = 1, .ptt = 1, .adc1 = 1, .adc3 = 1, .adc4 = 1, .io2 = 1, .io3 = 1, .pll = 1,
    .mercury = 0x12, .penelope = 0x34, .main = 0xFF, .ain5 = 0x0102, .ain1 = 0x0304, .ain2 = 0x0506, .ain3 = 0x0708,
    .ain4 = 0x090A, .ain6 = 0x0FFE, .board1 = 127, .board2 = 1, .board3 = 2, .board4 = 64};
static const uint8_t full_status_words[LAST_WORD + 1][5] = {{0x05, 0x33, 0x12, 0x34, 0xFF},
                                                            {0x0D, 0x01, 0x02, 0x03, 0x04},
                                                            {0x15, 0x05, 0x06, 0x07, 0x08},
                                                            {0x1D, 0x09, 0x0A, 0x0F, 0xFE},
                                                            {0x25, 0xFF, 0x02, 0x05, 0x81}};

/* The record after the words 0 to `word` of the full one, on a fresh one. */
static struct hpsdr_status status_after(size_t word) {
    struct hpsdr_status after = full_status;
    if (word < 1)
        after.ain5 = after.ain1 = 0;
    if (word < 2)
        after.ain2 = after.ain3 = 0;
    if (word < 3)
        after.ain4 = after.ain6 = 0;
    if (word < 4)
        after.adc2 = after.adc3 = after.adc4 = after.board1 = after.board2 = after.board3 = after.board4 = 0;
    return after;
}

static void test_status_words(size_t more) {
    set_out();
    pass.status += more;
    expect_zero_samples();
    for (size_t word = 0; word <= LAST_WORD; word++) {
        set_control(lent.frame[1], full_status_words[word]);
        set_control(expected.frame[1], full_status_words[word]);
        expected.status[1] = status_after(word);
        run("radio read of a word", radio_read, HPSDR_ACCEPTED, (uint32_t)word);
    }
    for (size_t word = 0; word <= LAST_WORD; word++) {
        pass.word = word;
        memset(lent.frame[1], 0xEE, HPSDR_FRAME);
        set_control(expected.frame[1], full_status_words[word]);
        run("radio write of a word", radio_write, HPSDR_ACCEPTED, 0);
    }
}

/* Each flag's bit alone, both ways. The bit of an input is 1 where it is not active, and C1's bit 7 is written as 0. */
static void test_status_bits(void) {
    static const struct {
        uint8_t control[5];
        struct hpsdr_status after;
    } bits[] = {{{0x04, 0, 0, 0, 0}, {.dot = 1, .io1 = 1, .io2 = 1, .io3 = 1, .io4 = 1}},
                {{0x02, 0, 0, 0, 0}, {.dash = 1, .io1 = 1, .io2 = 1, .io3 = 1, .io4 = 1}},
                {{0x01, 0, 0, 0, 0}, {.ptt = 1, .io1 = 1, .io2 = 1, .io3 = 1, .io4 = 1}},
                {{0, 0x01, 0, 0, 0}, {.adc1 = 1, .io1 = 1, .io2 = 1, .io3 = 1, .io4 = 1}},
                {{0, 0x02, 0, 0, 0}, {.io2 = 1, .io3 = 1, .io4 = 1}},
                {{0, 0x04, 0, 0, 0}, {.io1 = 1, .io3 = 1, .io4 = 1}},
                {{0, 0x08, 0, 0, 0}, {.io1 = 1, .io2 = 1, .io4 = 1}},
                {{0, 0x10, 0, 0, 0}, {.io1 = 1, .io2 = 1, .io3 = 1}},
                {{0, 0x20, 0, 0, 0}, {.pll = 1, .io1 = 1, .io2 = 1, .io3 = 1, .io4 = 1}},
                {{0, 0x40, 0, 0, 0}, {.toggle = 1, .io1 = 1, .io2 = 1, .io3 = 1, .io4 = 1}},
                {{0, 0x80, 0, 0, 0}, {.io1 = 1, .io2 = 1, .io3 = 1, .io4 = 1}},
                {{4 << 3, 1, 0, 0, 0}, {.adc1 = 1, .io1 = 1, .io2 = 1, .io3 = 1, .io4 = 1}},
                {{4 << 3, 0, 1, 0, 0}, {.adc2 = 1, .io1 = 1, .io2 = 1, .io3 = 1, .io4 = 1}},
                {{4 << 3, 0, 0, 1, 0}, {.adc3 = 1, .io1 = 1, .io2 = 1, .io3 = 1, .io4 = 1}},
                {{4 << 3, 0, 0, 0, 1}, {.adc4 = 1, .io1 = 1, .io2 = 1, .io3 = 1, .io4 = 1}}};
    for (size_t at = 0; at < sizeof bits / sizeof *bits; at++) {
        set_out();
        set_control(lent.frame[1], bits[at].control);
        expect_unchanged();
        expect_zero_samples();
        expected.status[1] = bits[at].after;
        pass.word = bits[at].control[0] >> 3;
        run("radio read of one bit", radio_read, HPSDR_ACCEPTED, (uint32_t)pass.word);
        memset(lent.frame[1], 0xEE, HPSDR_FRAME);
        expected.frame[1][4] &= 0x7F;
        run("radio write of one bit", radio_write, HPSDR_ACCEPTED, 0);
    }
}

static void test_unlisted_status_words(void) {
    for (uint8_t address = LAST_WORD + 1; address < 32; address++) {
        set_out();
        lent.status[1] = full_status;
        set_control(lent.frame[1], (const uint8_t[]){(uint8_t)(address << 3 | 2), 0xFF, 0xFF, 0xFF, 0xFF});
        expect_unchanged();
        expect_zero_samples();
        expected.status[1].dot = expected.status[1].ptt = 0;
        expected.status[1].dash = 1;
        run("radio read of an unlisted word", radio_read, HPSDR_ACCEPTED, address);
    }
}

/* ---- levels ---- */

enum { LEVEL_MOST = 4095 };
#define STATUS_CELL(member) (offsetof(struct hpsdr_status, member) / sizeof(uint32_t))

/* The words that carry levels, by T-08: the one in C1 and C2, and the one in C3 and C4. */
static const struct level_word {
    uint8_t word;
    size_t cells[2];
    enum hpsdr_cause causes[2];
} level_words[] = {{1, {STATUS_CELL(ain5), STATUS_CELL(ain1)}, {HPSDR_CAUSE_AIN5, HPSDR_CAUSE_AIN1}},
                   {2, {STATUS_CELL(ain2), STATUS_CELL(ain3)}, {HPSDR_CAUSE_AIN2, HPSDR_CAUSE_AIN3}},
                   {3, {STATUS_CELL(ain4), STATUS_CELL(ain6)}, {HPSDR_CAUSE_AIN4, HPSDR_CAUSE_AIN6}}};
static const struct level_word *const level_words_end = level_words + sizeof level_words / sizeof *level_words;

static uint32_t *status_cell(struct desk *desk, size_t cell) { return (uint32_t *)&desk->status[1] + cell; }

static void put_levels(uint8_t *frame, uint8_t c0, uint32_t first, uint32_t second) {
    frame[3] = c0;
    put_number(put_number(frame + 4, first, 2), second, 2);
}

/* Two levels that a frame can have, read over a fresh record with all keys, and written again. */
static void test_levels_taken(const struct level_word *of, uint32_t first, uint32_t second) {
    set_out();
    put_levels(lent.frame[1], (uint8_t)(of->word << 3 | 7), first, second);
    expect_unchanged();
    expect_zero_samples();
    expected.status[1].dot = expected.status[1].dash = expected.status[1].ptt = 1;
    *status_cell(&expected, of->cells[0]) = first;
    *status_cell(&expected, of->cells[1]) = second;
    run("radio read of levels", radio_read, HPSDR_ACCEPTED, of->word);
    pass.word = of->word;
    memset(lent.frame[1], 0xEE, HPSDR_FRAME);
    run("radio write of levels", radio_write, HPSDR_ACCEPTED, 0);
}

/* The first level above 4,095 is named, and nothing is taken of the frame: its keys are set and the record's are not,
 * its samples are 0, and its other level may be good. */
static void test_levels(const struct level_word *of, uint32_t first, uint32_t second) {
    if (first <= LEVEL_MOST && second <= LEVEL_MOST) {
        test_levels_taken(of, first, second);
        return;
    }
    set_out();
    put_levels(lent.frame[1], (uint8_t)(of->word << 3 | 7), first, second);
    refuse_at("radio read of a level above 4,095", radio_read, HPSDR_RESERVED, of->causes[first <= LEVEL_MOST]);
}

/* Every high byte, with the least and the greatest low byte, and every bit alone: in either level, beside a good one,
 * and in both. */
static void test_all_levels(const struct level_word *of) {
    for (uint32_t high = 0; high <= BYTE; high++) {
        const uint32_t least = high << 8, most = high << 8 | 0xFF;
        test_levels(of, least, LEVEL_MOST);
        test_levels(of, LEVEL_MOST, most);
        test_levels(of, most, least);
    }
    for (unsigned bit = 0; bit < 16; bit++) {
        test_levels(of, UINT32_C(1) << bit, 0);
        test_levels(of, 0, UINT32_C(1) << bit);
        test_levels(of, UINT32_C(1) << bit, UINT32_C(1) << bit);
    }
}

/* The number of the request that asked for this, and others, with their causes by number. */
static void test_levels_by_hand(void) {
    static const struct {
        const char *what;
        uint8_t control[5];
        size_t cause;
    } cases[] = {{"radio read of AIN5 at 40,000", {0x08, 0x9C, 0x40, 0, 0}, 5},
                 {"radio read of AIN1 at 40,000", {0x08, 0, 0, 0x9C, 0x40}, 6},
                 {"radio read of AIN5 and AIN1 at 40,000", {0x0F, 0x9C, 0x40, 0x9C, 0x40}, 5},
                 {"radio read of AIN2 at 4,096", {0x10, 0x10, 0x00, 0, 0}, 7},
                 {"radio read of AIN3 at 4,096", {0x10, 0x0F, 0xFF, 0x10, 0x00}, 8},
                 {"radio read of AIN4 at 8,191", {0x18, 0x1F, 0xFF, 0x0F, 0xFF}, 9},
                 {"radio read of AIN6 at 65,535", {0x18, 0x0F, 0xFF, 0xFF, 0xFF}, 10}};
    for (size_t at = 0; at < sizeof cases / sizeof *cases; at++) {
        set_out();
        set_control(lent.frame[1], cases[at].control);
        refuse_at(cases[at].what, radio_read, HPSDR_RESERVED, cases[at].cause);
    }
}

/* Words 0 and 4 with every bit; test_unlisted_status_words has the unlisted ones. */
static void test_words_without_levels(void) {
    set_out();
    set_control(lent.frame[1], (const uint8_t[]){0x07, 0xFF, 0xFF, 0xFF, 0xFF});
    expect_unchanged();
    expect_zero_samples();
    expected.status[1] = (struct hpsdr_status){.dot = 1, .dash = 1, .ptt = 1, .adc1 = 1, .pll = 1, .toggle = 1,
                                               .mercury = 255, .penelope = 255, .main = 255};
    run("radio read of all bits in word 0", radio_read, HPSDR_ACCEPTED, 0);
    set_out();
    set_control(lent.frame[1], (const uint8_t[]){0x27, 0xFF, 0xFF, 0xFF, 0xFF});
    expect_unchanged();
    expect_zero_samples();
    expected.status[1] = (struct hpsdr_status){.dot = 1, .dash = 1, .ptt = 1, .adc1 = 1, .adc2 = 1, .adc3 = 1,
                                               .adc4 = 1, .io1 = 1, .io2 = 1, .io3 = 1, .io4 = 1, .board1 = 127,
                                               .board2 = 127, .board3 = 127, .board4 = 127};
    run("radio read of all bits in word 4", radio_read, HPSDR_ACCEPTED, 4);
}

static void raise_levels(struct desk *desk, uint32_t level) {
    for (const struct level_word *of = level_words; of < level_words_end; of++)
        *status_cell(desk, of->cells[0]) = *status_cell(desk, of->cells[1]) = level;
}

/* A record whose levels no frame has: no read refuses it for them. Each level stays, but for those of the word that is
 * read, which here are 0; and a refused frame leaves all of them. */
static void test_record_of_high_levels(uint32_t level) {
    for (uint8_t address = 0; address < 32; address++) {
        set_out();
        raise_levels(&lent, level);
        set_control(lent.frame[1], (const uint8_t[]){(uint8_t)(address << 3), 0, 0, 0, 0});
        expect_unchanged();
        expect_zero_samples();
        for (const struct level_word *of = level_words; of < level_words_end; of++)
            if (of->word == address)
                *status_cell(&expected, of->cells[0]) = *status_cell(&expected, of->cells[1]) = 0;
        run("radio read into a record of high levels", radio_read, HPSDR_ACCEPTED, address);
    }
    for (const struct level_word *of = level_words; of < level_words_end; of++) {
        set_out();
        raise_levels(&lent, level);
        put_levels(lent.frame[1], (uint8_t)(of->word << 3 | 7), 1, 0x1001);
        refuse_at("radio read of a high level into a record of such", radio_read, HPSDR_RESERVED, of->causes[1]);
    }
}

/* One level of the record is above 4,095, and each of the words 0 to 4 is due. */
static void test_high_level_written(size_t cell) {
    static const uint32_t high[] = {4096, 8191, 8192, 40000, 65535};
    set_out();
    put_samples(&lent, 1, 1);
    for (pass.word = 0; pass.word <= LAST_WORD; pass.word++) {
        for (size_t at = 0; at < sizeof high / sizeof *high; at++) {
            *status_cell(&lent, cell) = high[at];
            refuse("radio write of a level above 4,095", radio_write, HPSDR_RANGE);
        }
        *status_cell(&lent, cell) = 0;
    }
}

/* ---- what a radio read and a radio write refuse ---- */

/* Each refusal, mending what gave the one before. */
static void test_radio_read_refusals(void) {
    set_out();
    put_levels(lent.frame[1], 2 << 3 | 7, 0x1000, 0xF000);
    lent.frame[1][2] = 0x7E;
    lent.frame[1][511] = 1;
    lent.status[1].pll = 2;
    pass.receivers = 9;
    pass.frame = 511;
    pass.mic = 24;
    refuse("radio read, bad state", radio_read, HPSDR_BAD_STATE);
    lent.status[1].pll = 1;
    refuse("radio read for 9", radio_read, HPSDR_BAD_COUNT);
    pass.receivers = 0;
    refuse("radio read for 0", radio_read, HPSDR_BAD_COUNT);
    pass.receivers = 3;
    refuse("radio read of 511 bytes", radio_read, HPSDR_LENGTH);
    pass.frame = 513;
    refuse("radio read of 513 bytes", radio_read, HPSDR_LENGTH);
    pass.frame = 512;
    refuse("radio read to 24 microphone values", radio_read, HPSDR_SHORT_BUFFER);
    pass.mic = 25;
    pass.iq = 149;
    refuse("radio read to 149 samples", radio_read, HPSDR_SHORT_BUFFER);
    pass.iq = 150;
    refuse_at("radio read without sync", radio_read, HPSDR_NO_SYNC, 2);
    lent.frame[1][2] = 0x7F;
    refuse_at("radio read with padding", radio_read, HPSDR_PADDING, 511);
    lent.frame[1][511] = 0;
    refuse_at("radio read of two levels above 4,095", radio_read, HPSDR_RESERVED, HPSDR_CAUSE_AIN2);
    lent.frame[1][4] = 0x0F;
    refuse_at("radio read of the second level above 4,095", radio_read, HPSDR_RESERVED, HPSDR_CAUSE_AIN3);
}

/* Each byte of padding alone, and with each of those behind it: the first is named. The byte before them is not 0. The
 * frame's levels are above 4,095, which is told where all the padding is 0. */
static void test_padding(size_t receivers) {
    const size_t padding = HPSDR_FRAME - rows[receivers - 1].padding;
    set_out();
    pass.receivers = receivers;
    put_levels(lent.frame[1], 3 << 3 | 7, 0xFFFF, 0xFFFF);
    lent.frame[1][padding - 1] = 1;
    for (size_t place = padding; place < HPSDR_FRAME; place++) {
        lent.frame[1][place] = 0x80;
        refuse_at("radio read with a byte of padding", radio_read, HPSDR_PADDING, place);
        for (size_t behind = place + 1; behind < HPSDR_FRAME; behind++) {
            lent.frame[1][behind] = 1;
            refuse_at("radio read with two bytes of padding", radio_read, HPSDR_PADDING, place);
            lent.frame[1][behind] = 0;
        }
        lent.frame[1][place] = 0;
    }
    refuse_at("radio read of a level above 4,095 before padding of 0", radio_read, HPSDR_RESERVED, HPSDR_CAUSE_AIN4);
}

/* Every choice of bytes that are not sync, of which bit k of `wrong` is byte k, with padding that is not 0 and levels
 * above 4,095. */
static void test_sync(size_t receivers) {
    static const size_t first_wrong[8] = {3, 0, 1, 0, 2, 0, 1, 0};
    set_out();
    pass.receivers = receivers;
    put_levels(lent.frame[1], 1 << 3 | 7, 0x9C40, 0x9C40);
    memset(lent.frame[1] + HPSDR_FRAME - rows[receivers - 1].padding, 0xFF, rows[receivers - 1].padding);
    for (unsigned wrong = 1; wrong < 8; wrong++) {
        for (size_t place = 0; place < 3; place++)
            lent.frame[1][place] = wrong >> place & 1 ? 0xFF : 0x7F;
        refuse_at("radio read with bytes of no sync", radio_read, HPSDR_NO_SYNC, first_wrong[wrong]);
        refuse_at("host read with bytes of no sync", host_read, HPSDR_NO_SYNC, first_wrong[wrong]);
    }
}

static void test_radio_write_refusals(void) {
    set_out();
    put_samples(&lent, 3, 1);
    pass = (struct numbers){.status = 25, .receivers = 9, .frame = 513, .iq = 149, .mic = 25, .word = 5};
    refuse("radio write of 25 cells", radio_write, HPSDR_BAD_STATE);
    pass.status = 26;
    refuse("radio write for 9", radio_write, HPSDR_BAD_COUNT);
    pass.receivers = 3;
    refuse("radio write to 513 bytes", radio_write, HPSDR_LENGTH);
    pass.frame = 511;
    refuse("radio write to 511 bytes", radio_write, HPSDR_LENGTH);
    pass.frame = 512;
    refuse("radio write of 149 samples", radio_write, HPSDR_SHORT_BUFFER);
    pass.iq = 150;
    pass.mic = 24;
    refuse("radio write of 24 microphone values", radio_write, HPSDR_SHORT_BUFFER);
    pass.mic = 25;
    refuse("radio write of word 5", radio_write, HPSDR_RANGE);
    pass.word = SIZE_MAX;
    refuse("radio write of the last word there is", radio_write, HPSDR_RANGE);
    pass.word = 1;
    for (uint32_t *version = &lent.status[1].board1; version <= &lent.status[1].board4; version++) {
        *version = 128;
        refuse("radio write of version 128", radio_write, HPSDR_RANGE);
        *version = 0;
    }
    for (size_t at = 0; at < 150; at++) {
        lent.iq[1][at] = at % 2 ? 8388608 : -8388609;
        refuse("radio write of a sample too large", radio_write, HPSDR_RANGE);
        lent.iq[1][at] = sample(at);
    }
}

/* ---- transfers ---- */

/* Frames with samples of their own, which carry the full record's words 0 to 4 and then 0 again; slices that have just
 * room for them. */
static void set_out_transfer(size_t receivers, size_t frames) {
    set_out();
    pass.receivers = receivers;
    pass.input = HPSDR_FRAME * frames;
    pass.mic = rows[receivers - 1].slots * frames;
    pass.iq = 2 * receivers * pass.mic;
    for (size_t number = 0; number < frames; number++) {
        uint8_t *frame = lent.input[1] + HPSDR_FRAME * number;
        memset(frame, 0x7F, 3);
        set_control(frame, full_status_words[number % (LAST_WORD + 1)]);
        draw_samples(frame, receivers, number);
    }
    expect_unchanged();
}

/* The first so many frames are read. */
static void expect_frames(size_t frames) {
    expect_unchanged();
    if (frames == 0)
        return;
    put_samples(&expected, pass.receivers, frames);
    expected.status[1] = status_after(frames - 1);
}

static void test_transfers(size_t receivers, size_t more) {
    for (size_t frames = 1; frames <= HPSDR_MOST_FRAMES; frames++) {
        set_out_transfer(receivers, frames);
        pass.iq += more;
        pass.mic += more;
        pass.status += more;
        expect_frames(frames);
        run("transfer", radio_read_transfer, HPSDR_ACCEPTED, (uint32_t)frames);
    }
}

/* Each of eight frames is damaged in turn, at one place of it: alone, then with the last byte before an end, and with
 * the whole frame behind. */
static void test_stops(size_t receivers, size_t place, size_t end, enum hpsdr_answer refusal) {
    for (size_t frames = 0; frames < HPSDR_MOST_FRAMES; frames++) {
        set_out_transfer(receivers, HPSDR_MOST_FRAMES);
        uint8_t *frame = lent.input[1] + HPSDR_FRAME * frames;
        frame[place] ^= 0x80;
        expect_frames(frames);
        run_at("transfer with a damaged frame", radio_read_transfer, refusal, (uint32_t)frames, place);
        frame[end - 1] = 0xFF;
        memset(frame + HPSDR_FRAME, 0xFF, HPSDR_FRAME);
        expect_frames(frames);
        run_at("transfer with two damaged frames", radio_read_transfer, refusal, (uint32_t)frames, place);
    }
}

static void test_all_stops(void) {
    for (size_t receivers = 1; receivers <= HPSDR_MOST_RECEIVERS; receivers++) {
        for (size_t place = 0; place < 3; place++)
            test_stops(receivers, place, 3, HPSDR_NO_SYNC);
        for (size_t place = HPSDR_FRAME - rows[receivers - 1].padding; place < HPSDR_FRAME; place++)
            test_stops(receivers, place, HPSDR_FRAME, HPSDR_PADDING);
    }
}

/* Each of eight frames has a level above 4,095 in turn, with all keys: alone, then with the other level too, and with
 * the whole frame behind damaged. */
static void test_level_stops(size_t receivers, const struct level_word *of, size_t which) {
    for (size_t frames = 0; frames < HPSDR_MOST_FRAMES; frames++) {
        set_out_transfer(receivers, HPSDR_MOST_FRAMES);
        uint8_t *frame = lent.input[1] + HPSDR_FRAME * frames;
        put_levels(frame, (uint8_t)(of->word << 3 | 7), which == 0 ? 0x1001 : 1, which == 0 ? 1 : 0x1001);
        expect_frames(frames);
        run_at("transfer with a level above 4,095", radio_read_transfer, HPSDR_RESERVED, (uint32_t)frames,
               of->causes[which]);
        put_levels(frame, (uint8_t)(of->word << 3 | 7), 0x1001, 0x1001);
        memset(frame + HPSDR_FRAME, 0xFF, HPSDR_FRAME);
        expect_frames(frames);
        run_at("transfer with two levels above 4,095", radio_read_transfer, HPSDR_RESERVED, (uint32_t)frames,
               of->causes[0]);
    }
}

/* Unlisted words with every bit, read into a record whose levels no frame has: these stay. */
static void test_unlisted_transfers(uint32_t level) {
    for (uint8_t first = LAST_WORD + 1; first + HPSDR_MOST_FRAMES <= 32; first++) {
        set_out_transfer(1, HPSDR_MOST_FRAMES);
        raise_levels(&lent, level);
        for (uint8_t number = 0; number < HPSDR_MOST_FRAMES; number++)
            put_levels(lent.input[1] + HPSDR_FRAME * number, (uint8_t)((first + number) << 3 | 7), 0xFFFF, 0xFFFF);
        expect_unchanged();
        put_samples(&expected, 1, HPSDR_MOST_FRAMES);
        expected.status[1].dot = expected.status[1].dash = expected.status[1].ptt = 1;
        run("transfer of unlisted words", radio_read_transfer, HPSDR_ACCEPTED, HPSDR_MOST_FRAMES);
    }
}

/* Words 1 to 3 with the greatest levels there are, read into such a record: the levels of each word that came are
 * replaced. */
static void test_transfers_of_levels(uint32_t level) {
    for (uint32_t frames = 1; level_words + frames <= level_words_end; frames++) {
        set_out_transfer(1, frames);
        raise_levels(&lent, level);
        for (size_t number = 0; number < frames; number++)
            put_levels(lent.input[1] + HPSDR_FRAME * number, (uint8_t)(level_words[number].word << 3), LEVEL_MOST,
                       LEVEL_MOST);
        expect_unchanged();
        put_samples(&expected, 1, frames);
        for (const struct level_word *of = level_words; of < level_words + frames; of++)
            *status_cell(&expected, of->cells[0]) = *status_cell(&expected, of->cells[1]) = LEVEL_MOST;
        run("transfer of the greatest levels", radio_read_transfer, HPSDR_ACCEPTED, frames);
    }
}

/* C0 to C4 of one of the words 0 to 7, and of the high bytes of levels seven in eight good, so that frames of both
 * kinds come. */
static void put_noise(uint8_t *frame) {
    static uint32_t state = 1;
    for (size_t place = 3; place < FIRST_PAYLOAD; place++) {
        state = state * 1664525 + 1013904223;
        const bool good = place % 2 == 0 && (state >> 8 & 7) != 0;
        frame[place] = (uint8_t)(state >> 24 & (place == 3 ? 0x3F : good ? 0x0F : 0xFF));
    }
}

/* Single reads and transfers of such frames, all into one record that began fresh: whatever a call answers, no level is
 * above 4,095 after it. */
static void test_no_level_above(void) {
    size_t taken = 0, refused = 0;
    set_out_transfer(1, HPSDR_MOST_FRAMES);
    for (unsigned call = 0; call < 4000; call++) {
        put_noise(lent.frame[1]);
        for (size_t number = 0; number < HPSDR_MOST_FRAMES; number++)
            put_noise(lent.input[1] + HPSDR_FRAME * number);
        const uint32_t got = call % 2 ? radio_read() : radio_read_transfer();
        *(hpsdr_answer_of(got) == HPSDR_ACCEPTED ? &taken : &refused) += 1;
        for (const struct level_word *of = level_words; of < level_words_end; of++)
            if (*status_cell(&lent, of->cells[0]) > LEVEL_MOST || *status_cell(&lent, of->cells[1]) > LEVEL_MOST)
                report("call %u: a level of word %u is above 4,095", call, (unsigned)of->word);
    }
    if (taken < 100 || refused < 100)
        report("of calls with noise %zu were accepted and %zu refused, expected many of both", taken, refused);
}

static void test_transfer_lengths(void) {
    static const size_t wrong[] = {0, 1, 511, 513, 1023, 1025, 4095, 4097, 4607, NINE_FRAMES};
    for (size_t at = 0; at < sizeof wrong / sizeof *wrong; at++) {
        set_out_transfer(1, HPSDR_MOST_FRAMES);
        pass.input = wrong[at];
        refuse("transfer of a wrong length", radio_read_transfer, HPSDR_LENGTH);
        pass.iq = pass.mic = 0;
        refuse("transfer of a wrong length to no room", radio_read_transfer, HPSDR_LENGTH);
    }
}

/* Each refusal, mending what gave the one before. The third frame's would come first by its number. The second carries
 * word 1 and the third word 2, both with a level above 4,095. */
static void test_transfer_refusals(void) {
    set_out_transfer(3, 3);
    lent.input[1][HPSDR_FRAME + 511] = 1;
    lent.input[1][HPSDR_FRAME + 4] |= 0x90;
    lent.input[1][2 * HPSDR_FRAME + 1] = 0x7E;
    lent.input[1][2 * HPSDR_FRAME + 6] |= 0x10;
    lent.status[1].pll = 2;
    pass.receivers = 9;
    pass.input--;
    pass.mic = 25;
    refuse("transfer, bad state", radio_read_transfer, HPSDR_BAD_STATE);
    lent.status[1].pll = 0;
    refuse("transfer for 9", radio_read_transfer, HPSDR_BAD_COUNT);
    pass.receivers = 0;
    refuse("transfer for 0", radio_read_transfer, HPSDR_BAD_COUNT);
    pass.receivers = 3;
    refuse("transfer of 1,535 bytes", radio_read_transfer, HPSDR_LENGTH);
    pass.input++;
    refuse("transfer to one frame's microphone values", radio_read_transfer, HPSDR_SHORT_BUFFER);
    pass.mic = 74;
    refuse("transfer to 74 microphone values", radio_read_transfer, HPSDR_SHORT_BUFFER);
    pass.mic = 75;
    pass.iq = 150;
    refuse("transfer to one frame's samples", radio_read_transfer, HPSDR_SHORT_BUFFER);
    pass.iq = 449;
    refuse("transfer to 449 samples", radio_read_transfer, HPSDR_SHORT_BUFFER);
    pass.iq = 450;
    expect_frames(1);
    run_at("transfer with padding, then without sync", radio_read_transfer, HPSDR_PADDING, 1, 511);
    lent.input[1][HPSDR_FRAME + 511] = 0;
    expect_frames(1);
    run_at("transfer with a level, then without sync", radio_read_transfer, HPSDR_RESERVED, 1, HPSDR_CAUSE_AIN5);
    lent.input[1][HPSDR_FRAME + 4] &= 0x0F;
    expect_frames(2);
    run_at("transfer without sync", radio_read_transfer, HPSDR_NO_SYNC, 2, 1);
    lent.input[1][2 * HPSDR_FRAME + 1] = 0x7F;
    expect_frames(2);
    run_at("transfer with a level in its last frame", radio_read_transfer, HPSDR_RESERVED, 2, HPSDR_CAUSE_AIN3);
    lent.input[1][2 * HPSDR_FRAME + 6] &= 0x0F;
    expect_frames(3);
    run("transfer with nothing wrong", radio_read_transfer, HPSDR_ACCEPTED, 3);
}

/* ---- host frames ---- */

static int16_t audio_number(size_t at) { return (int16_t)(at ? (int)at * 259 - 32000 : -32768); }

static void put_audio(struct desk *desk) {
    for (size_t at = 0; at < HPSDR_AUDIO; at++)
        desk->audio[1][at] = audio_number(at);
}

/* T-03: Q stands where I is drawn, and I where Q is drawn. */
static void draw_audio(uint8_t *frame) {
    static const size_t drawn[] = {0, 1, 3, 2};
    for (size_t at = 0; at < HPSDR_AUDIO; at++)
        put_number(frame + FIRST_PAYLOAD + 2 * at, (uint32_t)audio_number(at / 4 * 4 + drawn[at % 4]), 2);
}

static const struct hpsdr_host full_host = {
    .mox = 1, .speed = HPSDR_384_KHZ, .source10 = HPSDR_10_MERCURY, .source122 = HPSDR_122_PENELOPE,
    .boards = HPSDR_BOARD_MERCURY, .microphone = HPSDR_MICROPHONE_PENELOPE, .outputs = 0x55,
    .attenuator = HPSDR_10_DB, .preamp = 1, .random = 1, .antenna = HPSDR_ANTENNA_RX2, .relay = HPSDR_TX3,
    .receivers = 8, .time_stamp = 1, .transmitter = 0x01020304,
    .frequencies = {0x11121314, 0x21222324, 0x31323334, 0x41424344, 0x51525354, 0x61626364, 0xFFFEFDFC},
    .drive = 0xA5, .mic_boost = 1, .apollo_filter = 1, .apollo_tuner = 1, .manual_filters = 1,
    .high_pass_20 = 1, .high_pass_9_5 = 1, .high_pass_1_5 = 1, .tr_disabled = 1,
    .low_pass_30_20 = 1, .low_pass_80 = 1, .low_pass_12_10 = 1, .low_pass_17_15 = 1,
    .rx_preamps = {1, 0, 1, 1}, .orion_jack = HPSDR_PTT_TO_TIP, .mic_ptt_disabled = 1,
    .line_in_gain = 19, .word10_c2_top = 6, .word10_c3 = 0xB7, .word10_c4 = 0x8E};
static const uint8_t full_host_words[LAST_TURN + 1][5] = {
    {0x01, 0xCB, 0xAA, 0x55, 0x7A}, {0x03, 0x01, 0x02, 0x03, 0x04}, {0x05, 0x11, 0x12, 0x13, 0x14},
    {0x07, 0x21, 0x22, 0x23, 0x24}, {0x09, 0x31, 0x32, 0x33, 0x34}, {0x0B, 0x41, 0x42, 0x43, 0x44},
    {0x0D, 0x51, 0x52, 0x53, 0x54}, {0x0F, 0x61, 0x62, 0x63, 0x64}, {0x11, 0xFF, 0xFE, 0xFD, 0xFC},
    {0x13, 0xA5, 0x4D, 0x96, 0x65}, {0x15, 0x5D, 0xD3, 0xB7, 0x8E}};

/* The words in the order 10 to 0 on a fresh record: after each the record has the full one's cells from it on. Four
 * numbers more are a slot more, which stays. */
static void test_host_words(size_t more) {
    static const size_t first_cell[] = {1, 19, 20, 21, 22, 23, 24, 25, 26, 27, 51};
    set_out();
    pass.host += more;
    pass.audio += more;
    draw_audio(lent.frame[1]);
    expect_unchanged();
    put_audio(&expected);
    for (size_t left = LAST_TURN + 1; left > 0; left--) {
        const size_t word = left - 1;
        set_control(lent.frame[1], full_host_words[word]);
        set_control(expected.frame[1], full_host_words[word]);
        expected.host[1].mox = 1;
        memcpy((uint32_t *)&expected.host[1] + first_cell[word], (const uint32_t *)&full_host + first_cell[word],
               (HPSDR_HOST_CELLS - first_cell[word]) * sizeof(uint32_t));
        run("host read of a word", host_read, HPSDR_ACCEPTED, (uint32_t)word);
    }
}

static void test_builds(size_t more) {
    set_out();
    pass.builder += more;
    pass.audio += more;
    lent.builder[1].host = full_host;
    put_audio(&lent);
    expect_unchanged();
    draw_audio(expected.frame[1]);
    for (size_t turn = 0; turn <= LAST_TURN; turn++) {
        memset(lent.frame[1], 0xEE, HPSDR_FRAME);
        set_control(expected.frame[1], full_host_words[turn]);
        expected.builder[1].turn = turn == LAST_TURN ? 0 : (uint32_t)turn + 1;
        run("build", build, HPSDR_ACCEPTED, 0);
    }
}

/* One slot's L, R, I and Q among zeros, read and built, and the bytes that request T-03 makes of them. */
static void test_slot(size_t slot, const int16_t numbers[4], const uint8_t bytes[8]) {
    set_out();
    memcpy(lent.frame[1] + FIRST_PAYLOAD + 8 * slot, bytes, 8);
    expect_unchanged();
    memset(expected.audio[1], 0, sizeof expected.audio[1]);
    memcpy(expected.audio[1] + 4 * slot, numbers, 4 * sizeof *numbers);
    run("host read of one slot", host_read, HPSDR_ACCEPTED, 0);
    memcpy(lent.audio[1], expected.audio[1], sizeof lent.audio[1]);
    memset(lent.frame[1], 0xEE, HPSDR_FRAME);
    expected.builder[1].turn = 1;
    run("build of one slot", build, HPSDR_ACCEPTED, 0);
}

static void test_slots(void) {
    for (size_t slot = 0; slot < HPSDR_AUDIO / 4; slot++) {
        test_slot(slot, (const int16_t[]){258, 772, 1286, 1800}, (const uint8_t[]){1, 2, 3, 4, 7, 8, 5, 6});
        test_slot(slot, (const int16_t[]){-2, -259, 32767, -32768},
                  (const uint8_t[]){0xFF, 0xFE, 0xFE, 0xFD, 0x80, 0x00, 0x7F, 0xFF});
    }
}

/* A word on a fresh record, with the one cell that it then changes; and the frame built of that record. */
static void test_host_cell(const uint8_t control[5], size_t cell, uint32_t value) {
    const uint32_t address = control[0] >> 1;
    set_out();
    set_control(lent.frame[1], control);
    expect_unchanged();
    memset(expected.audio[1], 0, sizeof expected.audio[1]);
    ((uint32_t *)&expected.host[1])[cell] = value;
    run("host read of one cell", host_read, HPSDR_ACCEPTED, address);
    if (address > LAST_TURN)
        return;
    memset(lent.frame[1], 0xEE, HPSDR_FRAME);
    lent.builder[1] = (struct hpsdr_builder){expected.host[1], address};
    expected.builder[1] = (struct hpsdr_builder){expected.host[1], address == LAST_TURN ? 0 : address + 1};
    run("build of one cell", build, HPSDR_ACCEPTED, 0);
}

#define HOST_CELL(member) (offsetof(struct hpsdr_host, member) / sizeof(uint32_t))

/* Each code of words 0 and 10 by itself, up to the last that is assigned. */
static void test_codes(void) {
    static const struct {
        uint8_t word;
        size_t cell;
        unsigned byte, bit;
        uint32_t last;
    } codes[] = {{0, HOST_CELL(speed), 1, 0, 3},            {0, HOST_CELL(source10), 1, 2, 2},
                 {0, HOST_CELL(source122), 1, 4, 1},        {0, HOST_CELL(boards), 1, 5, 3},
                 {0, HOST_CELL(microphone), 1, 7, 1},       {0, HOST_CELL(class_e), 2, 0, 1},
                 {0, HOST_CELL(outputs), 2, 1, 127},        {0, HOST_CELL(attenuator), 3, 0, 3},
                 {0, HOST_CELL(preamp), 3, 2, 1},           {0, HOST_CELL(dither), 3, 3, 1},
                 {0, HOST_CELL(random), 3, 4, 1},           {0, HOST_CELL(antenna), 3, 5, 3},
                 {0, HOST_CELL(rx_out), 3, 7, 1},           {0, HOST_CELL(relay), 4, 0, 2},
                 {0, HOST_CELL(duplex), 4, 2, 1},           {0, HOST_CELL(time_stamp), 4, 6, 1},
                 {0, HOST_CELL(common_frequency), 4, 7, 1}, {10, HOST_CELL(rx_preamps[0]), 1, 0, 1},
                 {10, HOST_CELL(rx_preamps[1]), 1, 1, 1},   {10, HOST_CELL(rx_preamps[2]), 1, 2, 1},
                 {10, HOST_CELL(rx_preamps[3]), 1, 3, 1},   {10, HOST_CELL(orion_jack), 1, 4, 1},
                 {10, HOST_CELL(mic_bias), 1, 5, 1},        {10, HOST_CELL(mic_ptt_disabled), 1, 6, 1},
                 {10, HOST_CELL(line_in_gain), 2, 0, 31},   {10, HOST_CELL(word10_c2_top), 2, 5, 7},
                 {10, HOST_CELL(word10_c3), 3, 0, BYTE},    {10, HOST_CELL(word10_c4), 4, 0, BYTE}};
    for (size_t at = 0; at < sizeof codes / sizeof *codes; at++)
        for (uint32_t code = 0; code <= codes[at].last; code++) {
            uint8_t control[5] = {(uint8_t)(codes[at].word << 1)};
            control[codes[at].byte] = (uint8_t)(code << codes[at].bit);
            test_host_cell(control, codes[at].cell, code);
        }
    for (uint8_t receivers = 1; receivers <= HPSDR_MOST_RECEIVERS; receivers++)
        test_host_cell((const uint8_t[]){0, 0, 0, 0, (uint8_t)((receivers - 1) << 3)}, HOST_CELL(receivers), receivers);
}

/* Each bit of word 9 by itself: its cells are in the order of the bits, from C2's bit 0. */
static void test_filter_bits(void) {
    for (unsigned bit = 0; bit < 23; bit++) {
        uint8_t control[5] = {9 << 1};
        control[2 + bit / 8] = (uint8_t)(1u << bit % 8);
        test_host_cell(control, HOST_CELL(mic_boost) + bit, 1);
    }
}

static void test_mox(void) {
    for (uint8_t address = 0; address < 128; address++)
        test_host_cell((const uint8_t[]){(uint8_t)(address << 1 | 1), 0, 0, 0, 0}, HOST_CELL(mox), 1);
}

static void test_unlisted_host_words(void) {
    for (uint8_t address = LAST_TURN + 1; address < 128; address++) {
        set_out();
        lent.host[1] = full_host;
        set_control(lent.frame[1], (const uint8_t[]){(uint8_t)(address << 1), 0xFF, 0xFF, 0xFF, 0xFF});
        expect_unchanged();
        memset(expected.audio[1], 0, sizeof expected.audio[1]);
        expected.host[1].mox = 0;
        run("host read of an unlisted word", host_read, HPSDR_ACCEPTED, address);
    }
}

static void test_host_read_refusals(void) {
    static const struct {
        const char *what;
        uint8_t control[5];
        enum hpsdr_cause cause;
    } reserved[] = {{"host read of relay 3", {1, 0, 0, 0, 0x17}, HPSDR_CAUSE_RELAY},
                    {"host read of source 3", {0, 0x0C, 0, 0, 0}, HPSDR_CAUSE_SOURCE10},
                    {"host read of source 3 and relay 3", {0, 0x0C, 0, 0, 0x03}, HPSDR_CAUSE_SOURCE10},
                    {"host read of all bits in word 0", {1, 0xFF, 0xFF, 0xFF, 0xFF}, HPSDR_CAUSE_SOURCE10},
                    {"host read of all bits but the source's low", {1, 0xFB, 0xFF, 0xFF, 0xFF}, HPSDR_CAUSE_RELAY},
                    {"host read of all bits but the source's high", {1, 0xF7, 0xFF, 0xFF, 0xFF}, HPSDR_CAUSE_RELAY},
                    {"host read of word 9's C4 bit 7", {9 << 1, 0, 0, 0, 0x80}, HPSDR_CAUSE_WORD9_C4_BIT7},
                    {"host read of all bits in word 9", {0x13, 0xFF, 0xFF, 0xFF, 0xFF}, HPSDR_CAUSE_WORD9_C4_BIT7},
                    {"host read of word 10's C1 bit 7", {10 << 1, 0x80, 0, 0, 0}, HPSDR_CAUSE_WORD10_C1_BIT7},
                    {"host read of all bits in word 10", {0x15, 0xFF, 0xFF, 0xFF, 0xFF}, HPSDR_CAUSE_WORD10_C1_BIT7}};
    set_out();
    set_control(lent.frame[1], reserved[0].control);
    lent.frame[1][0] = 0;
    lent.host[1].relay = 3;
    pass.audio = HPSDR_AUDIO - 1;
    pass.frame = 511;
    refuse("host read, bad state", host_read, HPSDR_BAD_STATE);
    lent.host[1].relay = 2;
    refuse("host read of 511 bytes", host_read, HPSDR_LENGTH);
    pass.frame = 513;
    refuse("host read of 513 bytes", host_read, HPSDR_LENGTH);
    pass.frame = 512;
    refuse("host read to 251 numbers", host_read, HPSDR_SHORT_BUFFER);
    pass.audio = HPSDR_AUDIO;
    refuse_at("host read without sync", host_read, HPSDR_NO_SYNC, 0);
    lent.frame[1][0] = 0x7F;
    for (size_t at = 0; at < sizeof reserved / sizeof *reserved; at++) {
        set_control(lent.frame[1], reserved[at].control);
        refuse_at(reserved[at].what, host_read, HPSDR_RESERVED, reserved[at].cause);
    }
}

static void test_turns_past_the_last(void) {
    set_out();
    for (uint32_t turn = LAST_TURN + 1; turn <= BYTE; turn++) {
        lent.builder[1].turn = turn;
        refuse("build of a turn past the last", build, HPSDR_BAD_STATE);
    }
}

static void test_build_refusals(void) {
    static const struct {
        const char *what;
        size_t cell;
        uint32_t value;
    } strays[] = {{"build of outputs 128", HOST_CELL(outputs), 128},
                  {"build of 0 receivers", HOST_CELL(receivers), 0},
                  {"build of 9 receivers", HOST_CELL(receivers), 9},
                  {"build of gain 32", HOST_CELL(line_in_gain), 32},
                  {"build of gain 255", HOST_CELL(line_in_gain), BYTE},
                  {"build of top bits 8", HOST_CELL(word10_c2_top), 8},
                  {"build of top bits 255", HOST_CELL(word10_c2_top), BYTE}};
    for (uint32_t turn = 0; turn <= LAST_TURN; turn++) {
        set_out();
        lent.builder[1].host.outputs = 128;
        lent.builder[1].turn = 11;
        pass.frame = 511;
        pass.audio = HPSDR_AUDIO - 1;
        refuse("build of turn 11", build, HPSDR_BAD_STATE);
        lent.builder[1].turn = turn;
        refuse("build to 511 bytes", build, HPSDR_LENGTH);
        pass.frame = 513;
        refuse("build to 513 bytes", build, HPSDR_LENGTH);
        pass.frame = 512;
        refuse("build of 251 numbers", build, HPSDR_SHORT_BUFFER);
        pass.audio = HPSDR_AUDIO;
        for (size_t at = 0; at < sizeof strays / sizeof *strays; at++) {
            lent.builder[1].host = fresh_host;
            ((uint32_t *)&lent.builder[1].host)[strays[at].cell] = strays[at].value;
            refuse(strays[at].what, build, HPSDR_RANGE);
        }
    }
}

/* ---- the stream reader ---- */

static void set_counts(uint64_t held, uint64_t frames, uint64_t skipped, uint64_t total) {
    lent.counts[1] = (struct hpsdr_counts){held, frames, skipped, total};
}

static void test_sound(void) {
    static const struct {
        struct hpsdr_counts counts;
        enum hpsdr_answer answer;
    } cases[] = {{{0, 0, 0, 0}, HPSDR_ACCEPTED},
                 {{514, 2, 3, 1541}, HPSDR_ACCEPTED},
                 {{515, 0, 0, 515}, HPSDR_BAD_STATE},
                 {{UINT64_MAX, 0, 1, 0}, HPSDR_BAD_STATE},
                 {{514, 2, 3, 1540}, HPSDR_BAD_STATE},
                 {{0, 0, MOST_BYTES, MOST_BYTES}, HPSDR_ACCEPTED},
                 {{0, 0, MOST_BYTES + 1, MOST_BYTES + 1}, HPSDR_BAD_STATE},
                 /* Sums that are the total only where 2^64 is taken for 0. */
                 {{0, UINT64_C(1) << 55, 0, 0}, HPSDR_BAD_STATE},
                 {{0, 1, UINT64_MAX - 511, 0}, HPSDR_BAD_STATE},
                 {{1, 0, UINT64_MAX, 0}, HPSDR_BAD_STATE}};
    for (size_t at = 0; at < sizeof cases / sizeof *cases; at++) {
        set_out();
        lent.counts[1] = cases[at].counts;
        expect_unchanged();
        run("stream sound", stream_sound, cases[at].answer, 0);
        pass.piece = HPSDR_PIECE_MOST + 1;
        pass.output = HPSDR_OUTPUT_LEAST - 1;
        refuse("stream feed of 4,097", stream_feed, cases[at].answer ? HPSDR_BAD_STATE : HPSDR_LENGTH);
    }
    for (size_t held = 0; held < HPSDR_HELD; held++) {
        set_out();
        set_counts(held, 0, 0, held);
        lent.held[1][HPSDR_HELD - 1] = 1;
        refuse("stream sound with a byte after the held", stream_sound, HPSDR_BAD_STATE);
        refuse("stream feed with a byte after the held", stream_feed, HPSDR_BAD_STATE);
    }
}

static void test_feed_refusals(void) {
    set_out();
    set_counts(0, 0, MOST_BYTES - 4095, MOST_BYTES - 4095);
    pass.piece = HPSDR_PIECE_MOST;
    pass.output = HPSDR_OUTPUT_LEAST - 1;
    refuse("stream feed to 4,095", stream_feed, HPSDR_SHORT_BUFFER);
    pass.output = HPSDR_OUTPUT_LEAST;
    refuse("stream feed past 2^48", stream_feed, HPSDR_STREAM_FULL);
    set_counts(0, 0, MOST_BYTES - 2, MOST_BYTES - 2);
    pass.piece = 2;
    expect_unchanged();
    expected.counts[1] = (struct hpsdr_counts){2, 0, MOST_BYTES - 2, MOST_BYTES};
    memcpy(expected.held[1], lent.piece[1], 2);
    run("stream feed up to 2^48", stream_feed, HPSDR_ACCEPTED, 0);
    pass.piece = 0;
    run("stream feed of nothing", stream_feed, HPSDR_ACCEPTED, 0);
    pass.piece = 1;
    refuse("stream feed of a full stream", stream_feed, HPSDR_STREAM_FULL);
}

/* What document 01's reading of the first `length` bytes gives, place by place. */
static struct hpsdr_counts read_plainly(const uint8_t *bytes, size_t length, size_t starts[]) {
    static const uint8_t sync[3] = {0x7F, 0x7F, 0x7F};
    struct hpsdr_counts counts = {0, 0, 0, length};
    size_t place = 0;
    while (length - place >= 515)
        if (memcmp(bytes + place, sync, 3) == 0 && memcmp(bytes + place + 512, sync, 3) == 0) {
            starts[counts.frames++] = place;
            place += 512;
        } else {
            counts.skipped++;
            place++;
        }
    counts.held = length - place;
    return counts;
}

enum { RECORDED = 2 + 4 * HPSDR_FRAME + 37 + 3 };

/* Two stray bytes of sync; frames A, B (of 7F all over), C; 37 stray bytes that begin with sync; D; sync. */
static void record(uint8_t bytes[RECORDED]) {
    static const size_t frames[] = {2, 514, 1026, 1575}, syncs[] = {0, 1538, 2087};
    memset(bytes, 0x55, RECORDED);
    for (size_t at = 0; at < 4; at++) {
        memset(bytes + frames[at], at == 1 ? 0x7F : (int)at, HPSDR_FRAME);
        memset(bytes + frames[at], 0x7F, 3);
    }
    for (size_t at = 0; at < 3; at++)
        memset(bytes + syncs[at], 0x7F, 3);
    bytes[514 + 3] = 0;
}

/* Feeds a recording in pieces of one size, and compares after each with the plain reading of all so far. */
static void test_pieces(const uint8_t *bytes, size_t length, size_t size) {
    size_t starts[16];
    set_out();
    pass.counts++;
    pass.held++;
    pass.output++;
    for (size_t fed = 0; fed < length;) {
        pass.piece = size < length - fed ? size : length - fed;
        memcpy(lent.piece[1], bytes + fed, pass.piece);
        fed += pass.piece;
        expect_unchanged();
        const uint64_t before = lent.counts[1].frames;
        const struct hpsdr_counts after = read_plainly(bytes, fed, starts);
        expected.counts[1] = after;
        memset(expected.held[1], 0, HPSDR_HELD);
        memcpy(expected.held[1], bytes + fed - after.held, (size_t)after.held);
        for (uint64_t frame = before; frame < after.frames; frame++)
            memcpy(expected.output[1] + HPSDR_FRAME * (frame - before), bytes + starts[frame], HPSDR_FRAME);
        run("stream feed of a piece", stream_feed, HPSDR_ACCEPTED, (uint32_t)(after.frames - before));
        run("stream sound after a piece", stream_sound, HPSDR_ACCEPTED, 0);
    }
}

static void test_recording(void) {
    static const size_t sizes[] = {1, 2, 3, 511, 512, 513, 514, 515, 1000, HPSDR_PIECE_MOST};
    static uint8_t bytes[RECORDED], nine_frames[9 * HPSDR_FRAME + 3];
    record(bytes);
    size_t starts[16];
    const struct hpsdr_counts counts = read_plainly(bytes, RECORDED, starts);
    if (counts.frames != 4 || counts.skipped != 39 || counts.held != 3)
        report("the plain reading found %u frames, expected 4", (unsigned)counts.frames);
    for (size_t at = 0; at < sizeof sizes / sizeof *sizes; at++)
        test_pieces(bytes, RECORDED, sizes[at]);
    for (size_t place = 0; place < sizeof nine_frames; place++)
        nine_frames[place] = place % HPSDR_FRAME < 3 ? 0x7F : (uint8_t)(place / HPSDR_FRAME);
    test_pieces(nine_frames, sizeof nine_frames, HPSDR_PIECE_MOST);
}

/* Rows j, k and l: some bytes with sync at 0 and perhaps at 512. */
static void test_row(size_t length, bool far_sync, const struct hpsdr_counts after) {
    set_out();
    pass.piece = length;
    memset(lent.piece[1], 0x11, length);
    memset(lent.piece[1], 0x7F, 3);
    if (far_sync)
        memset(lent.piece[1] + 512, 0x7F, 3);
    expect_unchanged();
    expected.counts[1] = after;
    memcpy(expected.output[1], lent.piece[1], HPSDR_FRAME * (size_t)after.frames);
    memcpy(expected.held[1], lent.piece[1] + length - after.held, (size_t)after.held);
    run("stream feed of row j, k or l", stream_feed, HPSDR_ACCEPTED, (uint32_t)after.frames);
}

/* The most that can come of a call: 514 held bytes and 4,096 make eight frames. */
static void test_eight_frames(void) {
    set_out();
    for (size_t place = 0; place < HPSDR_HELD + HPSDR_PIECE_MOST; place++) {
        const uint8_t byte = place % HPSDR_FRAME < 3 ? 0x7F : (uint8_t)(place / HPSDR_FRAME);
        *(place < HPSDR_HELD ? lent.held[1] + place : lent.piece[1] + place - HPSDR_HELD) = byte;
    }
    set_counts(HPSDR_HELD, 0, 0, HPSDR_HELD);
    pass.piece = HPSDR_PIECE_MOST;
    expect_unchanged();
    expected.counts[1] = (struct hpsdr_counts){HPSDR_HELD, 8, 0, HPSDR_HELD + HPSDR_PIECE_MOST};
    memcpy(expected.output[1], lent.held[1], HPSDR_HELD);
    memcpy(expected.output[1] + HPSDR_HELD, lent.piece[1], HPSDR_OUTPUT_LEAST - HPSDR_HELD);
    memcpy(expected.held[1], lent.piece[1] + HPSDR_PIECE_MOST - HPSDR_HELD, HPSDR_HELD);
    run("stream feed of eight frames", stream_feed, HPSDR_ACCEPTED, 8);
}

/* ---- the plain reader and the reasons, on a desk of their own: every other call would compare its bytes too ---- */

struct plain_desk {
    uint8_t input[3][HPSDR_INPUT_MOST + 1];
    uint8_t output[3][HPSDR_INPUT_MOST + 1];
};
static struct plain_desk plain, plain_expected;

/* What is due of a reading: its numbers, and where its frames begin. */
struct plain_due {
    enum hpsdr_answer answer;
    uint64_t frames, skipped, left;
    const size_t *starts;
};

/* No byte of the input is 7F, and no two of 127 frames that stand one after another are alike. */
static void set_out_plain(void) {
    memset(&plain, 0xEE, sizeof plain);
    for (size_t place = 0; place < sizeof plain.input[1]; place++)
        plain.input[1][place] = (uint8_t)(0x80 | place % 127);
}

static void put_sync(size_t place) { memset(plain.input[1] + place, 0x7F, 3); }

/* Reads the first so many bytes into so many of the output, and compares all 64 bits and the whole desk. */
static void run_plain(const char *what, size_t length, size_t output, const struct plain_due *due) {
    const uint64_t should = due->answer | due->frames << 8 | due->skipped << 32 | due->left << 48;
    memcpy(&plain_expected, &plain, sizeof plain);
    for (size_t frame = 0; frame < due->frames; frame++)
        memcpy(plain_expected.output[1] + HPSDR_FRAME * frame, plain.input[1] + due->starts[frame], HPSDR_FRAME);
    const uint64_t is = hpsdr_plain_read(plain.input[1], length, plain.output[1], output);
    if (is != should)
        report("%s: got %016" PRIX64 ", expected %016" PRIX64, what, is, should);
    compare(what, "input", plain.input[0], plain_expected.input[0], sizeof plain.input);
    compare(what, "output", plain.output[0], plain_expected.output[0], sizeof plain.output);
}

/* Into an output that is as long as the input, and into a longer one. */
static void read_plain(const char *what, size_t length, const struct plain_due due) {
    run_plain(what, length, length, &due);
    memset(plain.output[1], 0xEE, sizeof plain.output[1]);
    run_plain(what, length, length + 1, &due);
    memset(plain.output[1], 0xEE, sizeof plain.output[1]);
}

static void refuse_plain(const char *what, size_t length, size_t output, enum hpsdr_answer refusal) {
    const struct plain_due due = {.answer = refusal};
    run_plain(what, length, output, &due);
}

/* A place that is asked about, and the reason due with its detail. */
struct asked {
    size_t place;
    enum hpsdr_reason reason;
    uint64_t detail;
};

static const size_t at_0[] = {0}, at_1[] = {1}, at_0_and_549[] = {0, 549}, at_last[] = {65021};

/* What document 01's rule makes of inputs with sync at some places, and of some of their bytes. */
static const struct input {
    const char *what;
    size_t length, count, syncs[4];
    struct plain_due due;
    struct asked asked[12];
} inputs[] = {
    {"nothing", 0, 0, {0}, {.left = 0}, {{0}}},
    {"one byte", 1, 0, {0}, {.left = 1}, {{0, HPSDR_STILL_HELD, 0}}},
    {"row j, 514 with sync at 0", 514, 1, {0}, {.left = 514}, {{0, HPSDR_STILL_HELD, 0}, {513, HPSDR_STILL_HELD, 0}}},
    {"row k, 515 with sync at 0 and 512", 515, 2, {0, 512}, {.frames = 1, .left = 3, .starts = at_0},
     {{0, HPSDR_INSIDE, 0}, {511, HPSDR_INSIDE, 0}, {512, HPSDR_STILL_HELD, 0}, {514, HPSDR_STILL_HELD, 0}}},
    {"row l, 515 with sync at 0 only", 515, 1, {0}, {.skipped = 1, .left = 514},
     {{0, HPSDR_FAR_SYNC, 0}, {1, HPSDR_STILL_HELD, 0}, {514, HPSDR_STILL_HELD, 0}}},
    {"515 with sync at 512 only", 515, 1, {512}, {.skipped = 1, .left = 514},
     {{0, HPSDR_NEAR_SYNC, 0}, {1, HPSDR_STILL_HELD, 0}, {512, HPSDR_STILL_HELD, 0}}},
    /* Place 100 is never come to, and at 512 fewer than 515 bytes remain. */
    {"sync inside a frame", 615, 4, {0, 100, 512, 612}, {.frames = 1, .left = 103, .starts = at_0},
     {{99, HPSDR_INSIDE, 0}, {100, HPSDR_INSIDE, 0}, {511, HPSDR_INSIDE, 0}, {512, HPSDR_STILL_HELD, 0},
      {612, HPSDR_STILL_HELD, 0}, {614, HPSDR_STILL_HELD, 0}}},
    /* At 512 there is sync, but none at 1,024: the 37 bytes up to 549 are skipped. Sync goes on to 514. */
    {"stray bytes between frames", 1064, 4, {0, 512, 549, 1061},
     {.frames = 2, .skipped = 37, .left = 3, .starts = at_0_and_549},
     {{0, HPSDR_INSIDE, 0}, {511, HPSDR_INSIDE, 0}, {512, HPSDR_FAR_SYNC, 0}, {513, HPSDR_NEAR_SYNC, 2},
      {514, HPSDR_NEAR_SYNC, 1}, {515, HPSDR_NEAR_SYNC, 0}, {548, HPSDR_NEAR_SYNC, 0}, {549, HPSDR_INSIDE, 549},
      {1060, HPSDR_INSIDE, 549}, {1061, HPSDR_STILL_HELD, 0}, {1063, HPSDR_STILL_HELD, 0}}},
    /* From 513 on there are 599 bytes. They have no second sync, and 85 of them are skipped, up to 597. */
    {"stray bytes before and after a frame", 1112, 2, {1, 513},
     {.frames = 1, .skipped = 1 + 85, .left = 514, .starts = at_1},
     {{0, HPSDR_NEAR_SYNC, 0}, {1, HPSDR_INSIDE, 1}, {512, HPSDR_INSIDE, 1}, {513, HPSDR_FAR_SYNC, 0},
      {514, HPSDR_NEAR_SYNC, 2}, {515, HPSDR_NEAR_SYNC, 1}, {516, HPSDR_NEAR_SYNC, 0}, {597, HPSDR_NEAR_SYNC, 0},
      {598, HPSDR_STILL_HELD, 0}, {1111, HPSDR_STILL_HELD, 0}}},
    {"no sync", 65536, 0, {0}, {.skipped = 65022, .left = 514},
     {{0, HPSDR_NEAR_SYNC, 0}, {65021, HPSDR_NEAR_SYNC, 0}, {65022, HPSDR_STILL_HELD, 0},
      {65535, HPSDR_STILL_HELD, 0}}},
    {"a frame at the last place that is read", 65536, 2, {65021, 65533},
     {.frames = 1, .skipped = 65021, .left = 3, .starts = at_last},
     {{65020, HPSDR_NEAR_SYNC, 0}, {65021, HPSDR_INSIDE, 65021}, {65532, HPSDR_INSIDE, 65021},
      {65533, HPSDR_STILL_HELD, 0}, {65535, HPSDR_STILL_HELD, 0}}},
    {"a frame one place later", 65536, 2, {65022, 65534}, {.skipped = 65022, .left = 514},
     {{65020, HPSDR_NEAR_SYNC, 0}, {65021, HPSDR_NEAR_SYNC, 0}, {65022, HPSDR_STILL_HELD, 0},
      {65535, HPSDR_STILL_HELD, 0}}},
};
static const struct input *const inputs_end = inputs + sizeof inputs / sizeof *inputs;

static void set_out_input(const struct input *input) {
    set_out_plain();
    for (size_t number = 0; number < input->count; number++)
        put_sync(input->syncs[number]);
}

static void test_plain_by_hand(void) {
    for (const struct input *input = inputs; input < inputs_end; input++) {
        set_out_input(input);
        read_plain(input->what, input->length, input->due);
    }
}

/* A stray 7F and two bytes of sync are 7F 7F 7F. 512 bytes later stand the frame's last byte and two bytes of the next
 * sync, so a frame begins at 0 if that last byte is 7F, and at 1 if not. */
static void set_out_stray(void) {
    set_out_plain();
    plain.input[1][0] = 0x7F;
    put_sync(1);
    put_sync(513);
}

static void test_plain_stray(void) {
    set_out_stray();
    read_plain("a stray 7F before a frame", 516,
               (struct plain_due){.frames = 1, .skipped = 1, .left = 3, .starts = at_1});
    plain.input[1][512] = 0x7F;
    read_plain("a stray 7F before a frame that ends in 7F", 516,
               (struct plain_due){.frames = 1, .left = 4, .starts = at_0});
}

/* Each byte of the two syncs, with one bit wrong. */
static void test_plain_sync(void) {
    static const size_t places[] = {0, 1, 2, 512, 513, 514};
    for (size_t at = 0; at < sizeof places / sizeof *places; at++) {
        set_out_plain();
        put_sync(0);
        put_sync(512);
        plain.input[1][places[at]] ^= 1;
        read_plain("515 with a wrong byte of sync", 515, (struct plain_due){.skipped = 1, .left = 514});
    }
}

/* The longest input, with sync every 512 bytes from a place on, 128 times. A frame begins at each but the last: what
 * stands from there on is left, all 512 bytes of a frame if the first place is 0. */
static void set_out_longest(size_t first, size_t starts[128]) {
    set_out_plain();
    for (size_t number = 0; number < 128; number++) {
        starts[number] = first + HPSDR_FRAME * number;
        put_sync(starts[number]);
    }
}

static void test_plain_longest(void) {
    for (size_t first = 0; first < 3; first++) {
        size_t starts[128];
        set_out_longest(first, starts);
        read_plain("frames in the longest input", HPSDR_INPUT_MOST,
                   (struct plain_due){.frames = 127, .skipped = first, .left = 512 - first, .starts = starts});
    }
}

enum { NOISE = 2600 };

/* Bytes of which so many in 256 are 7F. */
static void set_out_noise(uint32_t syncs) {
    uint32_t state = 1;
    set_out_plain();
    for (size_t place = 0; place < NOISE; place++) {
        state = state * 1664525 + 1013904223;
        plain.input[1][place] = state >> 24 < syncs ? 0x7F : (uint8_t)(state >> 16);
    }
}

/* Most are 7F, so that sync stands at many places. The noise is held to the plain reading of this file. */
static void test_plain_noise(void) {
    struct hpsdr_counts counts;
    size_t starts[NOISE / HPSDR_FRAME];
    set_out_noise(230);
    for (size_t length = 0; length <= NOISE; length += 26) {
        counts = read_plainly(plain.input[1], length, starts);
        read_plain("noise", length,
                   (struct plain_due){HPSDR_ACCEPTED, counts.frames, counts.skipped, counts.held, starts});
    }
    if (counts.frames < 2 || counts.skipped < 2)
        report("in noise are %u frames and %u bytes skipped, expected more", (unsigned)counts.frames,
               (unsigned)counts.skipped);
}

/* The input would give a frame, and most of the outputs have room for it. */
static void test_plain_refusals(void) {
    static const size_t outputs[] = {0, 511, 512, 513, 514};
    set_out_plain();
    put_sync(0);
    put_sync(512);
    for (size_t at = 0; at < sizeof outputs / sizeof *outputs; at++)
        refuse_plain("515 bytes to a shorter output", 515, outputs[at], HPSDR_SHORT_BUFFER);
    refuse_plain("one byte to no output", 1, 0, HPSDR_SHORT_BUFFER);
    refuse_plain("65,536 bytes to 65,535", 65536, 65535, HPSDR_SHORT_BUFFER);
    refuse_plain("65,537 bytes", 65537, 65537, HPSDR_LENGTH);
    refuse_plain("65,537 bytes to 65,536", 65537, 65536, HPSDR_LENGTH);
    refuse_plain("65,537 bytes to no output", 65537, 0, HPSDR_LENGTH);
}

static uint64_t reason_returned(enum hpsdr_reason reason, uint64_t detail) {
    return (uint64_t)reason << 8 | detail << 32;
}

/* Asks about a place of the first so many bytes, and compares all 64 bits. */
static void ask(const char *what, size_t length, size_t place, uint64_t should) {
    const uint64_t is = hpsdr_why_byte(plain.input[1], length, place);
    if (is != should)
        report("%s, place %zu of %zu: got %016" PRIX64 ", expected %016" PRIX64, what, place, length, is, should);
}

static void expect_input_unchanged(void) { memcpy(plain_expected.input, plain.input, sizeof plain.input); }

static void check_input_unchanged(const char *what) {
    compare(what, "input", plain.input[0], plain_expected.input[0], sizeof plain.input);
}

static void test_why_by_hand(void) {
    for (const struct input *input = inputs; input < inputs_end; input++) {
        set_out_input(input);
        expect_input_unchanged();
        for (const struct asked *asked = input->asked; asked->reason != HPSDR_NOT_GIVEN; asked++)
            ask(input->what, input->length, asked->place, reason_returned(asked->reason, asked->detail));
        check_input_unchanged(input->what);
    }
}

/* 512 bytes after the stray 7F stands the frame's last byte. */
static void test_why_stray(void) {
    const char *what = "a stray 7F before a frame";
    set_out_stray();
    ask(what, 516, 0, reason_returned(HPSDR_FAR_SYNC, 0));
    ask(what, 516, 1, reason_returned(HPSDR_INSIDE, 1));
    ask(what, 516, 512, reason_returned(HPSDR_INSIDE, 1));
    ask(what, 516, 513, reason_returned(HPSDR_STILL_HELD, 0));
    what = "a stray 7F before a frame that ends in 7F";
    plain.input[1][512] = 0x7F;
    ask(what, 516, 0, reason_returned(HPSDR_INSIDE, 0));
    ask(what, 516, 511, reason_returned(HPSDR_INSIDE, 0));
    ask(what, 516, 512, reason_returned(HPSDR_STILL_HELD, 0));
}

/* Any of the six bytes of the two syncs wrong, each by one bit: the first of them is told, the near ones before the far
 * ones. One byte more than 515 would be needed for place 1. */
static void test_why_sync(unsigned wrong, unsigned bit) {
    static const size_t places[] = {0, 1, 2, 512, 513, 514};
    unsigned first = 0;
    set_out_plain();
    put_sync(0);
    put_sync(512);
    for (unsigned at = 0; at < 6; at++)
        if (wrong >> at & 1)
            plain.input[1][places[at]] ^= (uint8_t)(1 << bit);
    while (first < 6 && !(wrong >> first & 1))
        first++;
    ask("wrong bytes of sync", 515, 0,
        first < 3   ? reason_returned(HPSDR_NEAR_SYNC, first)
        : first < 6 ? reason_returned(HPSDR_FAR_SYNC, first - 3)
                    : reason_returned(HPSDR_INSIDE, 0));
    ask("the byte behind wrong bytes of sync", 515, 1, reason_returned(wrong ? HPSDR_STILL_HELD : HPSDR_INSIDE, 0));
}

/* The first and the last byte of each frame, those before the first frame, and the held ones. */
static void test_why_longest(void) {
    const char *what = "frames in the longest input";
    for (size_t first = 0; first < 3; first++) {
        size_t starts[128];
        set_out_longest(first, starts);
        expect_input_unchanged();
        for (size_t place = 0; place < first; place++)
            ask(what, HPSDR_INPUT_MOST, place, reason_returned(HPSDR_NEAR_SYNC, 0));
        for (size_t number = 0; number < 127; number++) {
            ask(what, HPSDR_INPUT_MOST, starts[number], reason_returned(HPSDR_INSIDE, starts[number]));
            ask(what, HPSDR_INPUT_MOST, starts[number] + 511, reason_returned(HPSDR_INSIDE, starts[number]));
        }
        ask(what, HPSDR_INPUT_MOST, starts[127], reason_returned(HPSDR_STILL_HELD, 0));
        ask(what, HPSDR_INPUT_MOST, HPSDR_INPUT_MOST - 1, reason_returned(HPSDR_STILL_HELD, 0));
        check_input_unchanged(what);
    }
}

/* The first of three bytes that is not 7F, or 3. */
static size_t first_wrong(const uint8_t *bytes) {
    size_t at = 0;
    while (at < 3 && bytes[at] == 0x7F)
        at++;
    return at;
}

static uint64_t why_skipped(size_t place) {
    const size_t near_wrong = first_wrong(plain.input[1] + place);
    return near_wrong < 3 ? reason_returned(HPSDR_NEAR_SYNC, near_wrong)
                          : reason_returned(HPSDR_FAR_SYNC, first_wrong(plain.input[1] + place + 512));
}

/* What is due of every place of the first so many bytes, where the plain reading of this file begins its frames. */
static void tell_all(size_t length, uint64_t due[]) {
    size_t starts[NOISE / HPSDR_FRAME], frame = 0, place = 0;
    const struct hpsdr_counts counts = read_plainly(plain.input[1], length, starts);
    while (place < length - counts.held)
        if (frame < counts.frames && place == starts[frame]) {
            for (; place < starts[frame] + HPSDR_FRAME; place++)
                due[place] = reason_returned(HPSDR_INSIDE, starts[frame]);
            frame++;
        } else {
            due[place] = why_skipped(place);
            place++;
        }
    for (; place < length; place++)
        due[place] = reason_returned(HPSDR_STILL_HELD, 0);
}

/* Half of the bytes are 7F, so that each reason comes, with each byte of a sync. */
static void test_why_noise(void) {
    uint64_t due[NOISE];
    unsigned seen[2][3] = {{0}};
    set_out_noise(128);
    expect_input_unchanged();
    for (size_t length = 0; length <= NOISE; length += 130) {
        tell_all(length, due);
        for (size_t place = 0; place < length; place++)
            ask("noise", length, place, due[place]);
    }
    check_input_unchanged("noise");
    for (size_t place = 0; place < NOISE; place++)
        for (unsigned byte = 0; byte < 3; byte++) {
            seen[0][byte] += due[place] == reason_returned(HPSDR_NEAR_SYNC, byte);
            seen[1][byte] += due[place] == reason_returned(HPSDR_FAR_SYNC, byte);
        }
    for (unsigned byte = 0; byte < 3; byte++)
        if (!seen[0][byte] || !seen[1][byte])
            report("in noise byte %u of the near sync is told %u times, of the far sync %u times, expected more", byte,
                   seen[0][byte], seen[1][byte]);
}

/* The input would give a frame, which begins at 0. */
static void test_why_refusals(void) {
    static const size_t places[] = {0, 1, 511, 65535, 65536, SIZE_MAX / 2 + 1, SIZE_MAX};
    static const size_t lengths[] = {0, 1, 515, 65535, 65536};
    set_out_plain();
    put_sync(0);
    put_sync(512);
    expect_input_unchanged();
    for (size_t at = 0; at < sizeof places / sizeof *places; at++) {
        ask("65,537 bytes", 65537, places[at], HPSDR_LENGTH);
        for (size_t of = 0; of < sizeof lengths / sizeof *lengths; of++)
            if (places[at] >= lengths[of])
                ask("a place beyond the input", lengths[of], places[at], HPSDR_RANGE);
    }
    for (size_t of = 0; of < sizeof lengths / sizeof *lengths; of++)
        ask("the place behind the last", lengths[of], lengths[of], HPSDR_RANGE);
    ask("65,537 bytes", 65537, 65537, HPSDR_LENGTH);
    check_input_unchanged("refused reasons");
}

int main(void) {
    test_layout();
    test_fresh(0);
    test_fresh(2);
    test_too_few_cells();
    test_cells();
    for (size_t receivers = 1; receivers <= HPSDR_MOST_RECEIVERS; receivers++) {
        test_samples(receivers, false);
        test_samples(receivers, true);
    }
    test_status_words(0);
    test_status_words(3);
    test_status_bits();
    test_unlisted_status_words();
    for (const struct level_word *of = level_words; of < level_words_end; of++) {
        test_all_levels(of);
        test_high_level_written(of->cells[0]);
        test_high_level_written(of->cells[1]);
    }
    test_levels_by_hand();
    test_words_without_levels();
    test_record_of_high_levels(4096);
    test_record_of_high_levels(40000);
    test_record_of_high_levels(65535);
    test_radio_read_refusals();
    test_radio_write_refusals();
    for (size_t receivers = 1; receivers <= HPSDR_MOST_RECEIVERS; receivers++) {
        test_padding(receivers);
        test_sync(receivers);
        test_transfers(receivers, 0);
        test_transfers(receivers, 3);
        for (const struct level_word *of = level_words; of < level_words_end; of++) {
            test_level_stops(receivers, of, 0);
            test_level_stops(receivers, of, 1);
        }
    }
    test_all_stops();
    test_unlisted_transfers(4096);
    test_unlisted_transfers(65535);
    test_transfers_of_levels(4096);
    test_transfers_of_levels(65535);
    test_no_level_above();
    test_transfer_lengths();
    test_transfer_refusals();
    test_host_words(0);
    test_host_words(4);
    test_builds(0);
    test_builds(4);
    test_slots();
    test_codes();
    test_filter_bits();
    test_mox();
    test_unlisted_host_words();
    test_host_read_refusals();
    test_turns_past_the_last();
    test_build_refusals();
    test_sound();
    test_feed_refusals();
    test_row(514, false, (struct hpsdr_counts){514, 0, 0, 514});
    test_row(515, true, (struct hpsdr_counts){3, 1, 0, 515});
    test_row(515, false, (struct hpsdr_counts){514, 0, 1, 515});
    test_recording();
    test_eight_frames();
    test_plain_by_hand();
    test_plain_stray();
    test_plain_sync();
    test_plain_longest();
    test_plain_noise();
    test_plain_refusals();
    test_why_by_hand();
    test_why_stray();
    for (unsigned wrong = 0; wrong < 64; wrong++)
        for (unsigned bit = 0; bit < 8; bit++)
            test_why_sync(wrong, bit);
    test_why_longest();
    test_why_noise();
    test_why_refusals();
    return faults ? 1 : 0;
}
