/* Frames of the HPSDR USB Data Protocol 1.58, read and written: those that a radio sends for one to eight
 * receivers, those that a host sends to it, and two readers that find radio frames among bytes: one takes a stream
 * piece by piece, the other an input at once. Of such an input one more call tells why a byte of it was thrown out.
 *
 * Every call takes what it is given, checks for itself, and works or gives one of nine refusals, the first
 * that holds in the order of their numbers. After a refusal every buffer and record that was lent holds
 * what it held before. One call goes frame by frame, `hpsdr_radio_read_transfer`: the frames before the one that it
 * refuses stay read, and all this holds from the refused frame on. No call keeps a pointer, and none has a state of its
 * own.
 *
 * Each call has a full form and below it a short one. Begin with the short forms: `hpsdr_read`, `hpsdr_read_transfer`,
 * `hpsdr_write`, `hpsdr_hear`, `hpsdr_build_next`, `hpsdr_feed`, `hpsdr_read_at_once`, `hpsdr_explain`, and the `_init`
 * ones for their records. They take a record by its pointer, and arrays that are whole: a frame of HPSDR_FRAME bytes,
 * audio of HPSDR_AUDIO numbers, an output of HPSDR_OUTPUT_LEAST bytes, or of as many as the input of
 * `hpsdr_read_at_once` has. They trust the caller for these sizes only, so they never answer SHORT_BUFFER, and LENGTH
 * only for the length of a piece, of a transfer or of an input, which they are given; all else they check as the full
 * forms do. The full forms take a length after each pointer and check it too: they are for lengths that come from
 * elsewhere. `examples/peaks.c` is a whole program.
 *
 * In both forms a pointer is not null and is aligned for its type, even where the length after it is 0; what it
 * points at is the caller's for the time of the call, as many elements as the form says or as are given, and what a
 * call may write overlaps nothing else that it is lent. These are the only things that a call cannot check.
 *
 * A record is a struct whose members are all of one type, the stream's apart, and the full forms take it as so many
 * cells of that type; HPSDR_STATUS_CELLS and its like give the number. Too few cells are BAD_STATE, and more than the
 * record has are left alone. A field has two limits. Beyond its cell (a flag above 1, a code past the last, a number
 * that no cell of that field holds) every call that looks at the record refuses it as BAD_STATE, before all else.
 * Beyond its frame (a number that the cell holds and a frame does not) a call that writes a frame refuses it as RANGE,
 * whichever word the frame carries, and a call that reads a frame does not refuse a record for it. Each struct says
 * which is which. A call that only writes a record, `hpsdr_layout` or a `_fresh` one, does not look at what stands
 * there.
 *
 * What a call returns has three parts. Bits 7 to 0 are its answer. Bits 15 to 8 are what it found, where it says so; on
 * a refusal it found 0, but for the frames that `hpsdr_radio_read_transfer` read before the refused one. Bits 31 to 16
 * are the place, beside the three refusals that have one: NO_SYNC and PADDING name a byte of the frame, counted from 0,
 * and RESERVED an `enum hpsdr_cause`, which is a code or bit of a host frame or a level of a radio frame; beside every
 * other answer they are 0. So an accepted call that found something does not return 0, and a refusal is not always its
 * number alone: ask `hpsdr_answer_of`. Two calls return more above these 32 bits, `hpsdr_plain_read` two counts and
 * `hpsdr_why_byte` a detail: `hpsdr_plain_of` and `hpsdr_why_of` take them apart.
 */
#ifndef HPSDR_H
#define HPSDR_H

#include <stddef.h>
#include <stdint.h>
#include <stdio.h>

#ifdef __cplusplus
extern "C" {
#endif

/* What each of them says stands in `hpsdr_answer_sentence`. */
enum hpsdr_answer {
    HPSDR_ACCEPTED = 0,
    HPSDR_BAD_STATE = 1,
    HPSDR_BAD_COUNT = 2,
    HPSDR_LENGTH = 3,
    HPSDR_SHORT_BUFFER = 4,
    HPSDR_STREAM_FULL = 5,
    HPSDR_NO_SYNC = 6,
    HPSDR_PADDING = 7,
    HPSDR_RESERVED = 8,
    HPSDR_RANGE = 9
};

/* What is wrong in a frame where the answer is RESERVED. 1 to 4, of a host frame: which unassigned code or bit is set.
 * A frame carries one word, so two can be set in word 0 only, and then it is the source. 5 to 10, of a radio frame:
 * which level is above 4,095, so that the top four of its 16 bits are not all 0. Where both levels of a word are, it is
 * the one in C1 and C2. What each cause says stands in `hpsdr_cause_sentence`. */
enum hpsdr_cause {
    HPSDR_CAUSE_SOURCE10 = 1, /* word 0: C1 bits 3-2, the 10 MHz source, are 3 */
    HPSDR_CAUSE_RELAY = 2,    /* word 0: C4 bits 1-0, the transmit relay, are 3 */
    HPSDR_CAUSE_WORD9_C4_BIT7 = 3,
    HPSDR_CAUSE_WORD10_C1_BIT7 = 4,
    HPSDR_CAUSE_AIN5 = 5,     /* the radio's word 1: C1 and C2 */
    HPSDR_CAUSE_AIN1 = 6,     /* the radio's word 1: C3 and C4 */
    HPSDR_CAUSE_AIN2 = 7,     /* the radio's word 2: C1 and C2 */
    HPSDR_CAUSE_AIN3 = 8,     /* the radio's word 2: C3 and C4 */
    HPSDR_CAUSE_AIN4 = 9,     /* the radio's word 3: C1 and C2 */
    HPSDR_CAUSE_AIN6 = 10     /* the radio's word 3: C3 and C4 */
};

/* The three parts of what a call returns. A place means something beside NO_SYNC, PADDING and RESERVED only. */
static inline enum hpsdr_answer hpsdr_answer_of(uint32_t got) { return (enum hpsdr_answer)(got & 0xff); }
static inline uint32_t hpsdr_found_in(uint32_t got) { return got >> 8 & 0xff; }
static inline uint32_t hpsdr_place_in(uint32_t got) { return got >> 16; }

/* What an answer says without its place: that of `hpsdr_answer_of(got)`, not of `got` itself. */
static inline const char *hpsdr_answer_sentence(uint32_t answer) {
    switch (answer) {
    case HPSDR_ACCEPTED: return "the call did its work";
    case HPSDR_BAD_STATE: return "the stream record is unsound, the turn is above 10, or cells hold no record";
    case HPSDR_BAD_COUNT: return "the receiver count is not 1 to 8";
    case HPSDR_LENGTH:
        return "the frame is not 512 bytes, the transfer is not 1 to 8 times 512, the piece is above 4,096, "
               "or the input is above 65,536";
    case HPSDR_SHORT_BUFFER:
        return "a sample slice is shorter than needed, a stream's output is under 4,096 bytes, "
               "or the output is shorter than the input";
    case HPSDR_STREAM_FULL: return "more than 2^48 bytes would have been fed";
    case HPSDR_NO_SYNC: return "the frame's first three bytes are not 7F 7F 7F";
    case HPSDR_PADDING: return "a padding byte is not 0";
    case HPSDR_RESERVED: return "an unassigned host code or bit is set, or a level of a radio frame is above 4,095";
    case HPSDR_RANGE: return "a value to be written does not fit, or the place is not below the input's length";
    default: return "this number is no answer";
    }
}

/* Its name without HPSDR_, or "?" for a number that is no answer. */
static inline const char *hpsdr_answer_name(uint32_t answer) {
    switch (answer) {
    case HPSDR_ACCEPTED: return "ACCEPTED";
    case HPSDR_BAD_STATE: return "BAD_STATE";
    case HPSDR_BAD_COUNT: return "BAD_COUNT";
    case HPSDR_LENGTH: return "LENGTH";
    case HPSDR_SHORT_BUFFER: return "SHORT_BUFFER";
    case HPSDR_STREAM_FULL: return "STREAM_FULL";
    case HPSDR_NO_SYNC: return "NO_SYNC";
    case HPSDR_PADDING: return "PADDING";
    case HPSDR_RESERVED: return "RESERVED";
    case HPSDR_RANGE: return "RANGE";
    default: return "?";
    }
}

/* What a cause says: that of `hpsdr_place_in(got)` where the answer is RESERVED. */
static inline const char *hpsdr_cause_sentence(uint32_t cause) {
    switch (cause) {
    case HPSDR_CAUSE_SOURCE10: return "the 10 MHz source has the unassigned code 3";
    case HPSDR_CAUSE_RELAY: return "the transmit relay has the unassigned code 3";
    case HPSDR_CAUSE_WORD9_C4_BIT7: return "word 9's C4 bit 7 is set, which is unassigned";
    case HPSDR_CAUSE_WORD10_C1_BIT7: return "word 10's C1 bit 7 is set, which is unassigned";
    case HPSDR_CAUSE_AIN5: return "level AIN5 is above 4,095";
    case HPSDR_CAUSE_AIN1: return "level AIN1 is above 4,095";
    case HPSDR_CAUSE_AIN2: return "level AIN2 is above 4,095";
    case HPSDR_CAUSE_AIN3: return "level AIN3 is above 4,095";
    case HPSDR_CAUSE_AIN4: return "level AIN4 is above 4,095";
    case HPSDR_CAUSE_AIN6: return "level AIN6 is above 4,095";
    default: return "this number is no cause";
    }
}

#define HPSDR_TEXT 128 /* bytes that have room for every text of the next two, and of `hpsdr_why_text` */

/* What an answer says with its place, for people to read: of `got` itself, as any call but a transfer returned it, or
 * `struct hpsdr_plain` or `struct hpsdr_why` has it. It is written to `text`, which is given back. NO_SYNC is "sync byte
 * 1 is not 7F", PADDING is "padding byte 509 is not zero", RESERVED is its cause's sentence, and every other answer is
 * its `hpsdr_answer_sentence`. */
static inline const char *hpsdr_refusal_text(uint32_t got, char text[HPSDR_TEXT]) {
    const unsigned place = (unsigned)hpsdr_place_in(got);
    switch (hpsdr_answer_of(got)) {
    case HPSDR_NO_SYNC: snprintf(text, HPSDR_TEXT, "sync byte %u is not 7F", place); break;
    case HPSDR_PADDING: snprintf(text, HPSDR_TEXT, "padding byte %u is not zero", place); break;
    case HPSDR_RESERVED: snprintf(text, HPSDR_TEXT, "%s", hpsdr_cause_sentence(place)); break;
    default: snprintf(text, HPSDR_TEXT, "%s", hpsdr_answer_sentence(hpsdr_answer_of(got)));
    }
    return text;
}

/* The same of what a transfer returned, with the refused frame's index, counted from 0: "sync byte 1 of frame 3 is not
 * 7F", "padding byte 509 of frame 3 is not zero", "level AIN5 of frame 3 is above 4,095". */
static inline const char *hpsdr_transfer_text(uint32_t got, char text[HPSDR_TEXT]) {
    const unsigned place = (unsigned)hpsdr_place_in(got), frame = (unsigned)hpsdr_found_in(got);
    const char *cause = hpsdr_cause_sentence(place);
    const int name = sizeof "level AIN5" - 1; /* the length of it in the sentence of each level */
    switch (hpsdr_answer_of(got)) {
    case HPSDR_NO_SYNC: snprintf(text, HPSDR_TEXT, "sync byte %u of frame %u is not 7F", place, frame); break;
    case HPSDR_PADDING: snprintf(text, HPSDR_TEXT, "padding byte %u of frame %u is not zero", place, frame); break;
    case HPSDR_RESERVED:
        if (place < HPSDR_CAUSE_AIN5 || place > HPSDR_CAUSE_AIN6)
            snprintf(text, HPSDR_TEXT, "%s", cause);
        else
            snprintf(text, HPSDR_TEXT, "%.*s of frame %u%s", name, cause, frame, cause + name);
        break;
    default: hpsdr_refusal_text(got, text);
    }
    return text;
}

#define HPSDR_FRAME 512         /* bytes of a frame: sync (7F 7F 7F), C0 to C4, 504 of samples and padding */
#define HPSDR_MOST_RECEIVERS 8
#define HPSDR_MOST_IQ 160       /* the most I and Q values of a radio frame: 2 times 8 receivers times 10 slots */
#define HPSDR_MOST_MIC 63       /* the most microphone values of a radio frame: the slots of one receiver */
#define HPSDR_MOST_FRAMES 8     /* frames of the longest transfer: the most that a stream hands out in a call */
#define HPSDR_AUDIO 252         /* numbers of a host frame: the caller's L, R, I, Q, 63 times */
#define HPSDR_PIECE_MOST 4096   /* bytes of the longest piece that a stream is fed */
#define HPSDR_OUTPUT_LEAST 4096 /* bytes of the shortest output that a stream is lent: eight frames */
#define HPSDR_HELD 514          /* bytes that a stream may hold */
#define HPSDR_INPUT_MOST 65536  /* bytes of the longest input that the plain reader takes, and `hpsdr_why_byte` */

/* ---- how the samples of 1 to 8 receivers fill a radio frame ---- */

/* A slot is I and Q of each receiver, 3 bytes each, and a microphone value of 2 bytes. */
struct hpsdr_row {
    uint32_t slot;    /* bytes of a slot */
    uint32_t slots;   /* slots of a frame: as many microphone values, and 2 * receivers times as many of I and Q */
    uint32_t padding; /* zero bytes after the slots: none for 1 and 2 receivers, 4 to 24 for 3 to 8 */
};
#define HPSDR_ROW_CELLS (sizeof(struct hpsdr_row) / sizeof(uint32_t)) /* 3 */

/* The row of a number of receivers, which no frame carries: see `hpsdr_radio_read` for what a wrong one does.
 * Refusals: BAD_STATE (too few cells), BAD_COUNT. */
uint32_t hpsdr_layout(size_t receivers, struct hpsdr_row *row, size_t row_cells);

static inline uint32_t hpsdr_row_of(size_t receivers, struct hpsdr_row *row) {
    return hpsdr_layout(receivers, row, HPSDR_ROW_CELLS);
}

/* ---- frames from the radio ---- */

/* What the radio's words have told so far. A flag is 1 or 0. In a frame that is accepted or written a level is 0 to
 * 4,095, and a version 0 to 127. BAD_STATE: a flag above 1, a serial number or version above 255, a level above 65,535.
 * RANGE on writing, and no refusal on reading: a version of 128 to 255, a level of 4,096 to 65,535.
 *
 * No level above 4,095 comes out of any sequence of reads, transfers included, accepted or refused, into a record that
 * began fresh, or that had none above 4,095 when they began, if nothing else writes to it between them. A level above
 * 4,095 that stood in the record before stays as it was until an accepted frame carries that level. */
struct hpsdr_status {
    uint32_t dot, dash, ptt;                 /* flags: every accepted frame */
    uint32_t adc1, adc2, adc3, adc4;         /* flags, overflow: word 4, and adc1 by word 0 too */
    uint32_t io1, io2, io3, io4;             /* flags: word 0; 1 is active, whose bit on the wire is 0 */
    uint32_t pll, toggle;                    /* flags: word 0; locked; the frequency-changed bit */
    uint32_t mercury, penelope, main;        /* serial numbers: word 0 */
    uint32_t ain5, ain1;                     /* levels: word 1; forward power */
    uint32_t ain2, ain3;                     /* levels: word 2; reverse power, and AIN3 */
    uint32_t ain4, ain6;                     /* levels: word 3 */
    uint32_t board1, board2, board3, board4; /* versions: word 4 */
};
#define HPSDR_STATUS_CELLS (sizeof(struct hpsdr_status) / sizeof(uint32_t)) /* 26 */

/* The record that all-zero words give: its four inputs are active. Refusal: BAD_STATE (too few cells). */
uint32_t hpsdr_status_fresh(struct hpsdr_status *status, size_t status_cells);

static inline void hpsdr_status_init(struct hpsdr_status *status) { hpsdr_status_fresh(status, HPSDR_STATUS_CELLS); }

/* The samples of a frame, with room for every number of receivers. Of n receivers, receiver r's I in slot t, both
 * counted from 0, is iq[2 * (t * n + r)], its Q is the one after it, and the slot's microphone value is mic[t]. I and
 * Q are -8,388,608 to 8,388,607: no reading gives others, and a writing refuses others as RANGE. A microphone value
 * is -32,768 to 32,767, all that its type holds. What stands after a frame's values is neither read nor written. */
struct hpsdr_samples {
    int32_t iq[HPSDR_MOST_IQ];
    int16_t mic[HPSDR_MOST_MIC];
};

/* I and Q of receiver r in slot t, for r below the number of receivers n and t below the slots of its row. This is
 * not checked. */
static inline int32_t hpsdr_i(const struct hpsdr_samples *samples, size_t n, size_t r, size_t t) {
    return samples->iq[2 * (t * n + r)];
}
static inline int32_t hpsdr_q(const struct hpsdr_samples *samples, size_t n, size_t r, size_t t) {
    return samples->iq[2 * (t * n + r) + 1];
}

/* Reads a frame: I and Q to the start of `iq` and the microphone values to the start of `mic`, in the order above, and
 * its word into the record where it stands. Found: the word's address, 0 to 31, of which 0 to 4 are listed; another
 * one sets `dot`, `dash` and `ptt` only. Refusals: BAD_STATE, BAD_COUNT, LENGTH, SHORT_BUFFER, NO_SYNC, PADDING, and
 * RESERVED for a level above 4,095 in the frame's word, if this is 1, 2 or 3. Place: for NO_SYNC the first of the bytes
 * 0 to 2 that is not 7F, for PADDING the first padding byte that is not 0, both as bytes of the frame, counted from 0:
 * frame[place]; for RESERVED an `enum hpsdr_cause`, 5 to 10, which names the first such level in the order of C1 to C4.
 * The padding of a row begins at byte 512 - padding.
 *
 * A frame that is refused for a level is refused whole, its samples and its DOT, DASH and PTT too: whoever wants the
 * samples of such a frame does not get them. Words 0, 4 and unlisted ones carry no level: whatever their C1 to C4 are,
 * no frame is refused for them.
 *
 * No frame carries the number of its receivers: the caller has to know it. A wrong number is not detected where the
 * frame has no padding for that number (1 and 2), or has zeros there. The frame is then accepted, if nothing else is
 * wrong, and its samples are cut at wrong places and given to wrong receivers. */
uint32_t hpsdr_radio_read(const uint8_t *frame, size_t frame_length, size_t receivers,
                          int32_t *iq, size_t iq_length, int16_t *mic, size_t mic_length,
                          struct hpsdr_status *status, size_t status_cells);

static inline uint32_t hpsdr_read(const uint8_t frame[HPSDR_FRAME], size_t receivers, struct hpsdr_samples *samples,
                                  struct hpsdr_status *status) {
    return hpsdr_radio_read(frame, HPSDR_FRAME, receivers, samples->iq, HPSDR_MOST_IQ, samples->mic, HPSDR_MOST_MIC,
                            status, HPSDR_STATUS_CELLS);
}

/* The samples of up to eight frames of one number of receivers, with room for every number. The slots run on from frame
 * to frame: slot t of frame k, both counted from 0, is slot k * slots + t of the transfer, where `slots` is that of the
 * row. With t so counted, I, Q and the microphone value stand where they stand in `struct hpsdr_samples`. */
struct hpsdr_transfer {
    int32_t iq[HPSDR_MOST_FRAMES * HPSDR_MOST_IQ];
    int16_t mic[HPSDR_MOST_FRAMES * HPSDR_MOST_MIC];
};

/* I and Q of receiver r in slot t of the transfer, for r below the number of receivers n and t below the slots of the
 * frames that were read. This is not checked. */
static inline int32_t hpsdr_transfer_i(const struct hpsdr_transfer *transfer, size_t n, size_t r, size_t t) {
    return transfer->iq[2 * (t * n + r)];
}
static inline int32_t hpsdr_transfer_q(const struct hpsdr_transfer *transfer, size_t n, size_t r, size_t t) {
    return transfer->iq[2 * (t * n + r) + 1];
}

/* Reads a transfer: 1 to 8 frames of one number of receivers, one after another, as a stream hands them out. Each is
 * read just as `hpsdr_radio_read` reads it, into the record that the frame before it left, and its values stand after
 * those of the frame before it. Refusals, before any frame is read: BAD_STATE, BAD_COUNT, LENGTH (not 1 to 8 times 512
 * bytes), SHORT_BUFFER (`iq` or `mic` shorter than the whole input needs). Then the first refused frame's own, NO_SYNC,
 * PADDING or RESERVED, and there the call stops.
 *
 * Found, accepted or refused: the number of frames read, 0 to 8; which words they carried is not told. The record is
 * the one after these frames, and past their values `iq` and `mic` are as before. Where a frame is refused, what is
 * found is its index, counted from 0, and the place is the one that `hpsdr_radio_read` gives for it: for NO_SYNC and
 * PADDING the byte is input[HPSDR_FRAME * found + place], for RESERVED the place is an `enum hpsdr_cause`. The frame
 * behind is at input + HPSDR_FRAME * (found + 1). */
uint32_t hpsdr_radio_read_transfer(const uint8_t *input, size_t input_length, size_t receivers,
                                   int32_t *iq, size_t iq_length, int16_t *mic, size_t mic_length,
                                   struct hpsdr_status *status, size_t status_cells);

static inline uint32_t hpsdr_read_transfer(const uint8_t *input, size_t length, size_t receivers,
                                           struct hpsdr_transfer *transfer, struct hpsdr_status *status) {
    return hpsdr_radio_read_transfer(input, length, receivers, transfer->iq, HPSDR_MOST_FRAMES * HPSDR_MOST_IQ,
                                     transfer->mic, HPSDR_MOST_FRAMES * HPSDR_MOST_MIC, status, HPSDR_STATUS_CELLS);
}

/* Writes the frame that carries a word of the record, 0 to 4: all 512 bytes of it, padding among them. Who reads it has
 * to know the number of receivers. Refusals: BAD_STATE, BAD_COUNT, LENGTH, SHORT_BUFFER, and RANGE for a word above
 * 4, a version above 127 or a level above 4,095 anywhere in the record, whichever word is written, and an I or Q of
 * this frame that is out of its range. */
uint32_t hpsdr_radio_write(const struct hpsdr_status *status, size_t status_cells, size_t word, size_t receivers,
                           const int32_t *iq, size_t iq_length, const int16_t *mic, size_t mic_length,
                           uint8_t *frame, size_t frame_length);

static inline uint32_t hpsdr_write(const struct hpsdr_status *status, size_t word, size_t receivers,
                                   const struct hpsdr_samples *samples, uint8_t frame[HPSDR_FRAME]) {
    return hpsdr_radio_write(status, HPSDR_STATUS_CELLS, word, receivers, samples->iq, HPSDR_MOST_IQ, samples->mic,
                             HPSDR_MOST_MIC, frame, HPSDR_FRAME);
}

/* ---- frames from the host ---- */

enum hpsdr_speed { HPSDR_48_KHZ, HPSDR_96_KHZ, HPSDR_192_KHZ, HPSDR_384_KHZ };
enum hpsdr_source10 { HPSDR_10_ATLAS_OR_EXCALIBUR, HPSDR_10_PENELOPE, HPSDR_10_MERCURY };
enum hpsdr_source122 { HPSDR_122_PENELOPE, HPSDR_122_MERCURY };
enum hpsdr_boards { HPSDR_NO_BOARD, HPSDR_BOARD_PENELOPE, HPSDR_BOARD_MERCURY, HPSDR_BOTH_BOARDS };
enum hpsdr_microphone { HPSDR_MICROPHONE_JANUS, HPSDR_MICROPHONE_PENELOPE };
enum hpsdr_attenuator { HPSDR_0_DB, HPSDR_10_DB, HPSDR_20_DB, HPSDR_30_DB };
enum hpsdr_antenna { HPSDR_NO_ANTENNA, HPSDR_ANTENNA_RX1, HPSDR_ANTENNA_RX2, HPSDR_ANTENNA_XV };
enum hpsdr_relay { HPSDR_TX1, HPSDR_TX2, HPSDR_TX3 };
/* Orion's microphone jack; the microphone goes to the other contact. */
enum hpsdr_jack { HPSDR_PTT_TO_RING, HPSDR_PTT_TO_TIP };

/* What a host tells its radio. A field is a flag, 1 or 0, where nothing else is said; a choice is its code. BAD_STATE:
 * a flag above 1, a code past the last of its enum, a number above 255; a frequency may be any. RANGE on building,
 * and no refusal on reading, for what is not above 255: `outputs` above 127, `receivers` 0 or above 8, `line_in_gain`
 * above 31, `word10_c2_top` above 7. */
struct hpsdr_host {
    uint32_t mox;         /* every accepted frame */
    /* word 0 */
    uint32_t speed;       /* enum hpsdr_speed */
    uint32_t source10;    /* enum hpsdr_source10: the 10 MHz reference */
    uint32_t source122;   /* enum hpsdr_source122: the 122.88 MHz clock */
    uint32_t boards;      /* enum hpsdr_boards */
    uint32_t microphone;  /* enum hpsdr_microphone */
    uint32_t class_e;
    uint32_t outputs;     /* open collector outputs, a number: a frame has 0 to 127 */
    uint32_t attenuator;  /* enum hpsdr_attenuator */
    uint32_t preamp, dither, random;
    uint32_t antenna;     /* enum hpsdr_antenna */
    uint32_t rx_out;
    uint32_t relay;       /* enum hpsdr_relay */
    uint32_t duplex;
    uint32_t receivers;   /* a number: a frame has 1 to 8 */
    uint32_t time_stamp, common_frequency;
    /* words 1 to 8: frequencies in Hz */
    uint32_t transmitter;
    uint32_t frequencies[7]; /* of receivers 1 to 7 */
    /* word 9 */
    uint32_t drive;       /* a number: a frame has 0 to 255 */
    uint32_t mic_boost, line_in, apollo_filter, apollo_tuner, auto_tune, filter_board, manual_filters, vna;
    uint32_t high_pass_13, high_pass_20, high_pass_9_5, high_pass_6_5, high_pass_1_5, bypass, amplifier_6m, tr_disabled;
    uint32_t low_pass_30_20, low_pass_60_40, low_pass_80, low_pass_160, low_pass_6, low_pass_12_10, low_pass_17_15;
    /* word 10 */
    uint32_t rx_preamps[4];        /* of receivers 1 to 4; word 0's `preamp` is a field of its own */
    uint32_t orion_jack;           /* enum hpsdr_jack */
    uint32_t mic_bias, mic_ptt_disabled;
    uint32_t line_in_gain;         /* a number: a frame has 0 to 31 */
    uint32_t word10_c2_top;        /* bits 7-5 of C2, a plain number: a frame has 0 to 7 */
    uint32_t word10_c3, word10_c4; /* C3 and C4, plain numbers: a frame has 0 to 255 */
};
#define HPSDR_HOST_CELLS (sizeof(struct hpsdr_host) / sizeof(uint32_t)) /* 62 */

/* The record that all-zero words give: one receiver. Refusal: BAD_STATE (too few cells). */
uint32_t hpsdr_host_fresh(struct hpsdr_host *host, size_t host_cells);

static inline void hpsdr_host_init(struct hpsdr_host *host) { hpsdr_host_fresh(host, HPSDR_HOST_CELLS); }

/* The audio of a host frame, read or built: L, R, I and Q of slot t, 0 to 62, are audio[4 * t] and the three after it, and
 * each may be any int16_t. A caller gives a build its L, R, I and Q in this order, and in the frame its I stands in the
 * bytes drawn as Q and its Q in those drawn as I, because toward the radio the protocol has I and Q reversed relative to
 * receive, a historical bug that it keeps; a read swaps them back. Whether the program that built a frame has swapped
 * them, no reader can know from its bytes: where it has not, a read gives them exchanged. */

/* Reads a frame: its 252 numbers to the start of `audio`, and its word into the record where it stands. Found: the
 * word's address, 0 to 127, of which 0 to 10 are listed; another one sets `mox` only. Refusals: BAD_STATE, LENGTH,
 * SHORT_BUFFER, NO_SYNC, RESERVED. Place: for NO_SYNC the first of the frame's bytes 0 to 2 that is not 7F, for RESERVED
 * an `enum hpsdr_cause`, 1 to 4. */
uint32_t hpsdr_host_read(const uint8_t *frame, size_t frame_length, int16_t *audio, size_t audio_length,
                         struct hpsdr_host *host, size_t host_cells);

static inline uint32_t hpsdr_hear(const uint8_t frame[HPSDR_FRAME], int16_t audio[HPSDR_AUDIO],
                                  struct hpsdr_host *host) {
    return hpsdr_host_read(frame, HPSDR_FRAME, audio, HPSDR_AUDIO, host, HPSDR_HOST_CELLS);
}

/* A host record and the word that is due, 0 to 10. BAD_STATE: a turn above 10. */
struct hpsdr_builder {
    struct hpsdr_host host;
    uint32_t turn;
};
#define HPSDR_BUILDER_CELLS (sizeof(struct hpsdr_builder) / sizeof(uint32_t)) /* 63 */

/* A fresh host record, and turn 0. Refusal: BAD_STATE (too few cells). */
uint32_t hpsdr_builder_fresh(struct hpsdr_builder *builder, size_t builder_cells);

static inline void hpsdr_builder_init(struct hpsdr_builder *builder) {
    hpsdr_builder_fresh(builder, HPSDR_BUILDER_CELLS);
}

/* Writes the frame whose word is due, with the first 252 numbers of `audio` as told above, and moves the turn on by one,
 * 10 going to 0; the host record stays as it is. All of it is tested, whichever word is due. Refusals: BAD_STATE,
 * LENGTH, SHORT_BUFFER, RANGE. */
uint32_t hpsdr_build(struct hpsdr_builder *builder, size_t builder_cells, const int16_t *audio, size_t audio_length,
                     uint8_t *frame, size_t frame_length);

static inline uint32_t hpsdr_build_next(struct hpsdr_builder *builder, const int16_t audio[HPSDR_AUDIO],
                                        uint8_t frame[HPSDR_FRAME]) {
    return hpsdr_build(builder, HPSDR_BUILDER_CELLS, audio, HPSDR_AUDIO, frame, HPSDR_FRAME);
}

/* ---- the stream reader ---- */

/* The numbers of bytes that are held, of frames handed out, of bytes skipped, and of all bytes fed. */
struct hpsdr_counts {
    uint64_t held;
    uint64_t frames;
    uint64_t skipped;
    uint64_t total;
};
#define HPSDR_COUNTS_CELLS (sizeof(struct hpsdr_counts) / sizeof(uint64_t)) /* 4 */

/* A stream record: the counts and 514 bytes, of which the first counts.held are held and the others 0. The full forms
 * take its two parts. A record that is not sound is BAD_STATE. */
struct hpsdr_stream {
    struct hpsdr_counts counts;
    uint8_t held[HPSDR_HELD];
};

/* The record of a stream of which nothing has been read. Refusal: BAD_STATE (too few counts or bytes). */
uint32_t hpsdr_stream_fresh(struct hpsdr_counts *counts, size_t counts_cells, uint8_t *held, size_t held_length);

static inline void hpsdr_stream_init(struct hpsdr_stream *stream) {
    hpsdr_stream_fresh(&stream->counts, HPSDR_COUNTS_CELLS, stream->held, HPSDR_HELD);
}

/* Whether a record is sound: at most 514 bytes held and the others 0, a total of at most 2^48, and 512 times the
 * frames, the skipped and the held bytes together the total. The full form returns ACCEPTED, which is 0, if it is, and
 * BAD_STATE if not; the short form 1 if it is, and 0 if not. */
uint32_t hpsdr_stream_sound(const struct hpsdr_counts *counts, size_t counts_cells,
                            const uint8_t *held, size_t held_length);

static inline int hpsdr_stream_is_sound(const struct hpsdr_stream *stream) {
    return hpsdr_stream_sound(&stream->counts, HPSDR_COUNTS_CELLS, stream->held, HPSDR_HELD) == HPSDR_ACCEPTED;
}

/* Reads the held bytes and then the piece, from where the reading stands. If sync stands there and again 512 bytes
 * later, these 512 bytes are handed out as a frame and the reading goes on after them; if not, one byte is skipped.
 * Where fewer than 515 bytes are left they are held for the next call. The frames handed out stand at the start of
 * the output, 512 bytes each, and the rest of it is as before. Found: their number, 0 to 8. Refusals: BAD_STATE,
 * LENGTH, SHORT_BUFFER, STREAM_FULL.
 *
 * The last frame. A frame is handed out only once the sync after it has come, so the last frame of a recording stays
 * held. A caller who takes the recording for ended may feed 7F 7F 7F, once: if that frame is whole, and no false frame
 * (see below) took its beginning, it is handed out. Fed a second time these bytes would fill in for bytes that the
 * frame lacks. They count as fed.
 *
 * The place of a frame. With pieces of at most 512 bytes a call hands out at most one frame, and the bytes that this
 * call skips stand before it. So after a call that found 1 on a stream that began fresh, the frame's place in all that
 * was fed, counted from 0, is 512 * (counts.frames - 1) + counts.skipped.
 *
 * The stack. On Arm and x86-64 the call goes at most 2,048 bytes below its caller, whatever it answers: tests/stack.c
 * fails above that, and found 280 bytes on x86-64; the code for Arm sets aside 144 and calls memset alone. It is no part
 * of what is proved.
 *
 * What no reader can know from the bytes. Sample bytes may imitate sync. Where 7F 7F 7F stands and again 512 bytes
 * later, a frame is taken to begin, and if none did, what is handed out is a false frame: parts of two, say, after
 * bytes were lost between. A good frame that begins inside it is then not handed out. So a frame directly before or
 * after skipped bytes, or inside which another good frame begins, is in doubt, though it may be a true one. And where
 * just 512 bytes were lost, or a multiple, there is no sign at all: no frame carries a number.
 *
 * What is promised nevertheless, of all that was fed to a stream that began fresh, whatever its bytes are. A place
 * begins a good frame if sync stands there and again 512 bytes later. A good frame that is not handed out is overlapped
 * by one that is, and that begins at one of the up to 511 places before it. And if place p begins a good frame and none
 * of the up to 511 places before it does, then that frame is handed out, and so is each good frame that follows
 * directly, in their order and unaltered; as many stand in front of it as a reading of the first p + 514 bytes hands
 * out. That is proved, for every cutting into accepted pieces. It does not say that a frame handed out is a true one. */
uint32_t hpsdr_stream_feed(struct hpsdr_counts *counts, size_t counts_cells, uint8_t *held, size_t held_length,
                           const uint8_t *piece, size_t piece_length, uint8_t *output, size_t output_length);

static inline uint32_t hpsdr_feed(struct hpsdr_stream *stream, const uint8_t *piece, size_t length,
                                  uint8_t output[HPSDR_OUTPUT_LEAST]) {
    return hpsdr_stream_feed(&stream->counts, HPSDR_COUNTS_CELLS, stream->held, HPSDR_HELD, piece, length, output,
                             HPSDR_OUTPUT_LEAST);
}

/* ---- the plain reader ---- */

/* What the plain reader returned, taken apart. 512 * frames + skipped + left is the length of an accepted input; on a
 * refusal all three are 0. */
struct hpsdr_plain {
    uint32_t got;     /* as any other call returns it: the answer, and found, which is `frames` again */
    uint32_t frames;  /* frames handed out, 0 to 127 */
    uint32_t skipped; /* bytes skipped, at most 65,022 */
    uint32_t left;    /* bytes left at the end of the input, at most 514 */
};

/* Reads an input of at most 65,536 bytes at once, place by place from its first byte, by the rule of
 * `hpsdr_stream_feed`. It has no record and holds no bytes: where fewer than 515 are left, it ends. The frames handed
 * out stand at the start of the output, 512 bytes each, and the rest of it is as before. Refusals: LENGTH (an input
 * above 65,536 bytes), SHORT_BUFFER (an output shorter than the input).
 *
 * What is returned. Bits 31 to 0 are as every other call's; found is the number of frames, 0 to 127. Bits 47 to 32 are
 * the number of bytes skipped, at most 65,022, and bits 63 to 48 the number of bytes left, at most 514. A refusal is its
 * number alone.
 *
 * What it is for. It is written to be read in a sitting, and to be held against the stream reader, whose code is harder
 * to follow. Cut an accepted input into pieces anywhere, and feed them in their order to a stream that began fresh. If
 * no piece is refused, the two give the same frames in the same order and the same number of bytes skipped, and the
 * bytes that the stream then holds are the last `left` of the input. That is proved. `examples/compare.c` does it with
 * a recording.
 *
 * The last frame of a recording is among the bytes left, unless sync follows it in the input or a false frame took its
 * beginning. This, what no reader can know from the bytes, and what is promised nevertheless are told above
 * `hpsdr_stream_feed`, and hold here too, of an input that is accepted. */
uint64_t hpsdr_plain_read(const uint8_t *input, size_t input_length, uint8_t *output, size_t output_length);

static inline struct hpsdr_plain hpsdr_plain_of(uint64_t returned) {
    struct hpsdr_plain plain;
    plain.got = (uint32_t)(returned & 0xffffffff);
    plain.frames = hpsdr_found_in(plain.got);
    plain.skipped = (uint32_t)(returned >> 32 & 0xffff);
    plain.left = (uint32_t)(returned >> 48);
    return plain;
}

/* The output has as many bytes as the input. */
static inline struct hpsdr_plain hpsdr_read_at_once(const uint8_t *input, size_t length, uint8_t *output) {
    return hpsdr_plain_of(hpsdr_plain_read(input, length, output, length));
}

/* ---- why a byte was thrown out ---- */

/* What the reading of an input made of the byte at a place. What each says stands in `hpsdr_why_text`. */
enum hpsdr_reason {
    HPSDR_NOT_GIVEN = 0, /* beside a refusal, and only there */
    HPSDR_INSIDE = 1,    /* in a frame handed out */
    HPSDR_NEAR_SYNC = 2, /* skipped: sync does not stand at the place */
    HPSDR_FAR_SYNC = 3,  /* skipped: sync stands there, but not 512 bytes later */
    HPSDR_STILL_HELD = 4 /* among the bytes that a stream holds at the end, and the plain reader leaves */
};

/* What `hpsdr_why_byte` returned, taken apart. */
struct hpsdr_why {
    uint32_t got;    /* as any other call returns it: the answer, and found, which is `reason` again */
    uint32_t reason; /* enum hpsdr_reason */
    uint32_t start;  /* for INSIDE the place at which the frame begins, otherwise 0 */
    uint32_t byte;   /* for NEAR_SYNC and FAR_SYNC the first byte of that sync, 0 to 2, that is not 7F, otherwise 0 */
};

/* Tells what became of the byte at a place, counted from 0, of an input of at most 65,536 bytes, where the reading
 * begins at place 0 and goes by the rule of `hpsdr_stream_feed`. Found: an `enum hpsdr_reason`, 1 to 4. Refusals:
 * LENGTH (an input above 65,536 bytes), RANGE (a place that is not below the input's length: of an empty input, every
 * place).
 *
 * Of each place of an accepted input exactly one reason is true, and that one is found:
 *   INSIDE      a frame handed out begins at `start`, and start <= place < start + 512;
 *   NEAR_SYNC   the reading comes to the place, at least 515 bytes remain from it on, and of the three bytes there the
 *               first that is not 7F is input[place + byte];
 *   FAR_SYNC    the same, but the three bytes there are 7F, and of the three that stand 512 bytes later the first that
 *               is not 7F is input[place + 512 + byte];
 *   STILL_HELD  the reading ends at the place or before it, where fewer than 515 bytes remain.
 * And over all places of an accepted input the reasons add up to what the reading gives: INSIDE is told 512 times for
 * each frame handed out, NEAR_SYNC and FAR_SYNC together as often as bytes are skipped, STILL_HELD as often as bytes are
 * left. All this is proved.
 *
 * What is returned. Bits 31 to 0 are as every other call's. Bits 63 to 32 are the detail: `start` for INSIDE, `byte`
 * for NEAR_SYNC and FAR_SYNC, and 0 for STILL_HELD. A refusal is its number alone.
 *
 * What it is for. Where bytes are skipped one after another, ask for the first of them, which stands directly behind a
 * frame handed out or at the input's beginning: its reason says what was wrong where the next frame was looked for
 * first. `examples/why.c` asks of a recording.
 *
 * What it does not say. It does not say that a frame handed out is a true one: see above `hpsdr_stream_feed`. And it
 * knows the input alone. Where that is a part of a longer recording, let it begin at the first byte of the whole, or
 * where a frame of the whole was handed out: then its reading is that of the whole from there on, as far as the part
 * goes. With any other beginning the reading of the whole may come to other places. What is held at its end is held
 * only because the input ends. */
uint64_t hpsdr_why_byte(const uint8_t *input, size_t input_length, size_t place);

static inline struct hpsdr_why hpsdr_why_of(uint64_t returned) {
    const uint32_t detail = (uint32_t)(returned >> 32);
    struct hpsdr_why why;
    why.got = (uint32_t)(returned & 0xffffffff);
    why.reason = hpsdr_found_in(why.got);
    why.start = why.reason == HPSDR_INSIDE ? detail : 0;
    why.byte = why.reason == HPSDR_NEAR_SYNC || why.reason == HPSDR_FAR_SYNC ? detail : 0;
    return why;
}

static inline struct hpsdr_why hpsdr_explain(const uint8_t *input, size_t length, size_t place) {
    return hpsdr_why_of(hpsdr_why_byte(input, length, place));
}

/* The reason, for people to read: "inside the frame handed out that begins at byte 1024", "skipped: byte 2 of the sync
 * at this place is not 7F", "skipped: byte 2 of the sync 512 bytes later is not 7F", "still held", or of a refusal what
 * `hpsdr_refusal_text` says. It is written to `text`, which is given back. */
static inline const char *hpsdr_why_text(struct hpsdr_why why, char text[HPSDR_TEXT]) {
    const unsigned start = (unsigned)why.start, byte = (unsigned)why.byte;
    if (hpsdr_answer_of(why.got) != HPSDR_ACCEPTED)
        return hpsdr_refusal_text(why.got, text);
    switch (why.reason) {
    case HPSDR_INSIDE: snprintf(text, HPSDR_TEXT, "inside the frame handed out that begins at byte %u", start); break;
    case HPSDR_NEAR_SYNC:
        snprintf(text, HPSDR_TEXT, "skipped: byte %u of the sync at this place is not 7F", byte);
        break;
    case HPSDR_FAR_SYNC:
        snprintf(text, HPSDR_TEXT, "skipped: byte %u of the sync 512 bytes later is not 7F", byte);
        break;
    case HPSDR_STILL_HELD: snprintf(text, HPSDR_TEXT, "still held"); break;
    default: snprintf(text, HPSDR_TEXT, "this number is no reason");
    }
    return text;
}

#ifdef __cplusplus
}
#endif

#endif
