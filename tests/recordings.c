/* Reads the three recordings of examples/recording.sh by the header's short forms, in pieces and at once, and compares
 * what is handed out with frames that are drawn here by hand, and what is told of their bytes with what became of them:
 *     recordings LOST IMITATED STRAY
 * takes the recordings' files. Prints a line for each fault, and exits 1 if there is one. It is C and C++. */
#include "faults.h"

#include <hpsdr.h>

#include <stdio.h>
#include <string.h>

enum { MOST_BYTES = 8192, MOST_FRAMES = 10, COUNT_OF_SIZES = 10 };

struct recording {
    const char *name;
    uint8_t bytes[MOST_BYTES];
    size_t length;
    /* What is due: the frames and their places, then what is skipped in all, and held in the end. */
    size_t count;
    uint8_t frames[MOST_FRAMES][HPSDR_FRAME];
    uint64_t places[MOST_FRAMES];
    uint64_t skipped, held;
};

static const uint8_t sync[3] = {0x7F, 0x7F, 0x7F};
static const size_t sizes[COUNT_OF_SIZES] = {1, 2, 3, 100, 506, 511, 512, 513, 515, 4096};
static struct recording lost, imitated, stray;
static uint8_t last_of_lost[HPSDR_FRAME], output[HPSDR_OUTPUT_LEAST];

/* ---- the frames, as the head of examples/recording.sh has them ---- */

static void draw(uint8_t frame[HPSDR_FRAME], size_t receivers, size_t word) {
    static const uint8_t control[5][5] = {{0 << 3, 0x3E, 0x21, 0x20, 0x17},
                                          {1 << 3, 0x01, 0xF4, 0x02, 0x58},
                                          {2 << 3, 0x00, 0x64, 0x0C, 0xCC},
                                          {3 << 3, 0x00, 0x00, 0x0B, 0xB8},
                                          {4 << 3, 0x42, 0x42, 0x42, 0x00}};
    const size_t slot = 6 * receivers + 2;
    memset(frame, 0, HPSDR_FRAME);
    memcpy(frame, sync, 3);
    memcpy(frame + 3, control[word], 5);
    for (size_t at = 8; at + slot <= HPSDR_FRAME; at += slot) {
        for (size_t r = 0; r < receivers; r++)
            memset(frame + at + 6 * r, (int)(0x11 * (r + 1)), 6);
        memset(frame + at + 6 * receivers, 0x44, 2);
    }
}

/* Frames 1 to 4 stand where they should. The fifth is 506 bytes, from 2,048 on: 512 bytes after its sync are C3, C4 and
 * the first sample byte of the sixth, 20 17 11, so it is skipped. From the sixth on, at 2,554, all stand six bytes
 * early. The twelfth, at 5,626, is held. */
static void expect_lost(void) {
    static const size_t numbers[] = {1, 2, 3, 4, 6, 7, 8, 9, 10, 11};
    static const uint64_t places[] = {0, 512, 1024, 1536, 2554, 3066, 3578, 4090, 4602, 5114};
    lost.count = 10;
    for (size_t at = 0; at < 10; at++) {
        lost.places[at] = places[at];
        draw(lost.frames[at], 3, (numbers[at] - 1) % 5);
    }
    memcpy(lost.frames[7] + 8, "\x7F\xFF\xFF", 3);
    lost.frames[7][511] = 1;
    draw(last_of_lost, 3, 1); /* the twelfth: word 11 % 5 */
    lost.skipped = 506;
    lost.held = 512;
}

/* The second frame is 506 bytes, and 512 bytes after its sync the third imitates sync: what is handed out is 506 bytes
 * of the second and six of the third. The third's other 506 bytes are skipped: 1,024 + 506 is 1,530. */
static void expect_imitated(void) {
    uint8_t second[HPSDR_FRAME], third[HPSDR_FRAME];
    draw(second, 2, 3);
    draw(third, 2, 4);
    imitated.count = 3;
    draw(imitated.frames[0], 2, 2);
    memcpy(imitated.frames[1], second, 22);            /* up to slot 1, at 8 + 14 */
    memcpy(imitated.frames[1] + 22, second + 28, 484); /* after its first six bytes */
    memcpy(imitated.frames[1] + 506, third, 6);        /* sync and C0 to C2 */
    draw(imitated.frames[2], 2, 0);
    imitated.places[1] = 512;
    imitated.places[2] = 1530;
    imitated.skipped = 506;
    imitated.held = 3;
}

/* The stray byte and two bytes of sync are taken for sync, and so are the first frame's last byte and two of the
 * second's sync. That last byte, at 512, is skipped: 512 bytes after it is the second's last byte, 44. */
static void expect_stray(void) {
    uint8_t first[HPSDR_FRAME];
    draw(first, 1, 1);
    stray.count = 2;
    stray.frames[0][0] = 0x7F;
    memcpy(stray.frames[0] + 1, first, 511);
    draw(stray.frames[1], 1, 2);
    stray.places[1] = 513;
    stray.skipped = 1;
    stray.held = 3;
}

/* ---- the tests ---- */

static uint32_t feed(struct hpsdr_stream *stream, const uint8_t *bytes, size_t length) {
    const uint32_t got = hpsdr_feed(stream, bytes, length, output);
    check(hpsdr_answer_of(got) == HPSDR_ACCEPTED, "feed", "a piece is refused", length);
    return hpsdr_found_in(got);
}

static void check_counts(const struct hpsdr_stream *stream, const char *name, uint64_t held, uint64_t frames,
                         uint64_t skipped, uint64_t total) {
    const struct hpsdr_counts *counts = &stream->counts;
    check(counts->held == held, name, "held is another", (size_t)counts->held);
    check(counts->frames == frames, name, "the number of frames is another", (size_t)counts->frames);
    check(counts->skipped == skipped, name, "skipped is another", (size_t)counts->skipped);
    check(counts->total == total, name, "the total is another", (size_t)counts->total);
    check(hpsdr_stream_is_sound(stream), name, "the stream is not sound", (size_t)total);
}

/* The frame that the call after so many others hands out, in pieces of at most 512 bytes. */
static void check_place(const struct recording *due, const struct hpsdr_stream *stream, size_t number) {
    const uint64_t place = 512 * (stream->counts.frames - 1) + stream->counts.skipped;
    check(stream->counts.frames == number + 1, due->name, "a call hands out more than one frame", number);
    check(place == due->places[number], due->name, "the formula gives another place", number);
    check(memcmp(output, due->bytes + place, HPSDR_FRAME) == 0, due->name, "these bytes are not at its place", number);
}

/* Feeds all the bytes in pieces of a size, and gives the number of frames. Where a call hands out at most one, its
 * place is looked at too. */
static size_t read_in_pieces(const struct recording *in, size_t size, struct hpsdr_stream *stream,
                             uint8_t frames[MOST_BYTES]) {
    size_t seen = 0;
    memset(frames, 0, MOST_BYTES);
    hpsdr_stream_init(stream);
    for (size_t fed = 0; fed < in->length;) {
        const size_t length = size < in->length - fed ? size : in->length - fed;
        const uint32_t found = feed(stream, in->bytes + fed, length);
        fed += length;
        if (seen + found > in->count) {
            check(0, in->name, "there is a frame more", seen + found);
            return seen;
        }
        memcpy(frames + HPSDR_FRAME * seen, output, HPSDR_FRAME * found);
        if (found > 0 && size <= 512)
            check_place(in, stream, seen);
        seen += found;
    }
    return seen;
}

static void test_reading(const struct recording *due, size_t size) {
    static uint8_t frames[MOST_BYTES];
    struct hpsdr_stream stream;
    const size_t seen = read_in_pieces(due, size, &stream, frames);
    for (size_t at = 0; at < seen; at++)
        check(memcmp(frames + HPSDR_FRAME * at, due->frames[at], HPSDR_FRAME) == 0, due->name, "the frame is another",
              at);
    check_counts(&stream, due->name, due->held, due->count, due->skipped, due->length);
    check(memcmp(stream.held, due->bytes + due->length - due->held, (size_t)due->held) == 0, due->name,
          "the held bytes are not the last ones", size);
}

static void test_reading_at_once(const struct recording *due) {
    static uint8_t frames[MOST_BYTES];
    const struct hpsdr_plain plain = hpsdr_read_at_once(due->bytes, due->length, frames);
    check(hpsdr_answer_of(plain.got) == HPSDR_ACCEPTED, due->name, "it is refused", due->length);
    check(plain.frames == due->count, due->name, "at once the number of frames is another", plain.frames);
    check(plain.skipped == due->skipped, due->name, "at once skipped is another", plain.skipped);
    check(plain.left == due->held, due->name, "at once more or less is left than held", plain.left);
    check(memcmp(frames, due->frames, HPSDR_FRAME * due->count) == 0, due->name, "at once the frames are others",
          due->count);
}

/* A place of a recording and its reason, with the frame's start or the byte of a sync. */
struct asked {
    size_t place;
    enum hpsdr_reason reason;
    uint32_t start, byte;
};

static void check_reason(const struct recording *in, const struct asked *due) {
    const struct hpsdr_why why = hpsdr_explain(in->bytes, in->length, due->place);
    check(hpsdr_answer_of(why.got) == HPSDR_ACCEPTED, in->name, "the place is refused", due->place);
    check(why.reason == (uint32_t)due->reason, in->name, "the reason is another", due->place);
    check(why.start == due->start, in->name, "the frame's start is another", due->place);
    check(why.byte == due->byte, in->name, "the byte of the sync is another", due->place);
}

/* The first and the last byte of each frame, and all that are held. As many places as are left over were skipped. */
static void test_reasons(const struct recording *due) {
    size_t skipped = 0;
    for (size_t at = 0; at < due->count; at++) {
        const uint32_t start = (uint32_t)due->places[at];
        const struct asked first = {start, HPSDR_INSIDE, start, 0}, last = {start + 511, HPSDR_INSIDE, start, 0};
        check_reason(due, &first);
        check_reason(due, &last);
    }
    for (size_t place = due->length - (size_t)due->held; place < due->length; place++) {
        const struct asked held = {place, HPSDR_STILL_HELD, 0, 0};
        check_reason(due, &held);
    }
    for (size_t place = 0; place < due->length; place++) {
        const uint32_t reason = hpsdr_explain(due->bytes, due->length, place).reason;
        skipped += reason == HPSDR_NEAR_SYNC || reason == HPSDR_FAR_SYNC;
    }
    check(skipped == due->skipped, due->name, "the reasons say of more or fewer bytes that they are skipped", skipped);
    check(hpsdr_answer_of(hpsdr_explain(due->bytes, due->length, due->length).got) == HPSDR_RANGE, due->name,
          "the place behind the last is not refused", due->length);
}

/* The skipped bytes of each recording begin with 7F 7F 7F: the sync of the unwhole frame in `lost`, C3, C4 and the first
 * byte of I in `imitated`, the first frame's last byte and two of the second's sync in `stray`. 512 bytes later stand
 * 20 17 11 in the first two and 44 7F 7F in the last, so byte 0 of the far sync is wrong. No 7F comes after. */
static void test_skipped(const struct recording *in, size_t from, size_t to) {
    static const struct asked first[] = {
        {0, HPSDR_FAR_SYNC, 0, 0}, {1, HPSDR_NEAR_SYNC, 0, 2}, {2, HPSDR_NEAR_SYNC, 0, 1}, {3, HPSDR_NEAR_SYNC, 0, 0}};
    for (size_t place = from; place < to; place++) {
        struct asked due = first[place < from + 3 ? place - from : 3];
        due.place = place;
        check_reason(in, &due);
    }
}

static int has_sync(const struct recording *in, size_t place) {
    return place + 3 <= in->length && memcmp(in->bytes + place, sync, 3) == 0;
}

static int begins_good(const struct recording *in, size_t place) {
    return has_sync(in, place) && has_sync(in, place + 512);
}

/* Whether none of the up to 511 places before it begins a good frame. */
static int is_clear(const struct recording *in, size_t place) {
    for (size_t before = place < 511 ? 0 : place - 511; before < place; before++)
        if (begins_good(in, before))
            return 0;
    return 1;
}

/* A good frame begins inside each false one, at a place that is never read. It is not promised: the false one begins
 * among the up to 511 places before it. */
static void test_good_frame_missed(const struct recording *in, size_t place) {
    check(begins_good(in, place), in->name, "no good frame begins", place);
    check(!is_clear(in, place), in->name, "no good frame begins before", place);
    for (size_t at = 0; at < in->count; at++)
        check(in->places[at] != place, in->name, "the missed frame is among those due", at);
}

/* A place that is clear, which of the frames is the one there, and how many good ones stand in a row from it on. */
struct found_again {
    size_t place, number, row;
};

static void check_row(const struct recording *in, const struct found_again *due, const uint8_t *frames, size_t count) {
    const size_t before = HPSDR_FRAME * due->number, length = HPSDR_FRAME * due->row;
    check(due->number + due->row <= count, in->name, "fewer frames are handed out", count);
    check(memcmp(frames + before, in->bytes + due->place, length) == 0, in->name, "what is found again is another",
          due->place);
}

/* Up to 514 bytes behind the place, the reading comes just to it: what it hands out is what stands before. */
static void check_number(const struct recording *in, const struct found_again *due, const uint8_t *frames) {
    static uint8_t before[MOST_BYTES];
    const struct hpsdr_plain plain = hpsdr_read_at_once(in->bytes, due->place + 514, before);
    check(hpsdr_answer_of(plain.got) == HPSDR_ACCEPTED, in->name, "its beginning is refused", due->place);
    check(plain.frames == due->number, in->name, "there are more or fewer frames before", due->place);
    check(512 * plain.frames + plain.skipped == due->place, in->name, "the reading does not come to", due->place);
    check(plain.left == 514, in->name, "there are not 514 bytes left from", due->place);
    check(memcmp(before, frames, HPSDR_FRAME * due->number) == 0, in->name, "other frames stand before", due->place);
}

static void test_found_again(const struct recording *in, size_t place, size_t number, size_t row) {
    static uint8_t frames[MOST_BYTES];
    struct hpsdr_stream stream;
    const struct found_again due = {place, number, row};
    check(is_clear(in, place), in->name, "a good frame begins before", place);
    for (size_t at = 0; at < row; at++)
        check(begins_good(in, place + 512 * at), in->name, "no good frame begins", place + 512 * at);
    check(!begins_good(in, place + 512 * row), in->name, "the row goes on", place);
    check_row(in, &due, frames, hpsdr_read_at_once(in->bytes, in->length, frames).frames);
    check_number(in, &due, frames);
    for (size_t at = 0; at < COUNT_OF_SIZES; at++) {
        check_row(in, &due, frames, read_in_pieces(in, sizes[at], &stream, frames));
        check_number(in, &due, frames);
    }
}

/* In `imitated` frame 0 and the false one come before the frame at 1,530, and in `stray` the false one alone before
 * that at 513. In `lost`, where no frame is false, 4 come before the 6 from 2,554 on. */
static void test_after_a_false_match(void) {
    test_good_frame_missed(&imitated, 1018);
    test_good_frame_missed(&stray, 1);
    test_found_again(&imitated, 1530, 2, 1);
    test_found_again(&stray, 513, 1, 1);
    test_found_again(&lost, 2554, 4, 6);
}

/* Feeds the recording `lost` but for the byte at a place, or all of it. */
static void feed_lost(struct hpsdr_stream *stream, size_t but) {
    static uint8_t bytes[MOST_BYTES];
    size_t length = 0;
    for (size_t at = 0; at < lost.length; at++)
        if (at != but)
            bytes[length++] = lost.bytes[at];
    hpsdr_stream_init(stream);
    feed(stream, bytes, 4096);
    feed(stream, bytes + 4096, length - 4096);
}

static void test_last_frame(void) {
    struct hpsdr_stream stream;
    feed_lost(&stream, SIZE_MAX);
    check(memcmp(stream.held, last_of_lost, HPSDR_FRAME) == 0, "lost", "what is held is not the last frame", 512);
    check(feed(&stream, sync, 3) == 1, "lost", "sync after it does not release the last frame", 3);
    check(memcmp(output, last_of_lost, HPSDR_FRAME) == 0, "lost", "what is released is not the last frame", 3);
    check_counts(&stream, "lost and sync", 3, 11, 506, 6141);
    check(512 * (stream.counts.frames - 1) + stream.counts.skipped == 5626, "lost", "the last place is another", 3);
}

/* With a byte of the last frame missing, its first after sync, one in the middle or its last, sync releases nothing; a
 * second time it releases 511 bytes of the frame and a 7F. */
static void test_unwhole_last_frame(void) {
    static const size_t missing[] = {3, 100, 511};
    struct hpsdr_stream stream;
    for (size_t at = 0; at < 3; at++) {
        uint8_t filled[HPSDR_FRAME];
        memcpy(filled, last_of_lost, missing[at]);
        memcpy(filled + missing[at], last_of_lost + missing[at] + 1, 511 - missing[at]);
        filled[511] = 0x7F;
        feed_lost(&stream, 5626 + missing[at]);
        check_counts(&stream, "lost but a byte", 511, 10, 506, 6137);
        check(feed(&stream, sync, 3) == 0, "lost but a byte", "sync releases a frame", missing[at]);
        check_counts(&stream, "lost but a byte, and sync", 514, 10, 506, 6140);
        check(feed(&stream, sync, 3) == 1, "lost but a byte", "a second sync releases nothing", missing[at]);
        check(memcmp(output, filled, HPSDR_FRAME) == 0, "lost but a byte", "another frame is released", missing[at]);
    }
}

/* 512 bytes are the most for one frame a call: 514 held bytes and 513 make two. */
static void test_longer_piece(void) {
    uint8_t bytes[2 * HPSDR_FRAME + 3];
    struct hpsdr_stream stream;
    draw(bytes, 1, 0);
    draw(bytes + HPSDR_FRAME, 1, 1);
    memcpy(bytes + 2 * HPSDR_FRAME, sync, 3);
    hpsdr_stream_init(&stream);
    check(feed(&stream, bytes, 514) == 0, "two frames", "514 bytes give a frame", 514);
    check(feed(&stream, bytes + 514, 513) == 2, "two frames", "513 bytes more do not give two frames", 513);
}

static void load(struct recording *recording, const char *name, const char *path, size_t length) {
    FILE *file = fopen(path, "rb");
    recording->name = name;
    recording->length = file ? fread(recording->bytes, 1, MOST_BYTES, file) : 0;
    check(recording->length == length, name, "the recording has another length", recording->length);
    if (file)
        fclose(file);
}

int main(int count, char **arguments) {
    if (count != 4) {
        fputs("usage: recordings LOST IMITATED STRAY\n", stderr);
        return 2;
    }
    load(&lost, "lost", arguments[1], 11 * 512 + 506);
    load(&imitated, "imitated", arguments[2], 3 * 512 + 506 + 3);
    load(&stray, "stray", arguments[3], 1 + 2 * 512 + 3);
    if (faults)
        return 1;
    expect_lost();
    expect_imitated();
    expect_stray();
    for (size_t at = 0; at < COUNT_OF_SIZES; at++) {
        test_reading(&lost, sizes[at]);
        test_reading(&imitated, sizes[at]);
        test_reading(&stray, sizes[at]);
    }
    test_reading_at_once(&lost);
    test_reading_at_once(&imitated);
    test_reading_at_once(&stray);
    test_reasons(&lost);
    test_reasons(&imitated);
    test_reasons(&stray);
    test_skipped(&lost, 2048, 2554);
    test_skipped(&imitated, 1024, 1530);
    test_skipped(&stray, 512, 513);
    test_after_a_false_match();
    test_last_frame();
    test_unwhole_last_frame();
    test_longer_piece();
    return faults ? 1 : 0;
}
