/* Measures how deep `hpsdr_stream_feed` goes below its caller's stack pointer, by every way that a call can take: it
 * is used where little stack is left (T-06). Prints the deepest. Exits 1 if that is above the bound, if a call does not
 * answer what it should, or if the measuring does not find what a function of this file is known to use.
 *
 * The call is made on a stack of its own, a signal's, which is painted before: the lowest byte that has changed is the
 * deepest. What is set aside and never written is not seen. */
#define _XOPEN_SOURCE 700 /* sigaltstack */
#include "report.h"

#include <hpsdr.h>

#include <signal.h>
#include <stdbool.h>
#include <stddef.h>
#include <stdint.h>
#include <string.h>

enum { BOUND = 2048, STACK = 1 << 16, KNOWN = 3000, KNOWN_MOST = KNOWN + 512 };
#define MOST_BYTES (UINT64_C(1) << 48)

/* Two, since a call may write just the one. */
static const uint8_t patterns[] = {0xA5, 0x5A};
enum { PATTERNS = sizeof patterns };

/* A call, what it should answer, and how many bytes are held after it. */
struct way {
    const char *name;
    size_t held, piece; /* neighbours in one text */
    bool frames;        /* a text of frames one after another, or one without sync */
    uint64_t skipped, total_off;
    size_t output_lacks;
    enum hpsdr_answer answer;
    uint32_t found;
    size_t left;
};
static const struct way ways[] = {
    {"frames in the piece alone", .piece = 4096, .frames = true, .found = 7, .left = 512},
    {"a frame across the join", .held = 300, .piece = 215, .frames = true, .found = 1, .left = 3},
    {"a near sync across the join", .held = 1, .piece = 514, .frames = true, .found = 1, .left = 3},
    {"a far sync across the join", .held = 514, .piece = 1, .frames = true, .found = 1, .left = 3},
    {"514 held, the longest piece", .held = 514, .piece = 4096, .frames = true, .found = 8, .left = 514},
    {"noise", .piece = 4096, .left = 514},
    {"noise, 514 held, the longest piece", .held = 514, .piece = 4096, .left = 514},
    {"noise, what is left across the join", .held = 514, .piece = 257, .left = 514},
    {"a short piece behind held bytes", .held = 100, .piece = 50, .left = 150},
    {"a piece of 0 bytes", .held = 514, .left = 514},
    {"BAD_STATE", .held = 514, .piece = 4096, .total_off = 1, .answer = HPSDR_BAD_STATE, .left = 514},
    {"LENGTH", .held = 514, .piece = 4097, .answer = HPSDR_LENGTH, .left = 514},
    {"SHORT_BUFFER", .held = 514, .piece = 4096, .output_lacks = 1, .answer = HPSDR_SHORT_BUFFER, .left = 514},
    {"STREAM_FULL", .held = 514, .piece = 4096, .skipped = MOST_BYTES - 514 - 4095, .answer = HPSDR_STREAM_FULL,
     .left = 514},
};

static struct hpsdr_stream stream;
static uint8_t piece[HPSDR_PIECE_MOST + 1], output[HPSDR_OUTPUT_LEAST];
static size_t piece_length, output_length;
static uint32_t got;

static uint8_t stack[STACK];
static void (*measured)(void);
static const uint8_t *caller;
static uint8_t fill;

static void set_out(const struct way *way) {
    memset(&stream, 0, sizeof stream);
    for (size_t place = 0; place < way->held + way->piece; place++) {
        const uint8_t byte = way->frames && place % HPSDR_FRAME < 3 ? 0x7F : 0x11;
        *(place < way->held ? stream.held + place : piece + place - way->held) = byte;
    }
    stream.counts.held = way->held;
    stream.counts.skipped = way->skipped;
    stream.counts.total = way->held + way->skipped + way->total_off;
    piece_length = way->piece;
    output_length = sizeof output - way->output_lacks;
}

static void check_answer(const struct way *way) {
    if (got != (way->answer | way->found << 8) || stream.counts.held != way->left)
        report("%s: answer %u, found %u, %u held, expected %u, %u, %zu", way->name, (unsigned)hpsdr_answer_of(got),
               (unsigned)hpsdr_found_in(got), (unsigned)stream.counts.held, (unsigned)way->answer,
               (unsigned)way->found, way->left);
}

/* A caller's frame address is its stack pointer or somewhat above it: what it puts on the stack for the call counts. */
static void feed(void) {
    caller = __builtin_frame_address(0);
    got = hpsdr_stream_feed(&stream.counts, HPSDR_COUNTS_CELLS, stream.held, HPSDR_HELD, piece, piece_length, output,
                            output_length);
}

__attribute__((noinline)) static uint32_t use_known(void) {
    volatile uint8_t bytes[KNOWN];
    for (size_t place = 0; place < KNOWN; place++)
        bytes[place] = fill;
    return bytes[0];
}

static void call_known(void) {
    caller = __builtin_frame_address(0);
    got = use_known();
}

static void on_own_stack(int number) {
    (void)number;
    measured();
}

static bool set_up_stack(void) {
    const stack_t own = {.ss_sp = stack, .ss_size = sizeof stack};
    struct sigaction action = {.sa_handler = on_own_stack, .sa_flags = SA_ONSTACK};
    return sigaltstack(&own, NULL) == 0 && sigaction(SIGUSR1, &action, NULL) == 0;
}

static size_t depth_below_caller(void (*call)(void), uint8_t pattern) {
    measured = call;
    memset(stack, pattern, sizeof stack);
    if (raise(SIGUSR1) != 0)
        report("the call is not made");
    const uint8_t *lowest = stack;
    while (lowest < caller && *lowest == pattern)
        lowest++;
    return (size_t)(caller - lowest);
}

static size_t more(size_t one, size_t other) { return one > other ? one : other; }

/* The known amount must be found whichever of the patterns the function writes. */
static void check_measuring(void) {
    for (size_t written = 0; written < PATTERNS; written++) {
        size_t depth = 0;
        fill = patterns[written];
        for (size_t at = 0; at < PATTERNS; at++)
            depth = more(depth, depth_below_caller(call_known, patterns[at]));
        if (depth < KNOWN || depth > KNOWN_MOST)
            report("the measuring is broken: %zu bytes found where %d are used", depth, KNOWN);
    }
}

static size_t depth_of(const struct way *way) {
    size_t depth = 0;
    set_out(way);
    feed(); /* The dynamic linker binds what is called for the first time, and that goes deep. */
    for (size_t at = 0; at < PATTERNS; at++) {
        set_out(way);
        depth = more(depth, depth_below_caller(feed, patterns[at]));
        check_answer(way);
    }
    return depth;
}

int main(void) {
    const char *name = "";
    size_t deepest = 0;
    if (!set_up_stack()) {
        report("there is no stack to measure on");
        return 1;
    }
    check_measuring();
    for (const struct way *way = ways; way < ways + sizeof ways / sizeof *ways; way++) {
        const size_t depth = depth_of(way);
        name = depth > deepest ? way->name : name;
        deepest = more(depth, deepest);
    }
    printf("hpsdr_stream_feed goes %zu bytes below its caller at most: %s\n", deepest, name);
    if (deepest > BOUND)
        report("that is above the bound of %d bytes", BOUND);
    return faults ? 1 : 0;
}
