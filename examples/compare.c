/* Reads a recording of at most 65,536 bytes, which comes on standard input as raw bytes, by both readers: the plain one
 * at once, and the stream's in pieces. Prints what each counts, and whether they agree.
 *
 *     compare [PIECE] < recording
 *
 * PIECE is the number of bytes of a piece, 1 to 4,096, and 4,096 where it is not given. The exit status is 0 if the
 * readers agree, 1 if not or if the recording is longer or cannot be read, and 2 if the argument is wrong. */
#include <hpsdr.h>

#include <stdbool.h>
#include <stdio.h>
#include <stdlib.h>
#include <string.h>

enum { BAD_ARGUMENT = 2 };

/* What a reader made of the recording. */
struct reading {
    size_t frames, skipped, left;
    const uint8_t *frames_at, *left_at;
};

static uint8_t recording[HPSDR_INPUT_MOST + 1]; /* a byte more than is taken, which shows a longer recording */

/* The bytes of a piece, or 0 where the argument is not 1 to 4,096. */
static size_t piece_of(const char *argument) {
    const bool digits = argument[strspn(argument, "0123456789")] == '\0';
    const unsigned long piece = strtoul(argument, NULL, 10);
    return digits && piece <= HPSDR_PIECE_MOST ? piece : 0;
}

static bool load(size_t *length) {
    *length = fread(recording, 1, sizeof recording, stdin);
    if (ferror(stdin))
        perror("compare: standard input");
    else if (*length > HPSDR_INPUT_MOST)
        fprintf(stderr, "compare: the recording is longer than %d bytes\n", HPSDR_INPUT_MOST);
    return !ferror(stdin) && *length <= HPSDR_INPUT_MOST;
}

static bool accepted(const char *reader, uint32_t got) {
    char text[HPSDR_TEXT];
    if (hpsdr_answer_of(got) != HPSDR_ACCEPTED)
        fprintf(stderr, "compare: the %s reader refused: %s\n", reader, hpsdr_refusal_text(got, text));
    return hpsdr_answer_of(got) == HPSDR_ACCEPTED;
}

static bool read_at_once(struct reading *reading, size_t length) {
    static uint8_t output[HPSDR_INPUT_MOST];
    const struct hpsdr_plain plain = hpsdr_read_at_once(recording, length, output);
    *reading = (struct reading){plain.frames, plain.skipped, plain.left, output, recording + length - plain.left};
    return accepted("plain", plain.got);
}

static bool read_in_pieces(struct reading *reading, size_t length, size_t piece) {
    static uint8_t output[HPSDR_INPUT_MOST + HPSDR_OUTPUT_LEAST]; /* a call's frames go behind those before them */
    static struct hpsdr_stream stream;
    uint32_t got = HPSDR_ACCEPTED;
    hpsdr_stream_init(&stream);
    for (size_t fed = 0; fed < length && hpsdr_answer_of(got) == HPSDR_ACCEPTED; fed += piece)
        got = hpsdr_feed(&stream, recording + fed, piece < length - fed ? piece : length - fed,
                         output + HPSDR_FRAME * stream.counts.frames);
    *reading = (struct reading){(size_t)stream.counts.frames, (size_t)stream.counts.skipped,
                                (size_t)stream.counts.held, output, stream.held};
    return accepted("stream", got);
}

static void tell(const char *what, size_t at_once, size_t in_pieces, bool same) {
    printf("%s: %zu at once, %zu in pieces, %s\n", what, at_once, in_pieces, same ? "the same" : "not the same");
}

static bool agree(const struct reading *one, const struct reading *other) {
    const bool frames = one->frames == other->frames &&
                        memcmp(one->frames_at, other->frames_at, HPSDR_FRAME * one->frames) == 0;
    const bool skipped = one->skipped == other->skipped;
    const bool left = one->left == other->left && memcmp(one->left_at, other->left_at, one->left) == 0;
    tell("frames", one->frames, other->frames, frames);
    tell("bytes skipped", one->skipped, other->skipped, skipped);
    tell("bytes left", one->left, other->left, left);
    return frames && skipped && left;
}

int main(int count, char **arguments) {
    const size_t piece = count < 2 ? HPSDR_PIECE_MOST : piece_of(arguments[1]);
    struct reading at_once, in_pieces;
    size_t length;
    if (count > 2 || piece == 0) {
        fputs("usage: compare [PIECE] < recording (PIECE is 1 to 4096)\n", stderr);
        return BAD_ARGUMENT;
    }
    if (!load(&length) || !read_at_once(&at_once, length) || !read_in_pieces(&in_pieces, length, piece))
        return EXIT_FAILURE;
    const bool same = agree(&at_once, &in_pieces);
    if (fflush(stdout) != 0)
        perror("compare: standard output");
    return same && !ferror(stdout) ? EXIT_SUCCESS : EXIT_FAILURE;
}
