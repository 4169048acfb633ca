/* Prints the peak of each receiver in a recording of radio frames, which comes on standard input as raw bytes.
 *
 *     peaks RECEIVERS < recording
 *
 * The peak is the largest absolute value of I and Q. A frame is known by the sync of the next, so a recording's last
 * frame stays held and does not count, unless three bytes of sync follow it. The exit status is 0 if the recording was
 * read to its end and no frame was refused, 1 if not, and 2 if the argument is not 1 to 8. */
#include <hpsdr.h>

#include <inttypes.h>
#include <stdbool.h>
#include <stdio.h>
#include <stdlib.h>

enum { BAD_ARGUMENT = 2 };

struct summary {
    size_t receivers;
    struct hpsdr_stream stream;
    struct hpsdr_status status;
    int32_t peaks[HPSDR_MOST_RECEIVERS];
    uint64_t read, refused;
};

static int32_t larger(int32_t peak, int32_t value) { return abs(value) > peak ? abs(value) : peak; }

static void take_samples(struct summary *summary, const struct hpsdr_transfer *transfer, size_t frames) {
    const size_t n = summary->receivers;
    struct hpsdr_row row;
    hpsdr_row_of(n, &row);
    for (size_t slot = 0; slot < frames * row.slots; slot++)
        for (size_t r = 0; r < n; r++) {
            summary->peaks[r] = larger(summary->peaks[r], hpsdr_transfer_i(transfer, n, r, slot));
            summary->peaks[r] = larger(summary->peaks[r], hpsdr_transfer_q(transfer, n, r, slot));
        }
}

/* Frames that stand one after another. Where one is refused, the reading goes on with the frame behind it. */
static void take_frames(struct summary *summary, const uint8_t *frames, size_t count) {
    static struct hpsdr_transfer transfer;
    while (count > 0) {
        const uint32_t got =
            hpsdr_read_transfer(frames, HPSDR_FRAME * count, summary->receivers, &transfer, &summary->status);
        const size_t read = hpsdr_found_in(got), refused = hpsdr_answer_of(got) != HPSDR_ACCEPTED;
        take_samples(summary, &transfer, read);
        summary->read += read;
        summary->refused += refused;
        frames += HPSDR_FRAME * (read + refused);
        count -= read + refused;
    }
}

static bool take_recording(struct summary *summary, FILE *recording) {
    static uint8_t piece[HPSDR_PIECE_MOST], output[HPSDR_OUTPUT_LEAST];
    char text[HPSDR_TEXT];
    size_t length;
    while ((length = fread(piece, 1, sizeof piece, recording)) > 0) {
        const uint32_t got = hpsdr_feed(&summary->stream, piece, length, output);
        if (hpsdr_answer_of(got) != HPSDR_ACCEPTED) {
            fprintf(stderr, "peaks: the stream reader refused: %s\n", hpsdr_refusal_text(got, text));
            return false;
        }
        take_frames(summary, output, hpsdr_found_in(got));
    }
    if (ferror(recording))
        perror("peaks: standard input");
    return !ferror(recording);
}

static bool print_summary(const struct summary *summary) {
    const struct hpsdr_counts *counts = &summary->stream.counts;
    for (size_t r = 0; r < summary->receivers; r++)
        printf("receiver %zu: peak %" PRId32 "\n", r + 1, summary->peaks[r]);
    printf("frames read %" PRIu64 ", frames refused %" PRIu64 ", bytes skipped %" PRIu64 ", bytes held %" PRIu64 "\n",
           summary->read, summary->refused, counts->skipped, counts->held);
    if (counts->held >= HPSDR_FRAME)
        puts("a last frame may be among the bytes held: it is handed out once sync, 7F 7F 7F, has come after it");
    if (fflush(stdout) == 0 && !ferror(stdout))
        return true;
    perror("peaks: standard output");
    return false;
}

int main(int count, char **arguments) {
    if (count != 2 || arguments[1][0] < '1' || arguments[1][0] > '8' || arguments[1][1] != '\0') {
        fputs("usage: peaks RECEIVERS < recording (RECEIVERS is 1 to 8)\n", stderr);
        return BAD_ARGUMENT;
    }
    struct summary summary = {.receivers = (size_t)(arguments[1][0] - '0')};
    hpsdr_stream_init(&summary.stream);
    hpsdr_status_init(&summary.status);
    const bool whole = take_recording(&summary, stdin);
    const bool printed = print_summary(&summary);
    return whole && printed && summary.refused == 0 ? EXIT_SUCCESS : EXIT_FAILURE;
}
