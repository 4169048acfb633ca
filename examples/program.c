#include <hpsdr.h>

#include <inttypes.h>
#include <stdio.h>

/* Reads a recording of three receivers from standard input and tells of each frame. */
int main(void) {
    static uint8_t piece[HPSDR_PIECE_MOST], frames[HPSDR_OUTPUT_LEAST];
    struct hpsdr_stream stream;
    struct hpsdr_status status;
    struct hpsdr_samples samples;
    char text[HPSDR_TEXT];
    size_t length;

    hpsdr_stream_init(&stream);
    hpsdr_status_init(&status);
    while ((length = fread(piece, 1, sizeof piece, stdin)) > 0) {
        uint32_t fed = hpsdr_feed(&stream, piece, length, frames);
        for (uint32_t k = 0; k < hpsdr_found_in(fed); k++) {
            uint32_t got = hpsdr_read(frames + HPSDR_FRAME * k, 3, &samples, &status);
            if (hpsdr_answer_of(got) == HPSDR_ACCEPTED)
                printf("word %" PRIu32 ", receiver 3 begins with %" PRId32 "\n", hpsdr_found_in(got),
                       hpsdr_i(&samples, 3, 2, 0));
            else
                printf("refused: %s\n", hpsdr_refusal_text(got, text));
        }
    }
    printf("%" PRIu64 " bytes skipped, %" PRIu64 " held\n", stream.counts.skipped, stream.counts.held);
    return 0;
}
