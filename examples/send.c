#include <hpsdr.h>

#include <stdio.h>

/* Builds the eleven frames in which a host's record is wholly sent, and prints C0 to C4 of each. */
int main(void) {
    static const int16_t audio[HPSDR_AUDIO];
    uint8_t frame[HPSDR_FRAME];
    struct hpsdr_builder builder;

    hpsdr_builder_init(&builder);
    builder.host.receivers = 3;
    builder.host.frequencies[0] = 7100000; /* receiver 1's, in word 2 */
    builder.host.rx_preamps[0] = 1;        /* receiver 1's, in word 10 */
    for (int k = 0; k < 11; k++) {
        uint32_t answer = hpsdr_answer_of(hpsdr_build_next(&builder, audio, frame));
        if (answer != HPSDR_ACCEPTED) {
            fprintf(stderr, "refused: %s\n", hpsdr_answer_sentence(answer));
            return 1;
        }
        printf("%02X %02X %02X %02X %02X\n", frame[3], frame[4], frame[5], frame[6], frame[7]);
    }
    return 0;
}
