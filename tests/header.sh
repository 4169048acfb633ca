#!/bin/sh
# Compiles the header by itself as C11, C++11 and C++17, with more warnings than its users may ask for, and checks its
# numbers and the types of its short forms.
set -eu
root=$(cd "$(dirname "$0")/.." && pwd)
work=$(mktemp -d)
trap 'rm -rf "$work"' EXIT

echo '#include <hpsdr.h>' > "$work/alone.c"

cat > "$work/numbers.c" <<'END'
#include <hpsdr.h>

#include <assert.h>
#include <stddef.h>

static_assert(HPSDR_ROW_CELLS == 3, "cells of a row");
static_assert(HPSDR_STATUS_CELLS == 26, "cells of a status record");
static_assert(HPSDR_HOST_CELLS == 62, "cells of a host record");
static_assert(HPSDR_BUILDER_CELLS == 63, "cells of a builder");
static_assert(HPSDR_COUNTS_CELLS == 4, "cells of a stream's counts");
static_assert(offsetof(struct hpsdr_host, rx_preamps) == 51 * sizeof(uint32_t), "place of word 10's first cell");
static_assert(offsetof(struct hpsdr_host, word10_c4) == 61 * sizeof(uint32_t), "place of word 10's last cell");
static_assert(offsetof(struct hpsdr_builder, turn) == 62 * sizeof(uint32_t), "place of the turn");
static_assert(HPSDR_HELD == 514, "bytes that a stream may hold");
static_assert(HPSDR_FRAME == 512 && HPSDR_AUDIO == 252, "bytes of a frame, numbers of a host frame");
static_assert(HPSDR_MOST_FRAMES == 8, "frames of the longest transfer");
static_assert(HPSDR_PIECE_MOST == 4096 && HPSDR_OUTPUT_LEAST == 4096, "bytes of a piece and of an output");
static_assert(HPSDR_INPUT_MOST == 65536, "bytes of an input that is read at once");
static_assert(HPSDR_ACCEPTED == 0 && HPSDR_BAD_STATE == 1 && HPSDR_BAD_COUNT == 2 && HPSDR_LENGTH == 3 &&
              HPSDR_SHORT_BUFFER == 4 && HPSDR_STREAM_FULL == 5 && HPSDR_NO_SYNC == 6 && HPSDR_PADDING == 7 &&
              HPSDR_RESERVED == 8 && HPSDR_RANGE == 9, "answers");
static_assert(HPSDR_CAUSE_SOURCE10 == 1 && HPSDR_CAUSE_RELAY == 2 && HPSDR_CAUSE_WORD9_C4_BIT7 == 3 &&
              HPSDR_CAUSE_WORD10_C1_BIT7 == 4, "causes of a host frame");
static_assert(HPSDR_CAUSE_AIN5 == 5 && HPSDR_CAUSE_AIN1 == 6 && HPSDR_CAUSE_AIN2 == 7 && HPSDR_CAUSE_AIN3 == 8 &&
              HPSDR_CAUSE_AIN4 == 9 && HPSDR_CAUSE_AIN6 == 10, "causes of a radio frame");
static_assert(HPSDR_NOT_GIVEN == 0 && HPSDR_INSIDE == 1 && HPSDR_NEAR_SYNC == 2 && HPSDR_FAR_SYNC == 3 &&
              HPSDR_STILL_HELD == 4, "reasons");
static_assert(HPSDR_TEXT == 128, "room for a text");
static_assert(HPSDR_PTT_TO_RING == 0 && HPSDR_PTT_TO_TIP == 1, "codes of the jack");

/* The samples of a frame, of which a slot has 6 bytes for a receiver and 2 for the microphone: as many slots as fit
 * into 504 bytes. */
#define SLOTS(n) (504 / (6 * (n) + 2))
#define FITS(n) (2 * (n) * SLOTS(n) <= HPSDR_MOST_IQ && SLOTS(n) <= HPSDR_MOST_MIC)
static_assert(FITS(1) && FITS(2) && FITS(3) && FITS(4) && FITS(5) && FITS(6) && FITS(7) && FITS(8), "room for all");
static_assert(HPSDR_MOST_RECEIVERS == 8, "the most receivers");
static_assert(HPSDR_MOST_IQ == 2 * 8 * SLOTS(8), "the most I and Q, those of 8 receivers");
static_assert(HPSDR_MOST_MIC == SLOTS(1), "the most microphone values, those of 1 receiver");
static_assert(sizeof(((struct hpsdr_samples *)0)->iq) == 160 * sizeof(int32_t), "room for I and Q");
static_assert(sizeof(((struct hpsdr_samples *)0)->mic) == 63 * sizeof(int16_t), "room for microphone values");
static_assert(sizeof(((struct hpsdr_transfer *)0)->iq) == 1280 * sizeof(int32_t), "room for a transfer's I and Q");
static_assert(sizeof(((struct hpsdr_transfer *)0)->mic) == 504 * sizeof(int16_t), "room for a transfer's microphone");
static_assert(sizeof(((struct hpsdr_stream *)0)->counts) == 4 * sizeof(uint64_t), "counts of a stream");
static_assert(sizeof(((struct hpsdr_stream *)0)->held) == 514, "held bytes of a stream");
static_assert(sizeof(struct hpsdr_plain) == 4 * sizeof(uint32_t), "numbers of a plain reading");
static_assert(sizeof(struct hpsdr_why) == 4 * sizeof(uint32_t), "numbers of a reason");

/* Declared once more, each with its type. */
static inline enum hpsdr_answer hpsdr_answer_of(uint32_t got);
static inline uint32_t hpsdr_found_in(uint32_t got);
static inline uint32_t hpsdr_place_in(uint32_t got);
static inline const char *hpsdr_answer_name(uint32_t answer);
static inline const char *hpsdr_answer_sentence(uint32_t answer);
static inline const char *hpsdr_cause_sentence(uint32_t cause);
static inline const char *hpsdr_refusal_text(uint32_t got, char text[128]);
static inline const char *hpsdr_transfer_text(uint32_t got, char text[128]);
static inline uint32_t hpsdr_row_of(size_t receivers, struct hpsdr_row *row);
static inline void hpsdr_status_init(struct hpsdr_status *status);
static inline int32_t hpsdr_i(const struct hpsdr_samples *samples, size_t n, size_t r, size_t t);
static inline int32_t hpsdr_q(const struct hpsdr_samples *samples, size_t n, size_t r, size_t t);
static inline uint32_t hpsdr_read(const uint8_t frame[512], size_t receivers, struct hpsdr_samples *samples,
                                  struct hpsdr_status *status);
static inline int32_t hpsdr_transfer_i(const struct hpsdr_transfer *transfer, size_t n, size_t r, size_t t);
static inline int32_t hpsdr_transfer_q(const struct hpsdr_transfer *transfer, size_t n, size_t r, size_t t);
static inline uint32_t hpsdr_read_transfer(const uint8_t *input, size_t length, size_t receivers,
                                           struct hpsdr_transfer *transfer, struct hpsdr_status *status);
static inline uint32_t hpsdr_write(const struct hpsdr_status *status, size_t word, size_t receivers,
                                   const struct hpsdr_samples *samples, uint8_t frame[512]);
static inline void hpsdr_host_init(struct hpsdr_host *host);
static inline uint32_t hpsdr_hear(const uint8_t frame[512], int16_t audio[252], struct hpsdr_host *host);
static inline void hpsdr_builder_init(struct hpsdr_builder *builder);
static inline uint32_t hpsdr_build_next(struct hpsdr_builder *builder, const int16_t audio[252], uint8_t frame[512]);
static inline void hpsdr_stream_init(struct hpsdr_stream *stream);
static inline int hpsdr_stream_is_sound(const struct hpsdr_stream *stream);
static inline uint32_t hpsdr_feed(struct hpsdr_stream *stream, const uint8_t *piece, size_t length,
                                  uint8_t output[4096]);
static inline struct hpsdr_plain hpsdr_plain_of(uint64_t returned);
static inline struct hpsdr_plain hpsdr_read_at_once(const uint8_t *input, size_t length, uint8_t *output);
static inline struct hpsdr_why hpsdr_why_of(uint64_t returned);
static inline struct hpsdr_why hpsdr_explain(const uint8_t *input, size_t length, size_t place);
static inline const char *hpsdr_why_text(struct hpsdr_why why, char text[128]);
END

# The compiler, the language and its year.
compile() {
    for source in alone numbers; do
        "$1" -x "$2" -std="$3" -Wall -Wextra -Wpedantic -Wconversion -Wshadow -Wcast-qual -Werror \
            -I"$root/include" -c -o "$work/$source.o" "$work/$source.c" || {
            echo "header.sh: $1 -std=$3 refuses the header ($source.c)" >&2
            exit 1
        }
    done
}

compile gcc c c11
compile clang c c11
compile g++ c++ c++11
compile g++ c++ c++17
