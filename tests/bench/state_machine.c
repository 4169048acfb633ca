/* Readers as they are usually written: a switch on the state, one byte at a time. They keep the header's
 * promises, so that their time can stand beside the library's: the same checks and the same refusals in
 * the same order, and nothing changed by a refusal. */
#include "hpsdr.h"
#include <stdbool.h>
#include <string.h>

#define SYNC 0x7f
#define CONTROLS 5
#define HEADER 8
#define PAYLOAD (HPSDR_FRAME - HEADER)
#define WINDOW (HPSDR_FRAME + 3)
#define LEVEL_MOST 4095
#define TOTAL_MOST ((uint64_t)1 << 48)

static const uint32_t status_most[HPSDR_STATUS_CELLS] = {
    1, 1, 1, 1, 1, 1, 1, 1, 1, 1, 1, 1, 1, 255, 255, 255, 65535, 65535, 65535, 65535, 65535, 65535, 255, 255, 255, 255,
};

static const uint32_t host_most[HPSDR_HOST_CELLS] = {
    1, 3, 2, 1, 3, 1, 1, 255, 3, 1, 1, 1, 3, 1, 2, 1, 255, 1, 1,
    UINT32_MAX, UINT32_MAX, UINT32_MAX, UINT32_MAX, UINT32_MAX, UINT32_MAX, UINT32_MAX, UINT32_MAX,
    255, 1, 1, 1, 1, 1, 1, 1, 1, 1, 1, 1, 1, 1, 1, 1, 1, 1, 1, 1, 1, 1, 1, 1,
    1, 1, 1, 1, 1, 1, 1, 255, 255, 255, 255,
};

static bool holds(const void *record, size_t cells, const uint32_t *most, size_t needed)
{
    const uint32_t *cell = record;
    if (cells < needed)
        return false;
    for (size_t i = 0; i < needed; i++)
        if (cell[i] > most[i])
            return false;
    return true;
}

static uint32_t bit(uint8_t byte, int place) { return byte >> place & 1; }

static uint32_t two_bytes(const uint8_t *bytes) { return (uint32_t)bytes[0] << 8 | bytes[1]; }

static uint32_t four_bytes(const uint8_t *bytes) { return two_bytes(bytes) << 16 | two_bytes(bytes + 2); }

static inline bool begins_with_sync(const uint8_t *bytes)
{
    return bytes[0] == SYNC && bytes[1] == SYNC && bytes[2] == SYNC;
}

/* Each bit of the byte into a cell of its own, bit 0 first. */
static void spread(uint8_t byte, uint32_t *cells, int count)
{
    for (int i = 0; i < count; i++)
        cells[i] = bit(byte, i);
}

/* ---- frames from the radio ---- */

static void take_inputs(struct hpsdr_status *status, const uint8_t *control)
{
    status->adc1 = bit(control[1], 0);
    status->io1 = !bit(control[1], 1);
    status->io2 = !bit(control[1], 2);
    status->io3 = !bit(control[1], 3);
    status->io4 = !bit(control[1], 4);
    status->pll = bit(control[1], 5);
    status->toggle = bit(control[1], 6);
    status->mercury = control[2];
    status->penelope = control[3];
    status->main = control[4];
}

static void take_boards(struct hpsdr_status *status, const uint8_t *control)
{
    status->adc1 = bit(control[1], 0);
    status->adc2 = bit(control[2], 0);
    status->adc3 = bit(control[3], 0);
    status->adc4 = bit(control[4], 0);
    status->board1 = control[1] >> 1;
    status->board2 = control[2] >> 1;
    status->board3 = control[3] >> 1;
    status->board4 = control[4] >> 1;
}

/* Levels are twelve bits. */
static bool has_wide_level(const uint8_t *control)
{
    switch (control[0] >> 3) {
    case 1: case 2: case 3:
        return two_bytes(control + 1) > LEVEL_MOST || two_bytes(control + 3) > LEVEL_MOST;
    default:
        return false;
    }
}

static uint32_t take_radio_word(struct hpsdr_status *status, const uint8_t *control)
{
    status->ptt = bit(control[0], 0);
    status->dash = bit(control[0], 1);
    status->dot = bit(control[0], 2);
    switch (control[0] >> 3) {
    case 0:
        take_inputs(status, control);
        break;
    case 1:
        status->ain5 = two_bytes(control + 1);
        status->ain1 = two_bytes(control + 3);
        break;
    case 2:
        status->ain2 = two_bytes(control + 1);
        status->ain3 = two_bytes(control + 3);
        break;
    case 3:
        status->ain4 = two_bytes(control + 1);
        status->ain6 = two_bytes(control + 3);
        break;
    case 4:
        take_boards(status, control);
        break;
    }
    return control[0] >> 3;
}

enum radio_state { RADIO_SYNC, RADIO_CONTROL, SAMPLE_HIGH, SAMPLE_MIDDLE, SAMPLE_LOW, MIC_HIGH, MIC_LOW, PADDING };

struct radio_machine {
    enum radio_state state;
    size_t count; /* of sync or control bytes, or of the slot's samples */
    size_t slots; /* still to come */
    uint32_t number;
    uint8_t control[CONTROLS];
};

/* Takes in one byte; false if it should be sync and is not. */
static inline bool radio_step(struct radio_machine *machine, uint8_t byte, size_t samples, int32_t **iq, int16_t **mic)
{
    switch (machine->state) {
    case RADIO_SYNC:
        if (byte != SYNC)
            return false;
        if (++machine->count == 3) {
            machine->count = 0;
            machine->state = RADIO_CONTROL;
        }
        break;
    case RADIO_CONTROL:
        machine->control[machine->count++] = byte;
        if (machine->count == CONTROLS) {
            machine->count = 0;
            machine->state = SAMPLE_HIGH;
        }
        break;
    case SAMPLE_HIGH:
        machine->number = byte;
        machine->state = SAMPLE_MIDDLE;
        break;
    case SAMPLE_MIDDLE:
        machine->number = machine->number << 8 | byte;
        machine->state = SAMPLE_LOW;
        break;
    case SAMPLE_LOW:
        machine->number = machine->number << 8 | byte;
        *(*iq)++ = (int32_t)(machine->number << 8) >> 8;
        machine->state = ++machine->count == samples ? MIC_HIGH : SAMPLE_HIGH;
        break;
    case MIC_HIGH:
        machine->number = byte;
        machine->state = MIC_LOW;
        break;
    case MIC_LOW:
        *(*mic)++ = (int16_t)(machine->number << 8 | byte);
        machine->count = 0;
        machine->state = --machine->slots == 0 ? PADDING : SAMPLE_HIGH;
        break;
    case PADDING:
        break;
    }
    return true;
}

uint32_t machine_radio_read(const uint8_t *frame, size_t frame_length, size_t receivers,
                            int32_t *iq, size_t iq_length, int16_t *mic, size_t mic_length,
                            struct hpsdr_status *status, size_t status_cells)
{
    if (!holds(status, status_cells, status_most, HPSDR_STATUS_CELLS))
        return HPSDR_BAD_STATE;
    if (receivers < 1 || receivers > 8)
        return HPSDR_BAD_COUNT;
    if (frame_length != HPSDR_FRAME)
        return HPSDR_LENGTH;
    size_t samples = 2 * receivers, slot = 3 * samples + 2, slots = PAYLOAD / slot;
    if (iq_length < samples * slots || mic_length < slots)
        return HPSDR_SHORT_BUFFER;
    if (!begins_with_sync(frame))
        return HPSDR_NO_SYNC;
    /* Before the first sample is written. */
    for (size_t i = HEADER + slots * slot; i < HPSDR_FRAME; i++)
        if (frame[i] != 0)
            return HPSDR_PADDING;
    if (has_wide_level(frame + 3))
        return HPSDR_RESERVED;
    struct radio_machine machine = {.state = RADIO_SYNC, .slots = slots};
    for (size_t i = 0; i < HPSDR_FRAME; i++)
        if (!radio_step(&machine, frame[i], samples, &iq, &mic))
            return HPSDR_NO_SYNC;
    return take_radio_word(status, machine.control) << 8;
}

/* ---- frames from the host ---- */

static bool sets_reserved(const uint8_t *control)
{
    switch (control[0] >> 1) {
    case 0:
        return (control[1] >> 2 & 3) == 3 || (control[4] & 3) == 3;
    case 9:
        return bit(control[4], 7);
    case 10:
        return bit(control[1], 7);
    default:
        return false;
    }
}

static void take_settings(struct hpsdr_host *host, const uint8_t *control)
{
    host->speed = control[1] & 3;
    host->source10 = control[1] >> 2 & 3;
    host->source122 = bit(control[1], 4);
    host->boards = control[1] >> 5 & 3;
    host->microphone = bit(control[1], 7);
    host->class_e = bit(control[2], 0);
    host->outputs = control[2] >> 1;
    host->attenuator = control[3] & 3;
    host->preamp = bit(control[3], 2);
    host->dither = bit(control[3], 3);
    host->random = bit(control[3], 4);
    host->antenna = control[3] >> 5 & 3;
    host->rx_out = bit(control[3], 7);
    host->relay = control[4] & 3;
    host->duplex = bit(control[4], 2);
    host->receivers = (control[4] >> 3 & 7) + 1;
    host->time_stamp = bit(control[4], 6);
    host->common_frequency = bit(control[4], 7);
}

static void take_word_10(struct hpsdr_host *host, const uint8_t *control)
{
    spread(control[1], host->rx_preamps, 4);
    host->orion_jack = bit(control[1], 4);
    host->mic_bias = bit(control[1], 5);
    host->mic_ptt_disabled = bit(control[1], 6);
    host->line_in_gain = control[2] & 31;
    host->word10_c2_top = control[2] >> 5;
    host->word10_c3 = control[3];
    host->word10_c4 = control[4];
}

static uint32_t take_host_word(struct hpsdr_host *host, const uint8_t *control)
{
    uint32_t address = control[0] >> 1;
    host->mox = bit(control[0], 0);
    switch (address) {
    case 0:
        take_settings(host, control);
        break;
    case 1:
        host->transmitter = four_bytes(control + 1);
        break;
    case 2: case 3: case 4: case 5: case 6: case 7: case 8:
        host->frequencies[address - 2] = four_bytes(control + 1);
        break;
    case 9:
        host->drive = control[1];
        spread(control[2], &host->mic_boost, 8);
        spread(control[3], &host->high_pass_13, 8);
        spread(control[4], &host->low_pass_30_20, 7);
        break;
    case 10:
        take_word_10(host, control);
        break;
    }
    return address;
}

enum host_state { HOST_SYNC, HOST_CONTROL, AUDIO_HIGH, AUDIO_LOW };

/* Where the numbers of a slot go in L, R, I, Q: the bytes drawn as I hold Q, and those drawn as Q hold I. */
static const size_t slot_order[] = {0, 1, 3, 2};

struct host_machine {
    enum host_state state;
    size_t count; /* of sync or control bytes, or of the slot's numbers */
    uint8_t high;
    uint8_t control[CONTROLS];
};

/* Takes in one byte; a refusal comes before any number is written. */
static inline enum hpsdr_answer host_step(struct host_machine *machine, uint8_t byte, int16_t **audio)
{
    switch (machine->state) {
    case HOST_SYNC:
        if (byte != SYNC)
            return HPSDR_NO_SYNC;
        if (++machine->count == 3) {
            machine->count = 0;
            machine->state = HOST_CONTROL;
        }
        break;
    case HOST_CONTROL:
        machine->control[machine->count++] = byte;
        if (machine->count < CONTROLS)
            break;
        if (sets_reserved(machine->control))
            return HPSDR_RESERVED;
        machine->count = 0;
        machine->state = AUDIO_HIGH;
        break;
    case AUDIO_HIGH:
        machine->high = byte;
        machine->state = AUDIO_LOW;
        break;
    case AUDIO_LOW:
        (*audio)[slot_order[machine->count]] = (int16_t)(machine->high << 8 | byte);
        if (++machine->count == 4) {
            machine->count = 0;
            *audio += 4;
        }
        machine->state = AUDIO_HIGH;
        break;
    }
    return HPSDR_ACCEPTED;
}

uint32_t machine_host_read(const uint8_t *frame, size_t frame_length, int16_t *audio, size_t audio_length,
                           struct hpsdr_host *host, size_t host_cells)
{
    if (!holds(host, host_cells, host_most, HPSDR_HOST_CELLS))
        return HPSDR_BAD_STATE;
    if (frame_length != HPSDR_FRAME)
        return HPSDR_LENGTH;
    if (audio_length < HPSDR_AUDIO)
        return HPSDR_SHORT_BUFFER;
    struct host_machine machine = {.state = HOST_SYNC};
    for (size_t i = 0; i < HPSDR_FRAME; i++) {
        enum hpsdr_answer answer = host_step(&machine, frame[i], &audio);
        if (answer != HPSDR_ACCEPTED)
            return answer;
    }
    return take_host_word(host, machine.control) << 8;
}

/* ---- the stream reader ---- */

static bool sound(const struct hpsdr_counts *counts, size_t counts_cells, const uint8_t *held, size_t held_length)
{
    if (counts_cells < HPSDR_COUNTS_CELLS || held_length < HPSDR_HELD || counts->held > HPSDR_HELD)
        return false;
    for (size_t i = counts->held; i < HPSDR_HELD; i++)
        if (held[i] != 0)
            return false;
    /* With these three tested, the sum does not wrap. */
    return counts->total <= TOTAL_MOST && counts->frames <= TOTAL_MOST && counts->skipped <= TOTAL_MOST
        && HPSDR_FRAME * counts->frames + counts->skipped + counts->held == counts->total;
}

/* How many of the last bytes were sync, three or more being three. */
enum sync_state { NO_BYTE, ONE_BYTE, TWO_BYTES, THREE_BYTES };

static inline enum sync_state sync_step(enum sync_state state, uint8_t byte)
{
    if (byte != SYNC)
        return NO_BYTE;
    switch (state) {
    case NO_BYTE:
        return ONE_BYTE;
    case ONE_BYTE:
        return TWO_BYTES;
    default:
        return THREE_BYTES;
    }
}

uint32_t machine_stream_feed(struct hpsdr_counts *counts, size_t counts_cells, uint8_t *held, size_t held_length,
                             const uint8_t *piece, size_t piece_length, uint8_t *output, size_t output_length)
{
    if (!sound(counts, counts_cells, held, held_length))
        return HPSDR_BAD_STATE;
    if (piece_length > HPSDR_PIECE_MOST)
        return HPSDR_LENGTH;
    if (output_length < HPSDR_OUTPUT_LEAST)
        return HPSDR_SHORT_BUFFER;
    if (piece_length > TOTAL_MOST - counts->total)
        return HPSDR_STREAM_FULL;
    uint8_t window[HPSDR_HELD + HPSDR_PIECE_MOST];
    size_t place = 0, end = counts->held;
    uint32_t frames = 0;
    enum sync_state last = NO_BYTE;
    memcpy(window, held, end);
    for (size_t i = end < 3 ? 0 : end - 3; i < end; i++)
        last = sync_step(last, window[i]);
    for (size_t i = 0; i < piece_length; i++) {
        uint8_t byte = piece[i];
        window[end++] = byte;
        last = sync_step(last, byte);
        if (end - place < WINDOW)
            continue;
        const uint8_t *first = window + place;
        if (last == THREE_BYTES && begins_with_sync(first)) {
            memcpy(output + HPSDR_FRAME * frames++, first, HPSDR_FRAME);
            place += HPSDR_FRAME;
        } else {
            counts->skipped++;
            place++;
        }
    }
    memcpy(held, window + place, end - place);
    memset(held + (end - place), 0, HPSDR_HELD - (end - place));
    counts->held = end - place;
    counts->frames += frames;
    counts->total += piece_length;
    return frames << 8;
}

/* ---- the plain reader ---- */

uint64_t machine_plain_read(const uint8_t *input, size_t input_length, uint8_t *output, size_t output_length)
{
    if (input_length > HPSDR_INPUT_MOST)
        return HPSDR_LENGTH;
    if (output_length < input_length)
        return HPSDR_SHORT_BUFFER;
    size_t place = 0;
    uint64_t frames = 0, skipped = 0;
    enum sync_state last = NO_BYTE;
    for (size_t end = 1; end <= input_length; end++) {
        last = sync_step(last, input[end - 1]);
        if (end - place < WINDOW)
            continue;
        if (last == THREE_BYTES && begins_with_sync(input + place)) {
            memcpy(output + HPSDR_FRAME * frames++, input + place, HPSDR_FRAME);
            place += HPSDR_FRAME;
        } else {
            skipped++;
            place++;
        }
    }
    return frames << 8 | skipped << 32 | (uint64_t)(input_length - place) << 48;
}
