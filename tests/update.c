// The update of a lent status record, called from C: the record's layout is declared here again, and accepted and
// refused frames are given to the proved function. It prints a line for each case that fails, and at its end
// how many passed; its exit status is 0 if all did.
//
// tests/update.sh builds and runs it. The archive is for x86-64, and so are the types below: no header is
// included, so that a compiler for another machine can make it too.
typedef _Bool bool;
enum { false, true };
typedef unsigned char uint8_t;
typedef unsigned short uint16_t;
typedef short int16_t;
typedef int int32_t;
typedef unsigned int uint32_t;
typedef unsigned long size_t;
#define offsetof(type, member) __builtin_offsetof(type, member)

int printf(const char *format, ...);
int memcmp(const void *a, const void *b, size_t n);
void *memset(void *p, int c, size_t n);
void *memcpy(void *to, const void *from, size_t n);

struct overflow { bool adc1, adc2, adc3, adc4; };
struct inputs { bool io1, io2, io3, io4, pll, toggle; uint8_t mercury, penelope, main; };
struct forward { uint16_t ain5, ain1; };
struct reverse { uint16_t ain2, ain3; };
struct supply { uint16_t ain4, ain6; };
struct versions { uint8_t board1, board2, board3, board4; };

struct status {
    bool dot, dash, ptt;
    struct overflow overflow;
    struct inputs inputs;
    struct forward forward;
    struct reverse reverse;
    struct supply supply;
    struct versions versions;
};

// A slice is its pointer and its count. What comes back is the answer in bits 7 to 0, and the place in bits 31 to 16.
uint32_t radio_update(const uint8_t *frame, size_t frame_len, size_t receivers, int32_t *iq, size_t iq_len,
                      int16_t *mic, size_t mic_len, struct status *status);

enum { ROOM = 300 };

static uint8_t frame[513];
static int32_t iq[ROOM], iq_before[ROOM];
static int16_t mic[ROOM], mic_before[ROOM];
static struct status status, before;
static int passed, failed;

static void check(const char *what, bool holds)
{
    if (holds)
        passed++;
    else {
        failed++;
        printf("failed: %s\n", what);
    }
}

// A frame of zeros that carries these five bytes; slices and a record that hold nothing that a frame gives.
static void fresh(uint8_t c0, uint8_t c1, uint8_t c2, uint8_t c3, uint8_t c4)
{
    memset(frame, 0, sizeof frame);
    memset(frame, 0x7f, 3);
    frame[3] = c0;
    frame[4] = c1;
    frame[5] = c2;
    frame[6] = c3;
    frame[7] = c4;
    for (size_t k = 0; k < ROOM; k++) {
        iq[k] = 1000000 + (int32_t)k;
        mic[k] = (int16_t)(1000 + k);
    }
    memset(&status, 0, sizeof status);
    status.ptt = true;
    status.overflow.adc3 = true;
    status.inputs.main = 9;
    status.reverse.ain3 = 333;
    status.versions.board2 = 22;
    memcpy(iq_before, iq, sizeof iq);
    memcpy(mic_before, mic, sizeof mic);
    before = status;
}

static bool same_slices(size_t iq_from, size_t mic_from)
{
    return memcmp(iq + iq_from, iq_before + iq_from, (ROOM - iq_from) * sizeof iq[0]) == 0
        && memcmp(mic + mic_from, mic_before + mic_from, (ROOM - mic_from) * sizeof mic[0]) == 0;
}

static bool same_record(void)
{
    return memcmp(&status, &before, sizeof status) == 0;
}

// Refused: the number and the place, and the record and both slices as they were.
static void refused_at(const char *what, uint32_t number, size_t place, size_t frame_len, size_t receivers, size_t iq_len, size_t mic_len)
{
    uint32_t got = radio_update(frame, frame_len, receivers, iq, iq_len, mic, mic_len, &status);
    check(what, got == (number | (uint32_t)place << 16) && same_record() && same_slices(0, 0));
}

// A refusal that has no place: its number alone.
static void refused(const char *what, uint32_t number, size_t frame_len, size_t receivers, size_t iq_len, size_t mic_len)
{
    refused_at(what, number, 0, frame_len, receivers, iq_len, mic_len);
}

// The layouts of one to eight receivers: slots, and padding.
static const size_t slots[9] = { 0, 63, 36, 25, 19, 15, 13, 11, 10 };
static const size_t padding[9] = { 0, 0, 0, 4, 10, 24, 10, 20, 4 };

// The words that carry levels: where the level in C1 and C2 stands in the record and the number of its cause, and those
// of the level in C3 and C4.
static const struct level_word {
    size_t first, second;
    size_t first_cause, second_cause;
} level_words[4] = {
    { 0, 0, 0, 0 },
    { offsetof(struct status, forward.ain5), offsetof(struct status, forward.ain1), 5, 6 },
    { offsetof(struct status, reverse.ain2), offsetof(struct status, reverse.ain3), 7, 8 },
    { offsetof(struct status, supply.ain4), offsetof(struct status, supply.ain6), 9, 10 },
};

static void put_level(struct status *record, size_t at, uint16_t level)
{
    memcpy((uint8_t *)record + at, &level, sizeof level);
}

// A word with two levels, all keys on, into a record of which no key is: both are kept, or the first above 4,095 is
// named.
static void levels(size_t word, uint32_t first, uint32_t second)
{
    const struct level_word *of = &level_words[word];
    fresh((uint8_t)(word << 3 | 7), (uint8_t)(first >> 8), (uint8_t)first, (uint8_t)(second >> 8), (uint8_t)second);
    status.ptt = before.ptt = false;
    if (first > 4095) {
        refused_at("a level above 4,095 in C1 and C2 is RESERVED", 8, of->first_cause, 512, 1, ROOM, ROOM);
    } else if (second > 4095) {
        refused_at("a level above 4,095 in C3 and C4 is RESERVED", 8, of->second_cause, 512, 1, ROOM, ROOM);
    } else {
        before.dot = before.dash = before.ptt = true;
        put_level(&before, of->first, (uint16_t)first);
        put_level(&before, of->second, (uint16_t)second);
        check("levels are accepted", radio_update(frame, 512, 1, iq, ROOM, mic, ROOM, &status) == 0);
        check("levels are kept, and no other field is changed", same_record());
    }
}

// A record with every level at 65,535: a word without levels leaves them, one with levels replaces its own, and no word
// is refused for what the record has. The word's bytes are 0, and ff in an unlisted one.
static void high_record(size_t word)
{
    const uint8_t byte = word > 4 ? 0xff : 0;
    fresh((uint8_t)(word << 3), byte, byte, byte, byte);
    memset(&status, 0, sizeof status);
    for (size_t of = 1; of <= 3; of++) {
        put_level(&status, level_words[of].first, 65535);
        put_level(&status, level_words[of].second, 65535);
    }
    before = status;
    if (word == 0)
        before.inputs.io1 = before.inputs.io2 = before.inputs.io3 = before.inputs.io4 = true;
    if (1 <= word && word <= 3) {
        put_level(&before, level_words[word].first, 0);
        put_level(&before, level_words[word].second, 0);
    }
    check("a record with high levels is accepted", radio_update(frame, 512, 1, iq, ROOM, mic, ROOM, &status) == 0);
    check("a record with high levels keeps those that the word does not carry", same_record());
}

int main(void)
{
    check("the record takes 32 bytes", sizeof(struct status) == 32 && offsetof(struct status, versions) == 28);

    // C0 0C is word 1 with DOT on; C1C2 01 F4 is AIN5 at 500
    fresh(0x0c, 0x01, 0xf4, 0x00, 0x07);
    before.dot = true;
    before.ptt = false;
    before.forward.ain5 = 500;
    before.forward.ain1 = 7;
    check("word 1 is accepted", radio_update(frame, 512, 1, iq, ROOM, mic, ROOM, &status) == 0);
    check("word 1 sets its fields and no others", same_record());
    check("63 slots of zeros, and the rest kept", iq[0] == 0 && iq[125] == 0 && mic[0] == 0 && mic[62] == 0 && same_slices(126, 63));

    // word 0: an input is active when its bit is 0
    fresh(0x03, 0x23, 0x11, 0x12, 0x13);
    before.dash = true;
    before.overflow.adc1 = true;
    before.inputs = (struct inputs){ false, true, true, true, true, false, 0x11, 0x12, 0x13 };
    check("word 0 is accepted", radio_update(frame, 512, 1, iq, ROOM, mic, ROOM, &status) == 0);
    check("word 0 sets its fields and no others", same_record());

    // an unlisted word sets DOT, DASH and PTT alone
    fresh(0xfc, 0xff, 0xff, 0xff, 0xff);
    before.dot = true;
    before.ptt = false;
    check("an unlisted word is accepted", radio_update(frame, 512, 1, iq, ROOM, mic, ROOM, &status) == 0);
    check("an unlisted word sets three flags and no other field", same_record());

    // a level is twelve bits: every high byte of each level, beside a good one and with the other, and every bit alone
    for (size_t word = 1; word <= 3; word++) {
        for (uint32_t high = 0; high < 256; high++) {
            levels(word, high << 8, 4095);
            levels(word, 4095, high << 8 | 255);
            levels(word, high << 8, high << 8);
        }
        for (uint32_t bit = 1; bit < 65536; bit *= 2) {
            levels(word, bit, 0);
            levels(word, 0, bit);
        }
    }
    for (size_t word = 0; word < 32; word++)
        high_record(word);

    // 9C 40 is 40,000; in word 1 it is AIN5, whose cause is 5, and in word 4 it is no level
    fresh(0x0c, 0x9c, 0x40, 0x00, 0x07);
    refused_at("AIN5 at 40,000 is RESERVED", 8, 5, 512, 1, ROOM, ROOM);
    fresh(0x20, 0x9c, 0x40, 0x9c, 0x40);
    before.ptt = false;
    before.overflow = (struct overflow){ false, false, false, false };
    before.versions = (struct versions){ 78, 32, 78, 32 };
    check("word 4 has no level to refuse", radio_update(frame, 512, 1, iq, ROOM, mic, ROOM, &status) == 0);
    check("word 4 sets its fields and no others", same_record());

    // the last slot of each layout: its last receiver's I and Q, and its microphone value
    for (size_t n = 1; n <= 8; n++) {
        fresh(0x0c, 0, 0, 0, 0);
        size_t at = 8 + (slots[n] - 1) * (6 * n + 2) + 6 * (n - 1);
        const uint8_t bytes[8] = { 0x7f, 0xff, 0xff, 0x80, 0x00, 0x00, 0x80, 0x00 };
        memcpy(frame + at, bytes, 8);
        size_t values = 2 * n * slots[n];
        check("a layout is accepted in slices just long enough", radio_update(frame, 512, n, iq, values, mic, slots[n], &status) == 0);
        check("the last samples of a layout", iq[values - 2] == 8388607 && iq[values - 1] == -8388608 && mic[slots[n] - 1] == -32768);
        check("a layout leaves the rest", same_slices(values, slots[n]));
        fresh(0x0c, 0, 0, 0, 0);
        refused("one I/Q value too few is SHORT_BUFFER", 4, 512, n, values - 1, slots[n]);
        refused("one microphone value too few is SHORT_BUFFER", 4, 512, n, values, slots[n] - 1);
        // each padding byte alone, and with the last one: the first of them is named
        for (size_t at = 512 - padding[n]; at < 512; at++) {
            frame[at] = 0x80;
            refused_at("a padding byte is PADDING", 7, at, 512, n, ROOM, ROOM);
            frame[511] = 0x80;
            refused_at("of two padding bytes the first is named", 7, at, 512, n, ROOM, ROOM);
            frame[at] = frame[511] = 0;
        }
    }

    fresh(0x0c, 0x01, 0xf4, 0x00, 0x07);
    refused("no receiver is BAD_COUNT", 2, 512, 0, ROOM, ROOM);
    refused("nine receivers are BAD_COUNT", 2, 512, 9, ROOM, ROOM);
    refused("511 bytes are LENGTH", 3, 511, 1, ROOM, ROOM);
    refused("513 bytes are LENGTH", 3, 513, 1, ROOM, ROOM);
    refused("BAD_COUNT comes before LENGTH", 2, 511, 9, ROOM, ROOM);
    refused("LENGTH comes before SHORT_BUFFER", 3, 511, 1, 0, 0);
    frame[2] = 0x7e;
    refused("SHORT_BUFFER comes before NO_SYNC", 4, 512, 1, 0, 0);
    refused_at("two bytes of sync are NO_SYNC", 6, 2, 512, 1, ROOM, ROOM);
    frame[1] = 0x7e;
    refused_at("one byte of sync is NO_SYNC, and the first of two is named", 6, 1, 512, 1, ROOM, ROOM);
    frame[0] = 0x7e;
    refused_at("no byte of sync is NO_SYNC, and the first of three is named", 6, 0, 512, 1, ROOM, ROOM);
    frame[1] = frame[2] = 0x7f;
    refused_at("the first byte alone is NO_SYNC", 6, 0, 512, 1, ROOM, ROOM);
    frame[0] = 0x7f;
    frame[1] = 0;
    frame[511] = 1;
    frame[4] = 0x10;
    refused_at("NO_SYNC comes before PADDING", 6, 1, 512, 3, ROOM, ROOM);
    frame[1] = 0x7f;
    refused_at("PADDING comes before RESERVED", 7, 511, 512, 3, ROOM, ROOM);
    frame[511] = 0;
    refused_at("RESERVED comes last", 8, 5, 512, 3, ROOM, ROOM);

    printf("update from C: %d passed, %d failed\n", passed, failed);
    return failed != 0;
}
