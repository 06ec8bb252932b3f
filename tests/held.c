// What a record holds, from C: hevrukan_buffer and hevrukan_waiting at their edges; the version of header and library; the macros of
// numbered registers. tests/interface builds and runs it, with the text of the file VERSION as its word.
#include <hevrukan.h>

#include <string.h>

#include "check.h"

enum { BYTES = HEVRUKAN_ROOM, GUARDED = BYTES + 8, CANARY = 0xC5, A = 3, B = 7 };
enum { SAID_UNKNOWN = HEVRUKAN_UNKNOWN << 8, SAID_WRONG_SIZE = HEVRUKAN_WRONG_SIZE << 8, SAID_NO_FRAME = HEVRUKAN_NO_FRAME << 8 };
enum { NO_ROOM = (HEVRUKAN_REFUSED << 8) + 12, WAITS_FOR_A = (HEVRUKAN_WAITING << 8) + A, WAITS_FOR_B = (HEVRUKAN_WAITING << 8) + B };

typedef uint32_t shows(const struct hevrukan *c, size_t size, uint32_t n, uint8_t *bytes, size_t room);

static void must(uint32_t answer) {
    CHECK(answer == HEVRUKAN_OK);
}

// The answer, with the room between guard bytes; the record must stay as it is, and so must every byte that isn't to be written.
static uint32_t shown(shows *function, const struct hevrukan *c, size_t size, uint32_t n, size_t room, const uint8_t *want) {
    uint8_t given[GUARDED + 8], expected[GUARDED + 8];
    struct hevrukan before = *c;
    memset(given, CANARY, sizeof given);
    memset(expected, CANARY, sizeof expected);
    if (want) memcpy(expected + 8, want, BYTES);
    uint32_t answer = function(c, size, n, given + 8, room);
    CHECK(memcmp(given, expected, sizeof given) == 0);
    CHECK(memcmp(c, &before, sizeof before) == 0);
    return answer;
}

// The byte k that buffer n is given: no two in one buffer or at one place are alike.
static uint8_t byte_of(uint32_t n, uint32_t k) {
    return k == 1 ? (uint8_t)n : (uint8_t)(16 * k + n);
}

// In initialization, every buffer with bytes of its own, written through the receive window.
static struct hevrukan filled(void) {
    struct hevrukan c;
    memset(&c, CANARY, sizeof c);
    must(hevrukan_reset(&c, sizeof c));
    for (uint32_t n = 0; n < 16; n++) {
        must(hevrukan_write(&c, BFBUFCTL(n), BF_LOCK));
        for (uint32_t k = 0; k < BYTES; k++) must(hevrukan_write(&c, BFRIDENT + k, byte_of(n, k)));
        must(hevrukan_write(&c, BFBUFCTL(n), 0));
    }
    return c;
}

static void test_buffers(void) {
    struct hevrukan c = filled();
    for (uint32_t n = 0; n < 16; n++) {
        uint8_t want[BYTES];
        for (uint32_t k = 0; k < BYTES; k++) want[k] = byte_of(n, k);
        for (size_t room = 0; room < BYTES; room++) CHECK(shown(hevrukan_buffer, &c, sizeof c, n, room, NULL) == NO_ROOM);
        for (size_t room = BYTES; room <= GUARDED; room++) CHECK(shown(hevrukan_buffer, &c, sizeof c, n, room, want) == HEVRUKAN_OK);
    }
    must(hevrukan_reset(&c, sizeof c));
    static const uint8_t zeros[BYTES] = {0};
    for (uint32_t n = 0; n < 16; n++) CHECK(shown(hevrukan_buffer, &c, sizeof c, n, BYTES, zeros) == HEVRUKAN_OK);
}

// In this order: the size, the number, the room.
static void test_refused(void) {
    static const size_t sizes[] = {0, 1, 266, 268, HEVRUKAN_SIZE - 1, HEVRUKAN_SIZE + 1, (size_t)-1};
    static const uint32_t large[] = {16, 17, 255, 256, 256 + 3, 0x10000, 0x80000000u, 0xFFFFFFFFu};
    struct hevrukan c = filled();
    for (size_t k = 0; k < sizeof sizes / sizeof sizes[0]; k++)
        for (uint32_t n = 0; n <= 16; n++) {
            CHECK(shown(hevrukan_buffer, &c, sizes[k], n, BYTES, NULL) == SAID_WRONG_SIZE);
            CHECK(shown(hevrukan_buffer, &c, sizes[k], n, 0, NULL) == SAID_WRONG_SIZE);
            CHECK(shown(hevrukan_waiting, &c, sizes[k], n, BYTES, NULL) == SAID_WRONG_SIZE);
            CHECK(shown(hevrukan_waiting, &c, sizes[k], n, 0, NULL) == SAID_WRONG_SIZE);
        }
    for (size_t k = 0; k < sizeof large / sizeof large[0]; k++) {
        CHECK(shown(hevrukan_buffer, &c, sizeof c, large[k], BYTES, NULL) == SAID_UNKNOWN);
        CHECK(shown(hevrukan_buffer, &c, sizeof c, large[k], 0, NULL) == SAID_UNKNOWN);
        CHECK(shown(hevrukan_waiting, &c, sizeof c, large[k], BYTES, NULL) == SAID_UNKNOWN);
    }
    for (uint32_t k = 2; k < 16; k++) CHECK(shown(hevrukan_waiting, &c, sizeof c, k, 0, NULL) == SAID_UNKNOWN);
}

// Synchronized; buffer 0 is the FIFO, A receives $21 and B $22, both locked.
static struct hevrukan locked(void) {
    struct hevrukan c = filled();
    must(hevrukan_write(&c, BFFSIZR, 1));
    must(hevrukan_write(&c, BFBUFCTL(A), BF_LOCK));
    must(hevrukan_write(&c, BFRIDENT, 0x21));
    must(hevrukan_write(&c, BFBUFCTL(A), 0));
    must(hevrukan_write(&c, BFBUFCTL(B), BF_LOCK));
    must(hevrukan_write(&c, BFRIDENT, 0x22));
    must(hevrukan_write(&c, BFPCTLBF, BF_BFEN));
    must(hevrukan_write(&c, BFMCR, 0));
    must(hevrukan_sync(&c, HEVRUKAN_NORMAL));
    must(hevrukan_write(&c, BFBUFCTL(A), BF_LOCK));
    return c;
}

static uint32_t comes(struct hevrukan *c, uint8_t identifier, uint8_t data) {
    const uint8_t frame[] = {identifier, 0x11, data}; // of its length byte, the low four bits count
    return hevrukan_frame(c, HEVRUKAN_GOOD, frame, sizeof frame);
}

// The k-th frame that waits is this one, for this buffer.
static void waits(const struct hevrukan *c, uint32_t k, uint32_t answer, uint8_t identifier, uint8_t data) {
    const uint8_t want[BYTES] = {identifier, 1, data};
    for (size_t room = 0; room < BYTES; room++) CHECK(shown(hevrukan_waiting, c, sizeof *c, k, room, NULL) == NO_ROOM);
    for (size_t room = BYTES; room <= GUARDED; room++) CHECK(shown(hevrukan_waiting, c, sizeof *c, k, room, want) == answer);
}

static void waits_none(const struct hevrukan *c, uint32_t k) {
    for (size_t room = 0; room <= GUARDED; room++) CHECK(shown(hevrukan_waiting, c, sizeof *c, k, room, NULL) == SAID_NO_FRAME);
}

static void test_waiting(void) {
    struct hevrukan c = locked();
    waits_none(&c, 0);
    waits_none(&c, 1);
    CHECK(hevrukan_word(comes(&c, 0x21, 0xA1)) == HEVRUKAN_WAITING);
    waits(&c, 0, WAITS_FOR_A, 0x21, 0xA1);
    waits_none(&c, 1);
    CHECK(hevrukan_word(comes(&c, 0x22, 0xB1)) == HEVRUKAN_WAITING);
    waits(&c, 0, WAITS_FOR_A, 0x21, 0xA1);
    waits(&c, 1, WAITS_FOR_B, 0x22, 0xB1);
    CHECK(shown(hevrukan_waiting, &c, sizeof c, 2, BYTES, NULL) == SAID_UNKNOWN);
    CHECK(hevrukan_word(comes(&c, 0x21, 0xA2)) == HEVRUKAN_HELDOFF);
    waits(&c, 1, WAITS_FOR_B, 0x22, 0xB1);
    // the older is stored; the newer, in the second place, is then the oldest
    must(hevrukan_write(&c, BFBUFCTL(A), 0));
    const uint8_t stored[BYTES] = {0x21, 1, 0xA1};
    CHECK(shown(hevrukan_buffer, &c, sizeof c, A, BYTES, stored) == HEVRUKAN_OK);
    waits(&c, 0, WAITS_FOR_B, 0x22, 0xB1);
    waits_none(&c, 1);
    // the next one takes the first place, and is the newer
    CHECK(hevrukan_word(comes(&c, 0x22, 0xB2)) == HEVRUKAN_WAITING);
    waits(&c, 0, WAITS_FOR_B, 0x22, 0xB1);
    waits(&c, 1, WAITS_FOR_B, 0x22, 0xB2);
    must(hevrukan_write(&c, BFBUFCTL(B), 0));
    waits_none(&c, 0);
    waits_none(&c, 1);
    // initialization empties the places
    must(hevrukan_write(&c, BFBUFCTL(A), BF_LOCK));
    CHECK(hevrukan_word(comes(&c, 0x21, 0xA3)) == HEVRUKAN_WAITING);
    must(hevrukan_write(&c, BFMCR, BF_INITRQ));
    waits_none(&c, 0);
}

// Neither lock nor sleep hides a buffer, and a FIFO buffer whose entry is removed has its bytes.
static void test_no_register_call(void) {
    struct hevrukan c = locked();
    const uint8_t entry[BYTES] = {0x60, 1, 0xE1};
    CHECK(hevrukan_word(comes(&c, 0x60, 0xE1)) == HEVRUKAN_QUEUED);
    CHECK(shown(hevrukan_buffer, &c, sizeof c, 0, BYTES, entry) == HEVRUKAN_OK);
    must(hevrukan_write(&c, BFBUFCTL(0), BF_LOCK));
    must(hevrukan_write(&c, BFBUFCTL(0), 0));
    CHECK(shown(hevrukan_buffer, &c, sizeof c, 0, BYTES, entry) == HEVRUKAN_OK);
    must(hevrukan_write(&c, BFMCR, BF_SLPRQ));
    CHECK(hevrukan_word(hevrukan_read(&c, BFBUFCTL(0))) == HEVRUKAN_REFUSED);
    CHECK(shown(hevrukan_buffer, &c, sizeof c, 0, BYTES, entry) == HEVRUKAN_OK);
    CHECK(hevrukan_word(hevrukan_read(&c, BFBUFCTL(0))) == HEVRUKAN_REFUSED); // still asleep
    CHECK(strcmp(hevrukan_word_text(HEVRUKAN_NO_FRAME), "no such word") == 0); // no step is answered so
    CHECK(strcmp(hevrukan_word_text(HEVRUKAN_NO_FRAME + 1), "no such word") == 0);
}

static void test_version(const char *file) {
    char text[32];
    CHECK(hevrukan_version() == HEVRUKAN_VERSION && hevrukan_matches() == 1);
    sprintf(text, "%d.%d.%d", HEVRUKAN_VERSION / 10000, HEVRUKAN_VERSION / 100 % 100, HEVRUKAN_VERSION % 100);
    CHECK(strcmp(text, HEVRUKAN_VERSION_TEXT) == 0);
    CHECK(strcmp(file, HEVRUKAN_VERSION_TEXT) == 0);
}

static int place_of(int address) {
    switch (address) {
    case BFTDATA(11): return 1;
    case BFRDATA(0): return 2;
    case BFBUFCTL(15): return 3;
    default: return 0;
    }
}

// Constant expressions for a constant; a variable is not looked at, and evaluated once.
static void test_registers(void) {
    static const uint8_t table[BFFDATA(0) - BFFDATA(0) + 2] = {BFFDATA(11), BFBUFCTL(A)};
    enum { LAST = BFBUFCTL(15) };
    CHECK(table[0] == 0x4D && table[1] == 0x53 && LAST == 0x5F);
    CHECK(place_of(0x2D) == 1 && place_of(0x32) == 2 && place_of(0x5F) == 3 && place_of(0x30) == 0);
    int below = -1;
    uint32_t beyond = 14;
    uint8_t narrow = 5;
    for (int n = 0; n < 2; n++) CHECK(BFTDATA(n) == 0x22 + n);
    CHECK(BFBUFCTL(below) == 0x4F && BFTDATA(beyond) == BFRIDENT && BFRDATA(narrow) == 0x37);
    CHECK(BFBUFCTL(below++) == 0x4F && below == 0);
    CHECK(sizeof BFTDATA(narrow) == sizeof(int) && BFTDATA(below) - 0x23 < 0);
}

int main(int count, char **words) {
    if (count != 2) return 2;
    test_buffers();
    test_refused();
    test_waiting();
    test_no_register_call();
    test_version(words[1]);
    test_registers();
    return checked("tests/held.c");
}
