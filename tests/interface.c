// The edges of the C interface: sizes, kinds and numbers that document 01 doesn't name, odd frames and rooms, each refusal with
// its text, the buffers examined for a frame, frames that wait, and that nothing changes where nothing may. tests/interface builds
// and runs it.
#include <hevrukan.h>

#include <stdio.h>
#include <string.h>

static unsigned checks, failures;

#define CHECK(holds) check((holds) != 0, #holds, __LINE__)

static void check(int holds, const char *what, int line) {
    checks++;
    if (holds) return;
    failures++;
    fprintf(stderr, "tests/interface.c:%d: fails: %s\n", line, what);
}

// The fields of the library's record, in its order.
struct filter { uint8_t pattern, mask; };
struct locks { uint8_t holder, contender; };
struct mirror {
    struct { uint8_t init, master, alarm, slprq, wpulse, sswai, synced, last; } mode;
    struct { uint8_t fsiz, tcr1, tcr2, tcr3, rier, gier; struct filter accept, reject; uint8_t bfen; } config;
    struct { uint8_t risr, gisr, clearing; } events;
    struct { uint8_t oldest, next, count, locked; } fifo;
    struct locks receive, transmit;
    struct { uint8_t first, second, swapped; } places;
    struct { uint16_t cfg, iena, iflg, abtak, armed; } buffers;
    struct { uint8_t bytes[14]; } rows[16], held[2];
};

// LOOKED: buffers 2 and 3 are examined where 3 carries the identifier. ALL: the buffers from 2 up to 14.
enum { RECEIVE = 3, LOOKED = 2, ALL = 13, TRANSMIT = 15, ROOM = 20, CANARY = 0xC5 };
enum { SAID_UNKNOWN = HEVRUKAN_UNKNOWN << 8, SAID_WRONG_SIZE = HEVRUKAN_WRONG_SIZE << 8 };

static uint32_t refused(uint32_t number) {
    return ((uint32_t)HEVRUKAN_REFUSED << 8) + number;
}

static uint32_t said(uint32_t word, uint32_t detail) {
    return (word << 8) + detail;
}

// The answer of a frame that was looked up.
static uint32_t said_looked(uint32_t word, uint32_t detail, uint32_t looked) {
    return (looked << 16) + said(word, detail);
}

static void must(uint32_t answer) {
    CHECK(hevrukan_word(answer) == HEVRUKAN_OK);
}

static struct hevrukan fresh(void) {
    struct hevrukan c;
    memset(&c, CANARY, sizeof c);
    must(hevrukan_reset(&c, sizeof c));
    // the unused byte between the fields, behind the places
    ((uint8_t *)&c)[offsetof(struct mirror, buffers) - 1] = CANARY;
    return c;
}

// Synchronized; buffers 0 and 1 are the FIFO, 3 receives $21, 15 is to send $41 and armed.
static struct hevrukan running(void) {
    struct hevrukan c = fresh();
    must(hevrukan_write(&c, BFFSIZR, 2));
    must(hevrukan_write(&c, BFBUFCTL(RECEIVE), BF_LOCK));
    must(hevrukan_write(&c, BFRIDENT, 0x21));
    must(hevrukan_write(&c, BFBUFCTL(RECEIVE), BF_IENA));
    must(hevrukan_write(&c, BFBUFCTL(TRANSMIT), BF_CFG | BF_LOCK));
    must(hevrukan_write(&c, BFTIDENT, 0x41));
    must(hevrukan_write(&c, BFTLEN, 13));
    for (uint32_t n = 0; n < 12; n++) must(hevrukan_write(&c, BFTDATA(n), 0xA0 + n));
    must(hevrukan_write(&c, BFBUFCTL(TRANSMIT), BF_CFG));
    must(hevrukan_write(&c, BFPCTLBF, BF_BFEN));
    must(hevrukan_write(&c, BFMCR, 0));
    must(hevrukan_write(&c, BFBUFCTL(TRANSMIT), BF_IFLG));
    must(hevrukan_sync(&c, HEVRUKAN_NORMAL));
    return c;
}

static struct hevrukan asleep(void) {
    struct hevrukan c = running();
    must(hevrukan_write(&c, BFMCR, BF_SLPRQ));
    return c;
}

// A step that must not change a byte of record and room; its answer.
static uint32_t unchanged_step(struct hevrukan c, size_t size, uint32_t kind, uint32_t first, uint32_t second,
                               const uint8_t *frame, size_t frame_size, size_t room_size) {
    struct hevrukan before = c;
    uint8_t room[ROOM], untouched[ROOM];
    memset(room, CANARY, sizeof room);
    memset(untouched, CANARY, sizeof untouched);
    uint32_t answer = hevrukan_step(&c, size, kind, first, second, frame, frame_size, room, room_size);
    CHECK(memcmp(&c, &before, sizeof c) == 0);
    CHECK(memcmp(room, untouched, sizeof room) == 0);
    return answer;
}

static uint32_t unchanged(struct hevrukan c, uint32_t kind, uint32_t first, uint32_t second) {
    static const uint8_t frame[] = {0x21, 1, 0x55};
    return unchanged_step(c, sizeof c, kind, first, second, frame, sizeof frame, HEVRUKAN_ROOM);
}

static void test_size(void) {
    struct shifted { char before; struct hevrukan c; };
    struct aligned { char before; uint16_t number; };
    CHECK(hevrukan_size() == HEVRUKAN_SIZE);
    CHECK(sizeof(struct hevrukan) == HEVRUKAN_SIZE);
    CHECK(sizeof(struct mirror) == HEVRUKAN_SIZE);
    CHECK(offsetof(struct shifted, c) == offsetof(struct aligned, number));
}

// The mirror's fields are where the library has them.
static void test_mirror(void) {
    struct hevrukan c = running();
    struct mirror m;
    static const uint8_t frame[] = {0x21, 2, 0x55, 0xAA};
    CHECK(hevrukan_frame(&c, HEVRUKAN_GOOD, frame, sizeof frame) == said_looked(HEVRUKAN_STORED, RECEIVE, LOOKED));
    memcpy(&m, &c, sizeof m);
    CHECK(m.mode.init == 0 && m.mode.synced == 1 && m.mode.last == 0x21);
    CHECK(m.config.fsiz == 2 && m.config.accept.mask == 0xFF && m.config.reject.mask == 0xFF && m.config.bfen == 1);
    CHECK(m.events.risr == (BF_SYNNIF | BF_XSYNIF) && m.fifo.count == 0);
    CHECK(m.receive.holder == 16 && m.transmit.contender == 16 && m.places.first == 16 && m.places.second == 16);
    CHECK(m.buffers.cfg == 1u << TRANSMIT && m.buffers.iflg == 1u << RECEIVE && m.buffers.armed == 1u << TRANSMIT);
    CHECK(memcmp(m.rows[RECEIVE].bytes, frame, sizeof frame) == 0 && m.rows[TRANSMIT].bytes[13] == 0xAB);
    must(hevrukan_write(&c, BFBUFCTL(RECEIVE), BF_LOCK));
    CHECK(hevrukan_frame(&c, HEVRUKAN_GOOD, frame, sizeof frame) == said_looked(HEVRUKAN_WAITING, RECEIVE, LOOKED));
    must(hevrukan_write(&c, BFMCR, BF_SLPRQ));
    memcpy(&m, &c, sizeof m);
    CHECK(m.mode.slprq == 1 && m.receive.holder == RECEIVE);
    CHECK(m.places.first == RECEIVE && m.places.second == 16 && m.places.swapped == 1);
    CHECK(memcmp(m.held[0].bytes, frame, sizeof frame) == 0);
}

static void test_reset(void) {
    struct hevrukan c = fresh(), d = running();
    for (uint32_t address = 0; address <= 0x5F; address++) {
        uint32_t value = address == BFMCR ? 0x81 : address == BFRIVEC || address == BFTIVEC ? 0x10
                       : address == BFFIDMR || address == BFFIDRMR ? 0xFF : 0;
        CHECK(hevrukan_read(&c, address) == said(HEVRUKAN_READ, value));
    }
    CHECK(hevrukan_lines(&c, sizeof c) == 0);
    must(hevrukan_plain_step(&d, HEVRUKAN_KIND_RESET, 0, 0));
    for (uint32_t address = 0; address <= 0x5F; address++) CHECK(hevrukan_read(&d, address) == hevrukan_read(&c, address));
}

static void test_wrong_size(void) {
    static const size_t sizes[] = {0, 1, HEVRUKAN_SIZE - 1, HEVRUKAN_SIZE + 1, HEVRUKAN_SIZE + 256, (size_t)-1};
    static const uint8_t frame[] = {0x21, 0};
    for (size_t k = 0; k < sizeof sizes / sizeof sizes[0]; k++) {
        struct hevrukan c = running(), before = c;
        CHECK(hevrukan_reset(&c, sizes[k]) == SAID_WRONG_SIZE);
        CHECK(hevrukan_lines(&c, sizes[k]) == SAID_WRONG_SIZE);
        CHECK(memcmp(&c, &before, sizeof c) == 0);
        // kind 10: the size is looked at first
        for (uint32_t kind = 0; kind <= 10; kind++)
            CHECK(unchanged_step(c, sizes[k], kind, 0, 0, frame, sizeof frame, HEVRUKAN_ROOM) == SAID_WRONG_SIZE);
        CHECK(unchanged_step(c, sizes[k], HEVRUKAN_KIND_SLOT, 0x41, 0, frame, 0, HEVRUKAN_ROOM) == SAID_WRONG_SIZE);
    }
}

// What a program gets that was built with a header before this one: its record has 266 or 268 bytes, and the hevrukan_word of the
// first is answer >> 8. It sees wrong size, whatever it calls, and not a byte of record and room changes.
static void test_header_before(size_t size) {
    enum { LARGEST = 268, BEHIND = 8 };
    struct { uint16_t record[LARGEST / 2], behind[BEHIND]; } given, before;
    struct hevrukan *c = (struct hevrukan *)&given;
    static const uint8_t frame[] = {0x21, 1, 0x55};
    uint8_t room[ROOM], untouched[ROOM];
    memset(room, CANARY, sizeof room);
    memset(untouched, CANARY, sizeof untouched);
    memset(&given, CANARY, sizeof given);
    CHECK(hevrukan_size() != size);
    for (int of_session = 0; of_session <= 1; of_session++) {
        // at first bytes that no reset wrote, then those of a session
        struct hevrukan session = running();
        if (of_session) memcpy(given.record, &session, size);
        before = given;
        CHECK(hevrukan_reset(c, size) >> 8 == HEVRUKAN_WRONG_SIZE);
        CHECK(hevrukan_lines(c, size) >> 8 == HEVRUKAN_WRONG_SIZE);
        for (uint32_t kind = 0; kind <= 10; kind++)
            for (uint32_t first = 0; first <= 0x41; first++)
                CHECK(hevrukan_step(c, size, kind, first, 0, frame, sizeof frame, room, sizeof room) >> 8 == HEVRUKAN_WRONG_SIZE);
        CHECK(memcmp(&given, &before, sizeof given) == 0);
        CHECK(memcmp(room, untouched, sizeof room) == 0);
    }
}

static void test_unknown(void) {
    static const uint32_t kinds[] = {9, 10, 64, 255, 256, 256 + HEVRUKAN_KIND_WRITE, 0x80000000u, 0xFFFFFFFFu};
    static const uint32_t large[] = {256, 256 + 0x41, 0x10000, 0x80000000u, 0xFFFFFFFFu};
    static const uint8_t frame[] = {0x21, 0};
    struct hevrukan c = running();
    for (size_t k = 0; k < sizeof kinds / sizeof kinds[0]; k++) CHECK(unchanged(c, kinds[k], 0, 0) == SAID_UNKNOWN);
    for (size_t k = 0; k < sizeof large / sizeof large[0]; k++) {
        CHECK(unchanged(c, HEVRUKAN_KIND_WRITE, BFMCR, large[k]) == SAID_UNKNOWN);
        CHECK(unchanged(c, HEVRUKAN_KIND_SYNC, large[k], 0) == SAID_UNKNOWN);
        CHECK(unchanged(c, HEVRUKAN_KIND_SLOT, large[k], 0) == SAID_UNKNOWN);
        CHECK(unchanged(c, HEVRUKAN_KIND_FRAME, large[k], 0) == SAID_UNKNOWN);
        CHECK(unchanged(c, HEVRUKAN_KIND_FAULT, large[k], 0) == SAID_UNKNOWN);
    }
    CHECK(unchanged(c, HEVRUKAN_KIND_SYNC, 2, 0) == SAID_UNKNOWN);
    CHECK(unchanged(c, HEVRUKAN_KIND_FRAME, 2, 0) == SAID_UNKNOWN);
    CHECK(unchanged(c, HEVRUKAN_KIND_FAULT, 4, 0) == SAID_UNKNOWN);
    // the numbers come before document 01's refusals
    CHECK(unchanged(c, HEVRUKAN_KIND_WRITE, 0x60, 256) == SAID_UNKNOWN);
    CHECK(unchanged_step(c, sizeof c, HEVRUKAN_KIND_SLOT, 256, 0, frame, 0, 13) == SAID_UNKNOWN);
    CHECK(unchanged_step(c, sizeof c, HEVRUKAN_KIND_FRAME, 2, 0, frame, 1, 0) == SAID_UNKNOWN);
}

// Numbers that a kind doesn't use are not looked at.
static void test_unused(void) {
    struct hevrukan c = running();
    const uint32_t any = 0xFFFFFFFFu;
    CHECK(hevrukan_plain_step(&c, HEVRUKAN_KIND_READ, BFFSIZR, any) == said(HEVRUKAN_READ, 2));
    CHECK(hevrukan_plain_step(&c, HEVRUKAN_KIND_SYNC, HEVRUKAN_ALARM, any) == HEVRUKAN_OK);
    CHECK(hevrukan_plain_step(&c, HEVRUKAN_KIND_FAULT, HEVRUKAN_MISMATCH, any) == HEVRUKAN_OK);
    CHECK(hevrukan_plain_step(&c, HEVRUKAN_KIND_SYNC_DUE, any, any) == said(HEVRUKAN_IGNORED, 0));
    CHECK(hevrukan_plain_step(&c, HEVRUKAN_KIND_TIMEOUT, any, any) == HEVRUKAN_OK);
    CHECK(hevrukan_plain_step(&c, HEVRUKAN_KIND_RESET, any, any) == HEVRUKAN_OK);
    CHECK(hevrukan_read(&c, BFMCR) == said(HEVRUKAN_READ, 0x81));
}

static void test_address(void) {
    static const uint32_t addresses[] = {0x60, 255, 256, 256 + BFMCR, 256 + BFBUFCTL(3), 0x10000, 0xFFFFFFFFu};
    for (size_t k = 0; k < sizeof addresses / sizeof addresses[0]; k++) {
        CHECK(unchanged(running(), HEVRUKAN_KIND_READ, addresses[k], 0) == refused(1));
        CHECK(unchanged(running(), HEVRUKAN_KIND_WRITE, addresses[k], BF_LOCK) == refused(1));
        CHECK(unchanged(asleep(), HEVRUKAN_KIND_READ, addresses[k], 0) == refused(1));
    }
}

static void test_frames(void) {
    static const size_t wrong[] = {0, 1, 2, 13, 15, 16, 30, 31, 40, 256 + 14};
    uint8_t bytes[300];
    memset(bytes, 0x5A, sizeof bytes);
    bytes[0] = 0x21;
    bytes[1] = 0x1C; // low four bits 12: fourteen bytes
    for (size_t k = 0; k < sizeof wrong / sizeof wrong[0]; k++) {
        CHECK(unchanged_step(fresh(), HEVRUKAN_SIZE, HEVRUKAN_KIND_FRAME, 1, 0, bytes, wrong[k], 0) == refused(11));
        CHECK(unchanged_step(running(), HEVRUKAN_SIZE, HEVRUKAN_KIND_FRAME, 1, 0, bytes, wrong[k], 0) == refused(11));
        CHECK(unchanged_step(running(), HEVRUKAN_SIZE, HEVRUKAN_KIND_FRAME, 0, 0, bytes, wrong[k], 0) == refused(11));
        CHECK(unchanged_step(asleep(), HEVRUKAN_SIZE, HEVRUKAN_KIND_FRAME, 1, 0, bytes, wrong[k], 0) == refused(11));
    }
    struct hevrukan c = running();
    CHECK(hevrukan_frame(&c, HEVRUKAN_GOOD, NULL, 0) == refused(11));
    CHECK(hevrukan_frame(&c, HEVRUKAN_GOOD, NULL, 14) == refused(11));
    CHECK(hevrukan_frame(&c, HEVRUKAN_GOOD, bytes, 14) == said_looked(HEVRUKAN_STORED, RECEIVE, LOOKED));
    CHECK(hevrukan_frame(&c, HEVRUKAN_BAD, bytes, 14) == said(HEVRUKAN_BADFRAME, 0));
    // a length of 15 has twelve data bytes, one of 0 none
    bytes[1] = 15;
    CHECK(hevrukan_frame(&c, HEVRUKAN_GOOD, bytes, 14) == said_looked(HEVRUKAN_STORED, RECEIVE, LOOKED));
    bytes[1] = 0;
    CHECK(hevrukan_frame(&c, HEVRUKAN_GOOD, bytes, 2) == said_looked(HEVRUKAN_STORED, RECEIVE, LOOKED));
    CHECK(unchanged_step(fresh(), HEVRUKAN_SIZE, HEVRUKAN_KIND_FRAME, 1, 0, bytes, 2, 0) == said(HEVRUKAN_IGNORED, 0));
}

// The buffers examined, beside each answer of a frame.
static void test_looked(void) {
    static const uint8_t own[] = {0x21, 0}, other[] = {0x60, 0}, empty[] = {0, 0};
    struct hevrukan c = running();
    CHECK(hevrukan_frame(&c, HEVRUKAN_GOOD, own, 2) == said_looked(HEVRUKAN_STORED, RECEIVE, LOOKED));
    must(hevrukan_write(&c, BFBUFCTL(RECEIVE), BF_LOCK));
    CHECK(hevrukan_frame(&c, HEVRUKAN_GOOD, own, 2) == said_looked(HEVRUKAN_WAITING, RECEIVE, LOOKED));
    CHECK(hevrukan_frame(&c, HEVRUKAN_GOOD, own, 2) == said_looked(HEVRUKAN_WAITING, RECEIVE, LOOKED));
    CHECK(hevrukan_frame(&c, HEVRUKAN_GOOD, own, 2) == said_looked(HEVRUKAN_HELDOFF, RECEIVE, LOOKED));
    CHECK(hevrukan_frame(&c, HEVRUKAN_GOOD, other, 2) == said_looked(HEVRUKAN_QUEUED, 0, ALL));
    CHECK(hevrukan_frame(&c, HEVRUKAN_GOOD, other, 2) == said_looked(HEVRUKAN_QUEUED, 1, ALL));
    CHECK(hevrukan_frame(&c, HEVRUKAN_GOOD, other, 2) == said_looked(HEVRUKAN_OVERRUN, 0, ALL));
    CHECK(hevrukan_frame(&c, HEVRUKAN_GOOD, empty, 2) == said(HEVRUKAN_BADFRAME, 0));
    CHECK(hevrukan_frame(&c, HEVRUKAN_GOOD, own, 1) == refused(11));
    must(hevrukan_fault(&c, HEVRUKAN_LOST));
    CHECK(hevrukan_frame(&c, HEVRUKAN_GOOD, own, 2) == said(HEVRUKAN_IGNORED, 0));
    c = asleep();
    CHECK(hevrukan_frame(&c, HEVRUKAN_GOOD, own, 2) == said(HEVRUKAN_WOKE, 0));
    // sixteen receive buffers, all but the last without identifier
    c = fresh();
    must(hevrukan_write(&c, BFBUFCTL(15), BF_LOCK));
    must(hevrukan_write(&c, BFRIDENT, 0x21));
    must(hevrukan_write(&c, BFBUFCTL(15), 0));
    must(hevrukan_write(&c, BFMCR, 0));
    must(hevrukan_sync(&c, HEVRUKAN_NORMAL));
    CHECK(hevrukan_frame(&c, HEVRUKAN_GOOD, own, 2) == said_looked(HEVRUKAN_STORED, 15, 16));
    CHECK(hevrukan_frame(&c, HEVRUKAN_GOOD, other, 2) == said_looked(HEVRUKAN_UNMATCHED, 0, 16));
    // the three parts of an answer, each without the other two
    for (uint32_t looked = 0; looked <= 16; looked++) {
        uint32_t answer = said_looked(HEVRUKAN_WAITING, 15, looked);
        CHECK(hevrukan_looked(answer) == looked && hevrukan_word(answer) == HEVRUKAN_WAITING && hevrukan_detail(answer) == 15);
        CHECK(!hevrukan_is_refused(answer) && hevrukan_is_refused(refused(looked)) && hevrukan_looked(refused(looked)) == 0);
    }
    CHECK(hevrukan_looked(SAID_UNKNOWN) == 0 && hevrukan_looked(SAID_WRONG_SIZE) == 0);
}

static uint32_t frame_of(struct hevrukan *c, uint8_t data) {
    const uint8_t frame[] = {0x21, 1, data};
    return hevrukan_frame(c, HEVRUKAN_GOOD, frame, sizeof frame);
}

// Frames that wait for a locked buffer: stored when it is released, the newest last; lost where a third comes.
static void test_waiting(void) {
    struct hevrukan c = running();
    CHECK(frame_of(&c, 0xA1) == said_looked(HEVRUKAN_STORED, RECEIVE, LOOKED));
    must(hevrukan_write(&c, BFBUFCTL(RECEIVE), BF_IENA | BF_LOCK));
    CHECK(frame_of(&c, 0xA2) == said_looked(HEVRUKAN_WAITING, RECEIVE, LOOKED));
    CHECK(frame_of(&c, 0xA3) == said_looked(HEVRUKAN_WAITING, RECEIVE, LOOKED));
    CHECK(frame_of(&c, 0xA4) == said_looked(HEVRUKAN_HELDOFF, RECEIVE, LOOKED));
    // the window shows none of them, and LOCK 1 on the locked buffer releases nothing
    must(hevrukan_write(&c, BFBUFCTL(RECEIVE), BF_IENA | BF_IFLG | BF_LOCK));
    CHECK(hevrukan_read(&c, BFRDATA(0)) == said(HEVRUKAN_READ, 0xA1));
    CHECK(hevrukan_read(&c, BFBUFCTL(RECEIVE)) == said(HEVRUKAN_READ, BF_IENA | BF_LOCK));
    // IFLG written 1 is cleared, and set by what is stored
    must(hevrukan_write(&c, BFBUFCTL(RECEIVE), BF_IENA | BF_IFLG));
    CHECK(hevrukan_read(&c, BFBUFCTL(RECEIVE)) == said(HEVRUKAN_READ, BF_IENA | BF_IFLG));
    must(hevrukan_write(&c, BFBUFCTL(RECEIVE), BF_IENA | BF_LOCK));
    CHECK(hevrukan_read(&c, BFRDATA(0)) == said(HEVRUKAN_READ, 0xA3));
    // both places are free again; entering initialization empties them, and nothing is stored
    CHECK(frame_of(&c, 0xA5) == said_looked(HEVRUKAN_WAITING, RECEIVE, LOOKED));
    CHECK(frame_of(&c, 0xA6) == said_looked(HEVRUKAN_WAITING, RECEIVE, LOOKED));
    must(hevrukan_write(&c, BFMCR, BF_INITRQ));
    must(hevrukan_write(&c, BFMCR, 0));
    must(hevrukan_sync(&c, HEVRUKAN_NORMAL));
    must(hevrukan_write(&c, BFBUFCTL(RECEIVE), BF_IENA));
    CHECK(hevrukan_read(&c, BFBUFCTL(RECEIVE)) == said(HEVRUKAN_READ, BF_IENA));
    must(hevrukan_write(&c, BFBUFCTL(RECEIVE), BF_IENA | BF_LOCK));
    CHECK(hevrukan_read(&c, BFRDATA(0)) == said(HEVRUKAN_READ, 0xA3));
}

// SLPRQ stands alone while a frame waits, the module working as awake; SLPAK comes with the release.
static void test_slprq_alone(void) {
    struct hevrukan c = running();
    must(hevrukan_write(&c, BFBUFCTL(RECEIVE), BF_IENA | BF_LOCK));
    CHECK(frame_of(&c, 0xA1) == said_looked(HEVRUKAN_WAITING, RECEIVE, LOOKED));
    must(hevrukan_write(&c, BFMCR, BF_SLPRQ));
    CHECK(hevrukan_read(&c, BFMCR) == said(HEVRUKAN_READ, BF_SLPRQ));
    struct hevrukan d = c;
    must(hevrukan_sync(&d, HEVRUKAN_NORMAL));
    CHECK(hevrukan_read(&d, BFMCR) == said(HEVRUKAN_READ, 0));
    d = c;
    must(hevrukan_write(&d, BFMCR, 0));
    CHECK(hevrukan_read(&d, BFMCR) == said(HEVRUKAN_READ, 0));
    CHECK(hevrukan_read(&d, BFGISR) == said(HEVRUKAN_READ, 0)); // no waking: no WAKEIF,
    CHECK(frame_of(&d, 0xA2) == said_looked(HEVRUKAN_WAITING, RECEIVE, LOOKED)); // and still synchronized
    // none of these cancels it, nor does BFEN 0
    must(hevrukan_timeout(&c));
    CHECK(hevrukan_sync_due(&c) == said(HEVRUKAN_IGNORED, 0));
    CHECK(unchanged(c, HEVRUKAN_KIND_SLOT, 0x42, 0) == said(HEVRUKAN_NOTSENT, 0));
    must(hevrukan_write(&c, BFPCTLBF, 0));
    must(hevrukan_write(&c, BFMCR, BF_SLPRQ));
    CHECK(hevrukan_read(&c, BFMCR) == said(HEVRUKAN_READ, BF_SLPRQ));
    must(hevrukan_write(&c, BFBUFCTL(RECEIVE), BF_IENA));
    CHECK(hevrukan_read(&c, BFMCR) == said(HEVRUKAN_READ, BF_SLPRQ | BF_SLPAK));
    CHECK(unchanged(c, HEVRUKAN_KIND_READ, BFPCTLBF, 0) == refused(2));
    CHECK(hevrukan_sync(&c, HEVRUKAN_NORMAL) == said(HEVRUKAN_WOKE, 0));
    CHECK(hevrukan_read(&c, BFBUFCTL(RECEIVE)) == said(HEVRUKAN_READ, BF_IENA | BF_IFLG));
}

static void test_rooms(void) {
    static const uint8_t frame[] = {0x41, 13, 0xA0, 0xA1, 0xA2, 0xA3, 0xA4, 0xA5, 0xA6, 0xA7, 0xA8, 0xA9, 0xAA, 0xAB};
    struct hevrukan c = running();
    for (size_t size = 0; size <= 13; size++)
        CHECK(unchanged_step(c, sizeof c, HEVRUKAN_KIND_SLOT, 0x41, 0, frame, 0, size) == refused(12));
    CHECK(hevrukan_slot(&c, 0x41, NULL, 0) == refused(12));
    CHECK(hevrukan_slot(&c, 0x41, NULL, HEVRUKAN_ROOM) == refused(12));
    CHECK(unchanged_step(fresh(), HEVRUKAN_SIZE, HEVRUKAN_KIND_SLOT, 0x41, 0, frame, 0, 13) == refused(12));
    CHECK(unchanged_step(asleep(), HEVRUKAN_SIZE, HEVRUKAN_KIND_SLOT, 0x41, 0, frame, 0, 13) == refused(12));
    CHECK(unchanged(c, HEVRUKAN_KIND_SLOT, 0x42, 0) == said(HEVRUKAN_NOTSENT, 0));
    for (size_t size = HEVRUKAN_ROOM; size <= ROOM; size++) {
        uint8_t room[ROOM];
        memset(room, CANARY, sizeof room);
        c = running();
        CHECK(hevrukan_slot(&c, 0x41, room, size) == said(HEVRUKAN_SENT, sizeof frame));
        CHECK(memcmp(room, frame, sizeof frame) == 0);
        for (size_t k = sizeof frame; k < sizeof room; k++) CHECK(room[k] == CANARY);
        CHECK(unchanged(c, HEVRUKAN_KIND_SLOT, 0x41, 0) == said(HEVRUKAN_NOTSENT, 0));
    }
}

static void test_refusals(void) {
    struct hevrukan c = running();
    CHECK(unchanged(c, HEVRUKAN_KIND_READ, 0x60, 0) == refused(1));
    CHECK(unchanged(asleep(), HEVRUKAN_KIND_READ, BFRIVEC, 0) == refused(2));
    CHECK(unchanged(c, HEVRUKAN_KIND_WRITE, BFRIVEC, 0) == refused(3));
    CHECK(unchanged(c, HEVRUKAN_KIND_WRITE, BFRIDENT, 0x22) == refused(4));
    CHECK(unchanged(c, HEVRUKAN_KIND_WRITE, BFTIDENT, 0x42) == refused(5));
    CHECK(unchanged(fresh(), HEVRUKAN_KIND_WRITE, BFFSIZR, 17) == refused(6));
    CHECK(unchanged(c, HEVRUKAN_KIND_WRITE, BFBUFCTL(1), BF_LOCK) == refused(9));
    c = fresh();
    must(hevrukan_write(&c, BFBUFCTL(0), BF_LOCK));
    CHECK(unchanged(c, HEVRUKAN_KIND_WRITE, BFBUFCTL(0), BF_CFG | BF_LOCK) == refused(7));
    must(hevrukan_write(&c, BFBUFCTL(1), BF_LOCK));
    CHECK(unchanged(c, HEVRUKAN_KIND_WRITE, BFBUFCTL(2), BF_LOCK) == refused(10));
    must(hevrukan_write(&c, BFBUFCTL(2), BF_CFG));
    CHECK(unchanged(c, HEVRUKAN_KIND_WRITE, BFMCR, 0) == refused(8));
    // 11 and 12: test_frames, test_rooms
}

static void test_texts(void) {
    CHECK(hevrukan_is_refused(refused(4)) && !hevrukan_is_refused(HEVRUKAN_OK) && !hevrukan_is_refused(SAID_UNKNOWN));
    CHECK(hevrukan_word(refused(12)) == HEVRUKAN_REFUSED && hevrukan_detail(refused(12)) == 12);
    for (uint32_t n = 1; n <= 12; n++) {
        CHECK(strcmp(hevrukan_refusal_text(n), "no such refusal") != 0);
        for (uint32_t k = 1; k < n; k++) CHECK(strcmp(hevrukan_refusal_text(n), hevrukan_refusal_text(k)) != 0);
    }
    CHECK(strcmp(hevrukan_refusal_text(0), "no such refusal") == 0 && strcmp(hevrukan_refusal_text(13), "no such refusal") == 0);
    for (uint32_t word = 0; word <= 66; word++) {
        int named = (word <= HEVRUKAN_WAITING && word != 5) || word == HEVRUKAN_UNKNOWN || word == HEVRUKAN_WRONG_SIZE;
        CHECK((strcmp(hevrukan_word_text(word), "no such word") != 0) == named);
    }
}

// Each event through its function, the master's too.
static void test_events(void) {
    struct hevrukan c = fresh();
    must(hevrukan_write(&c, BFMCR, BF_MASTER | BF_ALARM));
    must(hevrukan_write(&c, BFRIER, BF_SYNAIE | BF_XSYNIE | BF_SLMMIE));
    CHECK(hevrukan_sync_due(&c) == said(HEVRUKAN_PULSE, HEVRUKAN_ALARM));
    CHECK(hevrukan_lines(&c, sizeof c) == (HEVRUKAN_LINE_SYNC | HEVRUKAN_LINE_XSYNC));
    must(hevrukan_timeout(&c));
    CHECK(hevrukan_sync_due(&c) == said(HEVRUKAN_PULSE, HEVRUKAN_NORMAL));
    must(hevrukan_fault(&c, HEVRUKAN_EARLY));
    CHECK(hevrukan_read(&c, BFGISR) == said(HEVRUKAN_READ, BF_SYNEIF));
    must(hevrukan_fault(&c, HEVRUKAN_ILLEGAL));
    CHECK(hevrukan_read(&c, BFGISR) == said(HEVRUKAN_READ, BF_SYNEIF | BF_ILLPIF));
    must(hevrukan_fault(&c, HEVRUKAN_LOST));
    CHECK(hevrukan_read(&c, BFGISR) == said(HEVRUKAN_READ, BF_SYNEIF | BF_ILLPIF | BF_SYNLIF));
    CHECK(hevrukan_lines(&c, sizeof c) == (HEVRUKAN_LINE_SYNC | HEVRUKAN_LINE_XSYNC));
    must(hevrukan_fault(&c, HEVRUKAN_MISMATCH));
    CHECK(hevrukan_lines(&c, sizeof c) == (HEVRUKAN_LINE_SYNC | HEVRUKAN_LINE_XSYNC | HEVRUKAN_LINE_GENERAL));
    c = asleep();
    CHECK(hevrukan_timeout(&c) == said(HEVRUKAN_IGNORED, 0));
    CHECK(hevrukan_sync(&c, HEVRUKAN_ALARM) == said(HEVRUKAN_WOKE, 0));
}

// A full FIFO, its filters as after reset, and a record copied by assignment: both go on alike.
static void test_copy(void) {
    static const uint8_t frame[] = {0x60, 1, 0x7E}, other[] = {0x61, 0};
    struct hevrukan c = fresh();
    must(hevrukan_write(&c, BFFSIZR, 1));
    must(hevrukan_write(&c, BFMCR, 0));
    must(hevrukan_sync(&c, HEVRUKAN_NORMAL));
    CHECK(hevrukan_frame(&c, HEVRUKAN_GOOD, frame, sizeof frame) == said_looked(HEVRUKAN_QUEUED, 0, 15));
    struct hevrukan d = c;
    CHECK(hevrukan_frame(&c, HEVRUKAN_GOOD, other, sizeof other) == said_looked(HEVRUKAN_OVERRUN, 0, 15));
    CHECK(hevrukan_read(&d, BFGISR) == said(HEVRUKAN_READ, 0));
    CHECK(hevrukan_frame(&d, HEVRUKAN_GOOD, other, sizeof other) == said_looked(HEVRUKAN_OVERRUN, 0, 15));
    for (uint32_t address = 0; address <= 0x5F; address++) CHECK(hevrukan_read(&c, address) == hevrukan_read(&d, address));
}

int main(void) {
    test_size();
    test_mirror();
    test_reset();
    test_wrong_size();
    test_header_before(266);
    test_header_before(268);
    test_unknown();
    test_unused();
    test_address();
    test_frames();
    test_looked();
    test_waiting();
    test_slprq_alone();
    test_rooms();
    test_refusals();
    test_texts();
    test_events();
    test_copy();
    if (failures == 0) printf("tests/interface.c: %u checks, all hold\n", checks);
    else fprintf(stderr, "tests/interface.c: %u of %u checks fail\n", failures, checks);
    return failures != 0;
}
