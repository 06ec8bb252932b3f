// The same calls from reset give the same bytes, whatever lay in the record and on the stack, and so does a record that was saved and
// restored: no byte of it is unset but the one at offset 33, which is no field's. Calls of all kinds, by a script and then by chance.
// tests/interface builds and runs it.
#include <hevrukan.h>

#include <stdio.h>
#include <stdlib.h>
#include <string.h>

enum { STEPS = 4000, LONGEST = 14, NOT_ANSWERED = 5, UNSET = 33 };

struct call { uint32_t kind, first, second; uint8_t frame[LONGEST]; size_t frame_size; };

static void must(int holds, const char *what, unsigned step) {
    if (holds) return;
    fprintf(stderr, "tests/bytes.c: step %u: %s\n", step, what);
    exit(1);
}

// Leaves such bytes on the stack, where the library's next call has its own.
static void soil(uint8_t byte) {
    volatile uint8_t bytes[8192];
    for (size_t k = 0; k < sizeof bytes; k++) bytes[k] = byte;
}

static uint32_t answered(struct hevrukan *c, const struct call *call, uint8_t byte) {
    uint8_t room[HEVRUKAN_ROOM] = {0};
    soil(byte);
    return hevrukan_step(c, sizeof *c, call->kind, call->first, call->second, call->frame, call->frame_size, room, sizeof room);
}

// Three records: two that lay in other bytes before reset, and one that is saved and restored before each step.
static struct hevrukan first, second, restored;

// How often each word was answered.
static unsigned said[HEVRUKAN_WAITING + 1];

static int alike(struct hevrukan a, struct hevrukan b) {
    ((uint8_t *)&a)[UNSET] = ((uint8_t *)&b)[UNSET] = 0;
    return memcmp(&a, &b, sizeof a) == 0;
}

static void same_bytes(unsigned step) {
    must(alike(first, second), "bytes depend on what lay there", step);
    must(alike(first, restored), "bytes differ after a save", step);
}

static void start(uint8_t byte) {
    memset(&first, byte, sizeof first);
    memset(&second, ~byte, sizeof second);
    soil(~byte);
    must(hevrukan_reset(&first, sizeof first) == HEVRUKAN_OK, "not reset", 0);
    soil(byte);
    must(hevrukan_reset(&second, sizeof second) == HEVRUKAN_OK, "not reset", 0);
    restored = first;
    same_bytes(0);
}

static uint32_t step_all(const struct call *call, unsigned step) {
    uint8_t saved[sizeof restored];
    memcpy(saved, &restored, sizeof saved);
    memset(&restored, (int)step, sizeof restored);
    memcpy(&restored, saved, sizeof saved);
    uint32_t answer = answered(&first, call, 0x5A);
    must(answered(&second, call, 0xA5) == answer, "another answer", step);
    must(answered(&restored, call, (uint8_t)step) == answer, "another answer after a save", step);
    same_bytes(step);
    must(hevrukan_word(answer) <= HEVRUKAN_WAITING, hevrukan_word_text(hevrukan_word(answer)), step);
    said[hevrukan_word(answer)]++;
    return answer;
}

// A call of the script. A frame's numbers are its verdict and its identifier.
struct line { uint32_t kind, first, second, word; };

#define WRITE(address, value) {HEVRUKAN_KIND_WRITE, address, value, HEVRUKAN_OK}
#define FRAME(identifier, word) {HEVRUKAN_KIND_FRAME, HEVRUKAN_GOOD, identifier, word}
#define SYNC(pulse, word) {HEVRUKAN_KIND_SYNC, pulse, 0, word}

static const struct line script[] = {
    // buffers 0 and 1 are the FIFO, 3 receives $21, 4 $22, and 15 sends $41
    WRITE(BFFSIZR, 2), WRITE(BFBUFCTL(3), BF_LOCK), WRITE(BFRIDENT, 0x21), WRITE(BFBUFCTL(3), BF_IENA),
    WRITE(BFBUFCTL(4), BF_LOCK), WRITE(BFRIDENT, 0x22), WRITE(BFBUFCTL(4), 0),
    WRITE(BFBUFCTL(15), BF_CFG | BF_LOCK), WRITE(BFTIDENT, 0x41), WRITE(BFTLEN, 12), WRITE(BFBUFCTL(15), BF_CFG),
    WRITE(BFPCTLBF, BF_BFEN), WRITE(BFMCR, 0), WRITE(BFBUFCTL(15), BF_IFLG), SYNC(HEVRUKAN_NORMAL, HEVRUKAN_OK),
    {HEVRUKAN_KIND_SLOT, 0x41, 0, HEVRUKAN_SENT}, {HEVRUKAN_KIND_SLOT, 0x41, 0, HEVRUKAN_NOTSENT},
    FRAME(0x21, HEVRUKAN_STORED), FRAME(0x60, HEVRUKAN_QUEUED), FRAME(0x61, HEVRUKAN_QUEUED), FRAME(0x62, HEVRUKAN_OVERRUN),
    // frames wait for both buffers, in both orders, and the module sleeps when the last is released
    WRITE(BFBUFCTL(3), BF_LOCK), WRITE(BFBUFCTL(4), BF_LOCK), FRAME(0x22, HEVRUKAN_WAITING), FRAME(0x21, HEVRUKAN_WAITING),
    FRAME(0x21, HEVRUKAN_HELDOFF), WRITE(BFBUFCTL(4), 0), WRITE(BFBUFCTL(4), BF_LOCK), FRAME(0x22, HEVRUKAN_WAITING),
    WRITE(BFMCR, BF_SLPRQ), WRITE(BFBUFCTL(3), BF_IFLG), WRITE(BFBUFCTL(4), BF_IFLG),
    {HEVRUKAN_KIND_READ, BFRISR, 0, HEVRUKAN_REFUSED}, SYNC(HEVRUKAN_ALARM, HEVRUKAN_WOKE), SYNC(HEVRUKAN_ALARM, HEVRUKAN_OK),
    // a lock error enters initialization while a frame waits
    WRITE(BFMCR, BF_INITRQ), WRITE(BFGIER, BF_LOCKIE), WRITE(BFMCR, 0), SYNC(HEVRUKAN_NORMAL, HEVRUKAN_OK),
    WRITE(BFBUFCTL(3), BF_LOCK), FRAME(0x21, HEVRUKAN_WAITING), WRITE(BFBUFCTL(4), BF_LOCK), FRAME(0x21, HEVRUKAN_IGNORED),
};

static void run_script(void) {
    for (unsigned k = 0; k < sizeof script / sizeof script[0]; k++) {
        const struct line *line = &script[k];
        struct call call = {line->kind, line->first, line->second, {0}, 0};
        if (line->kind == HEVRUKAN_KIND_FRAME) {
            const uint8_t frame[] = {(uint8_t)line->second, 3, (uint8_t)k, 0xBB, 0xCC};
            memcpy(call.frame, frame, sizeof frame);
            call.frame_size = sizeof frame;
        }
        must(hevrukan_word(step_all(&call, k + 1)) == line->word, "not the script's answer", k + 1);
    }
    must(hevrukan_read(&first, BFMCR) == ((HEVRUKAN_READ << 8) | BF_INITRQ | BF_INITAK), "no lock error", sizeof script / sizeof script[0]);
}

static uint32_t below(uint32_t n) {
    static uint32_t state = 1;
    state = state * 1664525 + 1013904223;
    return (state >> 8) % n;
}

// A call by chance: mostly the control registers of buffers 3 and 4, and frames that these carry.
static struct call by_chance(void) {
    static const uint8_t modes[] = {0, 0, 0, BF_SLPRQ, BF_INITRQ, BF_MASTER | BF_ALARM};
    static const uint8_t identifiers[] = {0x21, 0x21, 0x22, 0x22, 0x60, 0};
    const uint32_t often = below(3) ? HEVRUKAN_KIND_FRAME : below(4) ? HEVRUKAN_KIND_WRITE : HEVRUKAN_KIND_SYNC;
    const uint32_t kind = below(8) ? often : below(9);
    struct call call = {kind, 0, below(256), {0}, 0};
    if (kind == HEVRUKAN_KIND_READ) call.first = below(0x60);
    else if (kind == HEVRUKAN_KIND_SLOT) call.first = 0x41;
    else if (kind == HEVRUKAN_KIND_FAULT) call.first = below(4);
    else call.first = below(2);
    if (kind == HEVRUKAN_KIND_WRITE) {
        call.first = below(3) ? BFBUFCTL(3 + below(2)) : below(3) ? BFMCR : below(0x60);
        if (call.first == BFMCR) call.second = modes[below(sizeof modes)];
        else if (call.first >= BFBUFCTL(0)) call.second &= BF_LOCK | BF_IENA | BF_IFLG;
    }
    if (kind == HEVRUKAN_KIND_FRAME) {
        uint32_t length = below(13);
        call.first = below(8) ? HEVRUKAN_GOOD : HEVRUKAN_BAD;
        call.frame[0] = identifiers[below(sizeof identifiers)];
        call.frame[1] = (uint8_t)length;
        for (uint32_t k = 0; k < length; k++) call.frame[2 + k] = (uint8_t)below(256);
        call.frame_size = 2 + length;
    }
    return call;
}

int main(void) {
    unsigned steps = 0;
    for (unsigned byte = 0; byte < 256; byte++) start((uint8_t)byte);
    while (steps < STEPS) {
        start((uint8_t)steps);
        run_script();
        for (unsigned k = 0; k < 200; k++) {
            struct call call = by_chance();
            step_all(&call, ++steps);
        }
    }
    for (unsigned word = 0; word <= HEVRUKAN_WAITING; word++) {
        if (word == NOT_ANSWERED || said[word] > 0) continue;
        fprintf(stderr, "tests/bytes.c: no step was answered %s\n", hevrukan_word_text(word));
        return 1;
    }
    printf("tests/bytes.c: the same calls give the same bytes, %u steps by chance\n", steps);
    return 0;
}
