// Prints a controller's state as ./hevrukan state does: here after the first ten lines of examples/locked.rec. tests/interface runs it;
// state.txt has what it prints.
#include <hevrukan.h>

#include <stdio.h>

static void print_bytes(const uint8_t *bytes) {
    for (int k = 0; k < HEVRUKAN_ROOM; k++) printf("%02X", (unsigned)bytes[k]);
    putchar('\n');
}

// The registers as test code reads them; the buffers without a lock, and the frames that wait, which no register shows.
static void print_state(struct hevrukan *c) {
    uint8_t bytes[HEVRUKAN_ROOM];
    uint32_t answer;
    puts("what\tplace\tanswer\tdetail");
    for (uint32_t address = 0; address <= 0x5F; address++) {
        answer = hevrukan_read(c, address);
        printf("register\t%02X\t%s\t%02X\n", (unsigned)address, hevrukan_word_text(hevrukan_word(answer)), (unsigned)hevrukan_detail(answer));
    }
    for (uint32_t n = 0; n < 16; n++) {
        hevrukan_buffer(c, sizeof *c, n, bytes, sizeof bytes);
        printf("buffer\t%02X\tholds\t", (unsigned)n);
        print_bytes(bytes);
    }
    for (uint32_t k = 0; hevrukan_word(answer = hevrukan_waiting(c, sizeof *c, k, bytes, sizeof bytes)) == HEVRUKAN_WAITING; k++) {
        printf("waiting\t%02X\tholds\t", (unsigned)hevrukan_detail(answer));
        print_bytes(bytes);
    }
}

int main(void) {
    static const uint8_t older[] = {0x21, 1, 0xAA}, newer[] = {0x21, 2, 0xBB, 0xCC};
    struct hevrukan c;
    if (!hevrukan_matches()) {
        fputs("header and library don't belong together\n", stderr);
        return 1;
    }
    hevrukan_reset(&c, sizeof c);
    hevrukan_write(&c, BFBUFCTL(1), BF_LOCK);
    hevrukan_write(&c, BFRIDENT, 0x22);
    hevrukan_write(&c, BFBUFCTL(1), 0);
    hevrukan_write(&c, BFBUFCTL(0), BF_LOCK);
    hevrukan_write(&c, BFRIDENT, 0x21);
    hevrukan_write(&c, BFPCTLBF, BF_BFEN);
    hevrukan_write(&c, BFMCR, 0);
    hevrukan_sync(&c, HEVRUKAN_NORMAL);
    hevrukan_frame(&c, HEVRUKAN_GOOD, older, sizeof older); // buffer 0 is locked: they wait
    hevrukan_frame(&c, HEVRUKAN_GOOD, newer, sizeof newer);
    print_state(&c);
    if (fflush(stdout) != 0 || ferror(stdout)) {
        perror("hevrukan: writing to standard output");
        return 1;
    }
    return 0;
}
