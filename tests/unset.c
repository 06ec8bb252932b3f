// The one byte of the record that is no field's stands at offset 33, by the mirror of tests/interface.c, and nothing goes by it.
// tests/interface builds and runs it.
#define main main_of_interface
#include "interface.c"
#undef main

enum { UNSET = 33 };

// Steps of all kinds, and what the registers read after each, whatever the byte is.
static void test_unset(uint8_t byte) {
    static const uint8_t frame[] = {0x21, 1, 0x55}, queued[] = {0x60, 0};
    struct hevrukan plain = running(), other = plain;
    ((uint8_t *)&other)[UNSET] = byte;
    for (unsigned k = 0; k < 8; k++) {
        uint32_t answers[2];
        for (unsigned each = 0; each < 2; each++) {
            struct hevrukan *c = each ? &other : &plain;
            uint8_t room[HEVRUKAN_ROOM];
            switch (k) {
            case 0: case 2: answers[each] = hevrukan_frame(c, HEVRUKAN_GOOD, frame, sizeof frame); break;
            case 1: answers[each] = hevrukan_write(c, BFBUFCTL(RECEIVE), BF_LOCK); break;
            case 3: answers[each] = hevrukan_write(c, BFBUFCTL(RECEIVE), BF_IFLG); break;
            case 4: answers[each] = hevrukan_slot(c, 0x41, room, sizeof room); break;
            case 5: answers[each] = hevrukan_frame(c, HEVRUKAN_GOOD, queued, sizeof queued); break;
            case 6: answers[each] = hevrukan_fault(c, HEVRUKAN_LOST); break;
            default: answers[each] = hevrukan_write(c, BFMCR, BF_SLPRQ); break;
            }
        }
        CHECK(answers[0] == answers[1]);
        CHECK(hevrukan_lines(&plain, sizeof plain) == hevrukan_lines(&other, sizeof other));
        for (uint32_t address = 0; address < 0x60; address++) CHECK(hevrukan_read(&plain, address) == hevrukan_read(&other, address));
        // of the two records no other byte differs
        struct hevrukan same = other;
        ((uint8_t *)&same)[UNSET] = ((uint8_t *)&plain)[UNSET];
        CHECK(memcmp(&same, &plain, sizeof same) == 0);
    }
}

int main(void) {
    CHECK(offsetof(struct mirror, places.swapped) == UNSET - 1 && offsetof(struct mirror, buffers) == UNSET + 1);
    test_unset(0);
    test_unset(0xFF);
    if (failures == 0) printf("tests/unset.c: %u checks, all hold\n", checks);
    return failures != 0;
}
