// Tests a door module as its test code would: the emulated controller takes the module's frames and sends it one.
// ./hevrukan example c  builds and runs it; module.txt has what it prints, and module.py is the same in Python.
#include <hevrukan.h>

#include <stdio.h>

// What the module says, and what it is told.
enum { LOCK_COMMAND = 0x12, WINDOW_SWITCH = 0x21, WINDOW_POSITION = 0x41, DIAGNOSIS = 0x60 };

// Their buffers; 0 and 1 are the FIFO.
enum { LOCK_BUFFER = 2, SWITCH_BUFFER = 3, POSITION_BUFFER = 15 };

static struct hevrukan c;

static void print_bytes(const uint8_t *bytes, size_t count) {
    for (size_t k = 0; k < count; k++) printf(" %02X", (unsigned)bytes[k]);
}

// One row: the call, its answer, and why.
static void row(const char *call, uint32_t answer, const char *why) {
    char text[24];
    const char *word = hevrukan_word_text(hevrukan_word(answer));
    unsigned detail = hevrukan_detail(answer);
    switch (hevrukan_word(answer)) {
    case HEVRUKAN_READ: snprintf(text, sizeof text, "%s $%02X", word, detail); break;
    case HEVRUKAN_STORED:
    case HEVRUKAN_QUEUED:
    case HEVRUKAN_WAITING:
    case HEVRUKAN_HELDOFF:
    case HEVRUKAN_REFUSED: snprintf(text, sizeof text, "%s %u", word, detail); break;
    default: snprintf(text, sizeof text, "%s", word); break;
    }
    printf("  %-26s %-12s %s\n", call, text, why);
}

static uint32_t put(uint32_t address, uint32_t value, const char *why) {
    char call[32];
    uint32_t answer = hevrukan_write(&c, address, value);
    snprintf(call, sizeof call, "write $%02X $%02X", (unsigned)address, (unsigned)value);
    row(call, answer, why);
    return answer;
}

static void get(uint32_t address, const char *why) {
    char call[32];
    snprintf(call, sizeof call, "read $%02X", (unsigned)address);
    row(call, hevrukan_read(&c, address), why);
}

static void pulse(const char *why) {
    row("sync normal", hevrukan_sync(&c, HEVRUKAN_NORMAL), why);
}

// A good frame of the module, and how many receive buffers were examined for its own.
static void frame(const uint8_t *bytes, size_t count, const char *why) {
    char call[64];
    uint32_t answer = hevrukan_frame(&c, HEVRUKAN_GOOD, bytes, count);
    size_t used = (size_t)snprintf(call, sizeof call, "frame");
    for (size_t k = 0; k < count && used < sizeof call; k++)
        used += (size_t)snprintf(call + used, sizeof call - used, " %02X", (unsigned)bytes[k]);
    row(call, answer, why);
    printf("    receive buffers examined: %u\n", (unsigned)hevrukan_looked(answer));
}

static void slot(uint32_t identifier, const char *why) {
    char call[32];
    uint8_t room[HEVRUKAN_ROOM];
    uint32_t answer = hevrukan_slot(&c, identifier, room, sizeof room);
    snprintf(call, sizeof call, "slot $%02X", (unsigned)identifier);
    row(call, answer, why);
    if (hevrukan_word(answer) == HEVRUKAN_SENT) {
        printf("    the frame:");
        print_bytes(room, hevrukan_detail(answer));
        printf("\n");
    }
}

// The interrupt lines that are up.
static void lines(void) {
    uint32_t up = hevrukan_lines(&c, sizeof c);
    printf("    interrupt lines:%s%s%s%s%s%s\n",
           up & HEVRUKAN_LINE_FIFO ? " FIFO" : "", up & HEVRUKAN_LINE_RECEIVE ? " receive" : "",
           up & HEVRUKAN_LINE_SYNC ? " sync" : "", up & HEVRUKAN_LINE_XSYNC ? " XSYNC" : "",
           up & HEVRUKAN_LINE_GENERAL ? " general" : "", up ? "" : " none");
}

// The window that begins at this address: identifier, length and the twelve data registers.
static void window(uint32_t address) {
    uint8_t bytes[14];
    for (uint32_t k = 0; k < sizeof bytes; k++) bytes[k] = (uint8_t)hevrukan_detail(hevrukan_read(&c, address + k));
    printf("    identifier $%02X, length %u, data", (unsigned)bytes[0], (unsigned)bytes[1]);
    print_bytes(bytes + 2, 12);
    printf("\n");
}

static void set_up(void) {
    printf("Set-up\n");
    row("reset", hevrukan_reset(&c, sizeof c), "in initialization, all buffers empty");
    put(BFFSIZR, 2, "the FIFO is buffers 0 and 1");
    put(BFBUFCTL(LOCK_BUFFER), BF_LOCK, "buffer 2 locked: the receive window shows it");
    put(BFRIDENT, LOCK_COMMAND, "it takes the lock command, $12");
    put(BFBUFCTL(LOCK_BUFFER), BF_IENA, "released, with its interrupt");
    put(BFBUFCTL(SWITCH_BUFFER), BF_LOCK, "buffer 3");
    put(BFRIDENT, WINDOW_SWITCH, "takes the window switch, $21");
    put(BFBUFCTL(SWITCH_BUFFER), BF_IENA, "released");
    put(BFBUFCTL(POSITION_BUFFER), BF_CFG | BF_LOCK, "buffer 15 is a transmit buffer, in the transmit window");
    put(BFTIDENT, WINDOW_POSITION, "it sends the window's position, $41,");
    put(BFTLEN, 2, "of two bytes");
    put(BFBUFCTL(POSITION_BUFFER), BF_CFG, "released");
    put(BFFIDAC, DIAGNOSIS, "the FIFO accepts $60");
    put(BFFIDMR, 0x0F, "to $6F,");
    put(BFFIDRJ, 0x6F, "but for $6F:");
    put(BFFIDRMR, 0x00, "all its bits are compared");
    put(BFRIER, BF_RCVFIE | BF_RXIE, "the FIFO line and the receive line are enabled");
    put(BFMCR, 0x00, "initialization left: the layout is lawful");
    get(BFMCR, "normal operation");
}

static void receive(void) {
    static const uint8_t pressed[] = {WINDOW_SWITCH, 3, 0x55, 0xAA, 0x01};
    printf("\nA frame of the module\n");
    frame(pressed, sizeof pressed, "no sync yet");
    pulse("synchronized");
    frame(pressed, sizeof pressed, "the window switch is pressed");
    lines();
    get(BFRIVEC, "the receive vector names its buffer");
    put(BFBUFCTL(SWITCH_BUFFER), BF_IENA | BF_LOCK, "locked, to read it whole");
    window(BFRIDENT);
    put(BFBUFCTL(SWITCH_BUFFER), BF_IENA | BF_IFLG, "released; IFLG 1 says that it was read");
    lines();
    get(BFRIVEC, "none");
}

static void meet_lock(void) {
    static const uint8_t released[] = {WINDOW_SWITCH, 3, 0x55, 0xAA, 0x00};
    printf("\nA frame that meets a lock\n");
    put(BFBUFCTL(SWITCH_BUFFER), BF_IENA | BF_LOCK, "locked again");
    pulse("the next cycle");
    frame(released, sizeof released, "the window switch is let go: the frame waits");
    window(BFRIDENT);
    put(BFBUFCTL(SWITCH_BUFFER), BF_IENA, "released, which stores it");
    lines();
    put(BFBUFCTL(SWITCH_BUFFER), BF_IENA | BF_LOCK, "locked, to read it");
    window(BFRIDENT);
    put(BFBUFCTL(SWITCH_BUFFER), BF_IENA | BF_IFLG, "released; it was read");
}

static void queue(void) {
    static const uint8_t answer[] = {DIAGNOSIS, 1, 0x7E}, rejected[] = {0x6F, 1, 0x7F};
    printf("\nThe FIFO\n");
    frame(answer, sizeof answer, "a diagnosis frame");
    frame(rejected, sizeof rejected, "rejected by the filter");
    lines();
    put(BFBUFCTL(0), BF_LOCK, "the oldest entry locked");
    window(BFFIDENT);
    put(BFBUFCTL(0), 0x00, "released, which removes it");
    lines();
}

static void transmit(void) {
    printf("\nA frame for the module\n");
    put(BFBUFCTL(POSITION_BUFFER), BF_CFG | BF_LOCK, "the transmit buffer locked");
    put(BFTDATA(0), 0x10, "data 0");
    put(BFTDATA(1), 0x64, "data 1");
    put(BFBUFCTL(POSITION_BUFFER), BF_CFG | BF_IFLG, "released; IFLG 1 says \"send this\"");
    slot(WINDOW_POSITION, "the request came after the last sync");
    pulse("the buffer is armed");
    slot(WINDOW_POSITION, "its turn on the bus");
    get(BFBUFCTL(POSITION_BUFFER), "IFLG: the buffer is empty again");
}

static void refusal(void) {
    printf("\nA refusal\n");
    uint32_t answer = put(BFRIDENT, DIAGNOSIS, "too late for another identifier");
    if (hevrukan_is_refused(answer)) printf("    %s\n", hevrukan_refusal_text(hevrukan_detail(answer)));
}

int main(void) {
    if (hevrukan_size() != sizeof c) {
        fprintf(stderr, "module: the header isn't that of the library\n");
        return 1;
    }
    set_up();
    receive();
    meet_lock();
    queue();
    transmit();
    refusal();
    if (fflush(stdout) != 0 || ferror(stdout)) {
        perror("hevrukan: writing to standard output");
        return 1;
    }
    return 0;
}
