// hevrukan.h: the emulated Byteflight controller, for C99 and C++. Link with libhevrukan.a (./hevrukan library builds it), or, where
// it is installed (./hevrukan install), with what pkg-config --cflags --libs hevrukan says. docs/C.md is the guide.
//
// One controller is one struct hevrukan. hevrukan_reset writes it; after that each call is one whole step of document 01: it
// changes the record and gives an answer, 65536 * looked + 256 * word + detail, looked being how many buffers were examined for a
// frame (hevrukan_looked). The library keeps nothing of its own and allocates nothing: any number of controllers may stand side by
// side, and a record may be copied by assignment, as a state to go back to.
//
//     struct hevrukan c;
//     hevrukan_reset(&c, sizeof c);
//     uint32_t answer = hevrukan_write(&c, BFFSIZR, 2);
//     if (hevrukan_is_refused(answer)) puts(hevrukan_refusal_text(hevrukan_detail(answer)));
//
// Proved of the library's functions, for every size, kind, number, frame and room: the answer, the next record and the
// room's bytes are those that document 01's rules give, and hevrukan_buffer and hevrukan_waiting show what the record holds.
// The inline functions are a few lines of C over them, tested.
// Assumed of the caller, since C can't show it:
// - a pointer to a record leads to HEVRUKAN_SIZE bytes, aligned as a uint16_t is, that hevrukan_reset wrote, and that nothing
//   but the library, or a copy of a whole record, has written since. Any other function than hevrukan_reset on other bytes is
//   undefined; hevrukan_reset alone takes any bytes;
// - frame and room lead to as many bytes as their size says and are not null, also where the size is 0; frame, room and record
//   don't overlap. The inline functions below see to the null pointers;
// - while a call runs, no other thread uses the record or the room, or writes the frame. hevrukan_lines, hevrukan_buffer and
//   hevrukan_waiting only read the record: several threads may call these at once, each with a room of its own.
#ifndef HEVRUKAN_H
#define HEVRUKAN_H

#include <stddef.h>
#include <stdint.h>

#ifdef __cplusplus
extern "C" {
#endif

// The version of this header: 10000 times the first number, 100 times the second, and the third. hevrukan_version is that of the
// library, and hevrukan_matches says whether the two belong together.
#define HEVRUKAN_VERSION 600
#define HEVRUKAN_VERSION_TEXT "0.6.0"

// The bytes of a record. Its content is the library's business: read it through the registers. The same calls from reset give the same
// bytes but for one, at offset 33: it is unused, and may be anything. Records that differ in no other byte are controllers in the same
// state. Compare by the registers where the calls differed, since a waiting place that is free again keeps bytes that nothing shows. The
// headers before this one had records of 266 and of 268 bytes, and no word for a frame that waits: a program built with one of them is
// answered wrong size.
#define HEVRUKAN_SIZE 296

struct hevrukan {
    uint16_t record[HEVRUKAN_SIZE / 2];
};

// The room that a slot, a buffer or a waiting frame needs: so many bytes has a buffer, and at most so many a sent frame.
#define HEVRUKAN_ROOM 14

// The kinds of step, with the numbers that they use. A number that a kind doesn't use is not looked at.
enum hevrukan_kind {
    HEVRUKAN_KIND_RESET = 0,    // as hevrukan_reset
    HEVRUKAN_KIND_READ = 1,     // first: address
    HEVRUKAN_KIND_WRITE = 2,    // first: address, second: value
    HEVRUKAN_KIND_SYNC = 3,     // first: HEVRUKAN_NORMAL or HEVRUKAN_ALARM
    HEVRUKAN_KIND_SYNC_DUE = 4,
    HEVRUKAN_KIND_SLOT = 5,     // first: identifier; the room
    HEVRUKAN_KIND_FRAME = 6,    // first: HEVRUKAN_GOOD or HEVRUKAN_BAD; the frame
    HEVRUKAN_KIND_FAULT = 7,    // first: HEVRUKAN_EARLY to HEVRUKAN_MISMATCH
    HEVRUKAN_KIND_TIMEOUT = 8
};

enum hevrukan_pulse { HEVRUKAN_NORMAL = 0, HEVRUKAN_ALARM = 1 };

enum hevrukan_verdict { HEVRUKAN_BAD = 0, HEVRUKAN_GOOD = 1 };

enum hevrukan_fault_kind { HEVRUKAN_EARLY = 0, HEVRUKAN_LOST = 1, HEVRUKAN_ILLEGAL = 2, HEVRUKAN_MISMATCH = 3 };

// The words of an answer, with their detail; it is 0 where none is named.
enum hevrukan_answer_word {
    HEVRUKAN_OK = 0,
    HEVRUKAN_READ = 1,        // the value
    HEVRUKAN_STORED = 2,      // the buffer's number
    HEVRUKAN_QUEUED = 3,      // the number of the FIFO's buffer
    HEVRUKAN_HELDOFF = 4,     // the number of the locked buffer; both waiting places are taken, and the frame is lost
    // 5 stays unused: it was heldback, which no session from reset ever got
    HEVRUKAN_SENT = 6,        // so many bytes of the room are the frame
    HEVRUKAN_PULSE = 7,       // HEVRUKAN_NORMAL or HEVRUKAN_ALARM
    HEVRUKAN_REFUSED = 8,     // document 01's refusal number, 1 to 12
    HEVRUKAN_OVERRUN = 9,
    HEVRUKAN_UNMATCHED = 10,
    HEVRUKAN_BADFRAME = 11,
    HEVRUKAN_IGNORED = 12,
    HEVRUKAN_WOKE = 13,
    HEVRUKAN_NOTSENT = 14,
    HEVRUKAN_WAITING = 15,    // the number of the locked buffer; the frame is stored there when it is released
    // What document 01 doesn't name. None of them changes a byte of the record or the room.
    HEVRUKAN_UNKNOWN = 64,    // a kind above 8, a value or identifier above 255, a sync or verdict above 1, a fault above 3,
                              // a buffer above 15, a waiting frame above 1
    HEVRUKAN_WRONG_SIZE = 65, // the size isn't hevrukan_size(): this header isn't that of the library
    HEVRUKAN_NO_FRAME = 66    // hevrukan_waiting: not so many frames wait
};

// The interrupt lines, as hevrukan_lines gives them.
enum hevrukan_line {
    HEVRUKAN_LINE_FIFO = 0x10,
    HEVRUKAN_LINE_RECEIVE = 0x08,
    HEVRUKAN_LINE_SYNC = 0x04,
    HEVRUKAN_LINE_XSYNC = 0x02,
    HEVRUKAN_LINE_GENERAL = 0x01
};

// The bytes of a record as the library has it: HEVRUKAN_SIZE, if header and library belong together.
size_t hevrukan_size(void);

// The version of the library, as a number like HEVRUKAN_VERSION.
uint32_t hevrukan_version(void);

// Makes the record that of a controller after reset, whatever it held, writing all its 296 bytes, and answers ok (0); wrong size, and
// nothing is written, if size isn't hevrukan_size().
uint32_t hevrukan_reset(struct hevrukan *c, size_t size);

// One step of any kind. In this order: wrong size, if size isn't hevrukan_size(); unknown, if document 01 has no such kind or
// number; then document 01's rules, its refusals first. A refused or ignored step changes neither record nor room. Any address
// above 0x5F, above 255 too, is refused (1). A frame of any length is taken: one whose length isn't the one that its second
// byte says is refused (11). Only the answer sent writes the room, so many of its bytes as the detail says.
uint32_t hevrukan_step(struct hevrukan *c, size_t size, uint32_t kind, uint32_t first, uint32_t second,
                       const uint8_t *frame, size_t frame_size, uint8_t *room, size_t room_size);

// The five interrupt lines, 0 to 31: see enum hevrukan_line. Wrong size, as an answer, if size isn't hevrukan_size().
uint32_t hevrukan_lines(const struct hevrukan *c, size_t size);

// What the record holds, without a lock and without a register call: nothing of it is changed, also while the module is asleep. The
// fourteen bytes (identifier, length byte, data 0 to 11) go to bytes[0] to bytes[13], whatever room is beyond; on any other answer
// than the first one named, no byte is written. room is how many bytes there are.

// What buffer n holds, 0 to 15: ok; else, in this order, wrong size; unknown, if n is above 15; refused (12), if room is below
// HEVRUKAN_ROOM. A FIFO buffer that holds no entry has the bytes of what it held last.
uint32_t hevrukan_buffer(const struct hevrukan *c, size_t size, uint32_t n, uint8_t *bytes, size_t room);

// The k-th frame that waits for a locked buffer, 0 the oldest, as it will be stored: waiting, the detail being the buffer; else, in
// this order, wrong size; unknown, if k is above 1; no frame, if not so many wait; refused (12), if room is below HEVRUKAN_ROOM.
//
//     uint8_t bytes[HEVRUKAN_ROOM];
//     for (uint32_t k = 0; hevrukan_word(answer = hevrukan_waiting(&c, sizeof c, k, bytes, sizeof bytes)) == HEVRUKAN_WAITING; k++)
//         printf("a frame of identifier %02X waits for buffer %u\n", bytes[0], hevrukan_detail(answer));
uint32_t hevrukan_waiting(const struct hevrukan *c, size_t size, uint32_t k, uint8_t *bytes, size_t room);

// The registers and bits by the manual's names; the bits' names, which are common words, after a BF_. Define HEVRUKAN_NO_NAMES
// before the include where another header has these names. The places of the bits are document 01's, which in $10 and $50 to $5F
// are not the chip's.
#ifndef HEVRUKAN_NO_NAMES

enum hevrukan_register {
    BFMCR = 0x00,     // module configuration
    BFFSIZR = 0x01,   // FIFO size
    BFTCR1 = 0x02,    // time configuration; these three only store
    BFTCR2 = 0x03,
    BFTCR3 = 0x04,
    BFRISR = 0x06,    // receive interrupt status
    BFGISR = 0x07,    // general interrupt status
    BFRIER = 0x08,    // receive interrupt enable
    BFGIER = 0x09,    // general interrupt enable
    BFRIVEC = 0x0A,   // receive interrupt vector: the lowest pending buffer, 0x10 for none
    BFTIVEC = 0x0B,   // transmit interrupt vector: the highest pending buffer, 0x10 for none
    BFFIDAC = 0x0C,   // FIFO identifier acceptance pattern
    BFFIDMR = 0x0D,   // its mask: a bit of 1 is not compared
    BFMVR = 0x0E,     // module version, 0
    BFPCTLBF = 0x10,  // port control
    BFBUFLOCK = 0x12, // buffer lock
    BFFIDRJ = 0x14,   // FIFO identifier rejection pattern
    BFFIDRMR = 0x15,  // its mask; 0xFF, as after reset, rejects none
    BFTIDENT = 0x20,  // the transmit window: the locked transmit buffer
    BFTLEN = 0x21,
    BFTDATA0 = 0x22,
    BFRIDENT = 0x30,  // the receive window: the locked receive buffer
    BFRLEN = 0x31,
    BFRDATA0 = 0x32,
    BFFIDENT = 0x40,  // the FIFO window: the locked oldest entry
    BFFLEN = 0x41,
    BFFDATA0 = 0x42,
    BFBUFCTL0 = 0x50  // message buffer control
};

// Data register n of a window, 0 to 11, and the control register of buffer n, 0 to 15. n is not looked at: BFTDATA(14) is 0x30, a receive
// register, and BFBUFCTL(-1) is 0x4F, a FIFO one. Where HEVRUKAN_CHECKED is defined before the include, GCC and Clang refuse a constant
// out of range ("size of array is negative"); a variable is not looked at there either, and #if takes the macros no more.
#if !defined(HEVRUKAN_CHECKED) || !defined(__GNUC__)
#define BFTDATA(n) (0x22 + (n))
#define BFRDATA(n) (0x32 + (n))
#define BFFDATA(n) (0x42 + (n))
#define BFBUFCTL(n) (0x50 + (n))
#else
#define BFTDATA(n) (0x22 + (n) + HEVRUKAN_IN_RANGE(n, 11))
#define BFRDATA(n) (0x32 + (n) + HEVRUKAN_IN_RANGE(n, 11))
#define BFFDATA(n) (0x42 + (n) + HEVRUKAN_IN_RANGE(n, 11))
#define BFBUFCTL(n) (0x50 + (n) + HEVRUKAN_IN_RANGE(n, 15))

// 0, or an error of the compiler if n is a constant and not 0 to last. n itself is evaluated by the sum alone.
#if defined(__cplusplus)
#define HEVRUKAN_IN_RANGE(n, last) (0 * (int)sizeof(char[__builtin_constant_p(n) && (unsigned long)(n) > (last) ? -1 : 1]))
#else
#define HEVRUKAN_IN_RANGE(n, last) \
    (0 * (int)sizeof(char[(unsigned long)__builtin_choose_expr(__builtin_constant_p(n), (n), 0) > (last) ? -1 : 1]))
#endif
#endif

enum hevrukan_bits {
    // BFMCR
    BF_INITRQ = 0x80,
    BF_MASTER = 0x40,
    BF_ALARM = 0x20,
    BF_SLPAK = 0x10, // asleep
    BF_SLPRQ = 0x08, // stands without SLPAK while a frame waits: the module works as awake
    BF_WPULSE = 0x04,
    BF_SSWAI = 0x02,
    BF_INITAK = 0x01,
    // BFRISR
    BF_RCVFIF = 0x80,
    BF_RXIF = 0x40,
    BF_SYNAIF = 0x20,
    BF_SYNNIF = 0x10,
    BF_SLMMIF = 0x08,
    BF_XSYNIF = 0x02,
    // BFGISR
    BF_TXIF = 0x80,
    BF_OVRNIF = 0x40,
    BF_ERRIF = 0x20,
    BF_SYNEIF = 0x10,
    BF_SYNLIF = 0x08,
    BF_ILLPIF = 0x04,
    BF_LOCKIF = 0x02,
    BF_WAKEIF = 0x01,
    // BFRIER
    BF_RCVFIE = BF_RCVFIF,
    BF_RXIE = BF_RXIF,
    BF_SYNAIE = BF_SYNAIF,
    BF_SYNNIE = BF_SYNNIF,
    BF_SLMMIE = BF_SLMMIF,
    BF_XSYNIE = BF_XSYNIF,
    // BFGIER
    BF_TXIE = BF_TXIF,
    BF_OVRNIE = BF_OVRNIF,
    BF_ERRIE = BF_ERRIF,
    BF_SYNEIE = BF_SYNEIF,
    BF_SYNLIE = BF_SYNLIF,
    BF_ILLPIE = BF_ILLPIF,
    BF_LOCKIE = BF_LOCKIF,
    BF_WAKEIE = BF_WAKEIF,
    // BFPCTLBF
    BF_BFEN = 0x80,
    // BFBUFLOCK
    BF_TXBUFLOCK = 0x02,
    BF_RXBUFLOCK = 0x01,
    // BFBUFCTL
    BF_CFG = 0x80, // 1: transmit
    BF_IENA = 0x40,
    BF_IFLG = 0x20, // written 1 outside initialization: "read" on a receive buffer, "send this" on a transmit buffer
    BF_LOCK = 0x10,
    BF_ABTRQ = 0x08,
    BF_ABTAK = 0x04
};

#endif

// Header and library belong together: the same version, and records of the same size. 1 or 0. A program that links the shared
// library asks once, before its first reset.
static inline int hevrukan_matches(void) {
    return hevrukan_version() == HEVRUKAN_VERSION && hevrukan_size() == HEVRUKAN_SIZE;
}

// The calls and events, one function each. Numbers are taken as uint32_t, so that one out of range is answered, not cut.

// A step that uses neither frame nor room.
static inline uint32_t hevrukan_plain_step(struct hevrukan *c, uint32_t kind, uint32_t first, uint32_t second) {
    const uint8_t no_frame[1] = {0};
    uint8_t no_room[1] = {0};
    return hevrukan_step(c, sizeof(struct hevrukan), kind, first, second, no_frame, 0, no_room, 0);
}

// Reads a register: read with its value, or refused (1 or 2). It never changes the record.
static inline uint32_t hevrukan_read(struct hevrukan *c, uint32_t address) {
    return hevrukan_plain_step(c, HEVRUKAN_KIND_READ, address, 0);
}

// Writes a register: ok, refused (1 to 10), or unknown for a value above 255. The write that releases a receive buffer stores the
// frames that wait for it, in order of arrival, and sets IFLG; if SLPRQ stood and no other frame waits, the module is then asleep.
static inline uint32_t hevrukan_write(struct hevrukan *c, uint32_t address, uint32_t value) {
    return hevrukan_plain_step(c, HEVRUKAN_KIND_WRITE, address, value);
}

// A sync pulse on the bus, HEVRUKAN_NORMAL or HEVRUKAN_ALARM: ok, ignored or woke.
static inline uint32_t hevrukan_sync(struct hevrukan *c, uint32_t pulse) {
    return hevrukan_plain_step(c, HEVRUKAN_KIND_SYNC, pulse, 0);
}

// The time at which a master emits its sync pulse: pulse with its kind, or ignored. It receives its own pulse as any sync.
static inline uint32_t hevrukan_sync_due(struct hevrukan *c) {
    return hevrukan_plain_step(c, HEVRUKAN_KIND_SYNC_DUE, 0, 0);
}

// The slot of an identifier: sent, the frame's bytes standing first in the room, or notsent, ignored; refused (12) if
// the room has fewer than HEVRUKAN_ROOM bytes. A null room is one of no bytes.
static inline uint32_t hevrukan_slot(struct hevrukan *c, uint32_t identifier, uint8_t *room, size_t room_size) {
    const uint8_t no_frame[1] = {0};
    uint8_t no_room[1] = {0};
    return hevrukan_step(c, sizeof(struct hevrukan), HEVRUKAN_KIND_SLOT, identifier, 0, no_frame, 0,
                         room ? room : no_room, room ? room_size : 0);
}

// A frame on the bus: identifier, length byte, data. verdict says whether its checksum and form were good. stored, queued, waiting,
// heldoff, overrun, unmatched, badframe, ignored, woke, or refused (11). The first six were looked up: hevrukan_looked says in how
// many buffers. A frame whose buffer is locked waits in one of two places, which all receive buffers share, until the buffer is
// released; with both taken it is held off, and lost. Entering initialization and reset empty the places. Of what its buffer held
// before, a stored or queued frame leaves nothing: the data registers behind its last byte read 0. A null frame is one of no bytes.
static inline uint32_t hevrukan_frame(struct hevrukan *c, uint32_t verdict, const uint8_t *frame, size_t frame_size) {
    const uint8_t no_frame[1] = {0};
    uint8_t no_room[1] = {0};
    return hevrukan_step(c, sizeof(struct hevrukan), HEVRUKAN_KIND_FRAME, verdict, 0,
                         frame ? frame : no_frame, frame ? frame_size : 0, no_room, 0);
}

// A fault that the bus shows, HEVRUKAN_EARLY, HEVRUKAN_LOST, HEVRUKAN_ILLEGAL or HEVRUKAN_MISMATCH: ok, ignored or woke.
static inline uint32_t hevrukan_fault(struct hevrukan *c, uint32_t fault) {
    return hevrukan_plain_step(c, HEVRUKAN_KIND_FAULT, fault, 0);
}

// The alarm's time is over: clears ALARM. ok or ignored.
static inline uint32_t hevrukan_timeout(struct hevrukan *c) {
    return hevrukan_plain_step(c, HEVRUKAN_KIND_TIMEOUT, 0, 0);
}

// An answer's word: see enum hevrukan_answer_word.
static inline uint32_t hevrukan_word(uint32_t answer) {
    return (answer >> 8) & 0xFF;
}

// An answer's detail.
static inline uint32_t hevrukan_detail(uint32_t answer) {
    return answer & 0xFF;
}

// How many dedicated receive buffers were examined for a frame's buffer, 0 to 16: those from FSIZ to its buffer, that one
// included, or all of them if none carries its identifier. 0 for a frame that is not looked up and for every other step.
static inline uint32_t hevrukan_looked(uint32_t answer) {
    return answer >> 16;
}

// The answer is a refusal; its detail is then the number. 1 or 0.
static inline int hevrukan_is_refused(uint32_t answer) {
    return hevrukan_word(answer) == HEVRUKAN_REFUSED;
}

// The word of a step's answer, as the report of a replay writes it. Never null; "no such word" for any other, HEVRUKAN_NO_FRAME too.
static inline const char *hevrukan_word_text(uint32_t word) {
    switch (word) {
    case HEVRUKAN_OK: return "ok";
    case HEVRUKAN_READ: return "read";
    case HEVRUKAN_STORED: return "stored";
    case HEVRUKAN_QUEUED: return "queued";
    case HEVRUKAN_HELDOFF: return "heldoff";
    case HEVRUKAN_SENT: return "sent";
    case HEVRUKAN_PULSE: return "pulse";
    case HEVRUKAN_REFUSED: return "refused";
    case HEVRUKAN_OVERRUN: return "overrun";
    case HEVRUKAN_UNMATCHED: return "unmatched";
    case HEVRUKAN_BADFRAME: return "badframe";
    case HEVRUKAN_IGNORED: return "ignored";
    case HEVRUKAN_WOKE: return "woke";
    case HEVRUKAN_NOTSENT: return "notsent";
    case HEVRUKAN_WAITING: return "waiting";
    case HEVRUKAN_UNKNOWN: return "unknown";
    case HEVRUKAN_WRONG_SIZE: return "wrong size";
    default: return "no such word";
    }
}

// A refusal's words, from document 01's table. Never null.
static inline const char *hevrukan_refusal_text(uint32_t number) {
    switch (number) {
    case 1: return "address above $5F";
    case 2: return "asleep, register call other than $00";
    case 3: return "write to $0A, $0B, $0E, $12, $40-$4D";
    case 4: return "write to $01-$04, $0C, $0D, $14, $15, $30-$3D outside initialization";
    case 5: return "write to a window with no holder";
    case 6: return "FSIZ above 16";
    case 7: return "the write changes the kind of a locked buffer";
    case 8: return "leaving initialization, unlawful layout";
    case 9: return "new LOCK on a FIFO buffer that isn't the oldest entry";
    case 10: return "new LOCK where the kind has holder and contender";
    case 11: return "frame slice not 2 + min(12, length's low four bits) bytes; any mode";
    case 12: return "room for a sent frame under 14 bytes; any mode";
    default: return "no such refusal";
    }
}

#ifdef __cplusplus
}
#endif

#endif
