/* What lock.c asks of a board that has no system: a clock, a generator, and a radio. What stands here is for qemu's mps2-an386, whose debugger has the clock and
 * the generator, and whose first UART stands for the radio. Each function says what a board has to give in its place. */
#include <fcntl.h>
#include <time.h>
#include <unistd.h>

#include "start.h"

/* Milliseconds since 1970, which never fall. A board has a clock that was set, as by the network, before the first token comes; here the debugger tells the
 * time once, and SysTick counts on. */
static uint64_t now(void) {
    static uint64_t begun;
    if (begun == 0) begun = (uint64_t)time(NULL) * 1000 - milliseconds();
    return begun + milliseconds();
}

/* 32 bytes that nobody can guess, never twice the same. A board has a hardware generator, and stops where that gives none; nothing else may stand here. */
static nzf_draw draw(void) {
    static int generator = -1;
    nzf_draw it;
    if (generator < 0) generator = open("/dev/urandom", O_RDONLY);
    if (generator < 0 || read(generator, it.bytes, sizeof it.bytes) != (int)sizeof it.bytes) fail("draw", "there is no generator");
    return it;
}

/* ---- the radio. A board hands over what its network stack has for this port; here a datagram is a frame on the UART: the address, the zone, the port and the
 * length, each with its first byte first, and the bytes. */

#define UART ((volatile uint32_t *)0x40004000)

enum { DATA, STATE, CONTROL, DIVIDER = 4, IS_FULL_OUT = 1, IS_FULL_IN = 2, FRAME = 24 };

static void listen_on(uint16_t port) {
    (void)port;
    UART[DIVIDER] = 16;
    UART[CONTROL] = 3;
}

static void put_byte(uint8_t it) {
    while (UART[STATE] & IS_FULL_OUT) {
    }
    UART[DATA] = it;
}

static uint8_t get_byte(void) {
    while (!(UART[STATE] & IS_FULL_IN)) {
    }
    return (uint8_t)UART[DATA];
}

static void put_number(uint32_t it, int bytes) {
    while (bytes-- > 0) put_byte((uint8_t)(it >> 8 * bytes));
}

static uint32_t get_number(int bytes) {
    uint32_t it = 0;
    while (bytes-- > 0) it = it << 8 | get_byte();
    return it;
}

static void send_one(const nzf_peer *to, const uint8_t *bytes, nzf_size length) {
    for (size_t at = 0; at < sizeof to->bytes; at++) put_byte(to->bytes[at]);
    put_number(to->scope, 4);
    put_number(to->port, 2);
    put_number((uint32_t)length, 2);
    for (size_t at = 0; at < length; at++) put_byte(bytes[at]);
}

/* Sleeps until a datagram comes, so many milliseconds at most. A board wakes by its radio's interrupt, too; here SysTick wakes it each millisecond. */
static int wait_for_one(uint64_t most) {
    uint64_t end = milliseconds() + most;
    while (!(UART[STATE] & IS_FULL_IN)) {
        if (milliseconds() >= end) return 0;
        __asm__ volatile("wfi");
    }
    return 1;
}

static int take_one(uint8_t *bytes, size_t room, nzf_size *length, nzf_peer *from) {
    for (size_t at = 0; at < sizeof from->bytes; at++) from->bytes[at] = get_byte();
    from->scope = get_number(4);
    from->port = (uint16_t)get_number(2);
    *length = get_number(2);
    for (size_t at = 0; at < *length; at++) {
        uint8_t it = get_byte();
        if (at < room) bytes[at] = it;
    }
    return *length <= room;
}
