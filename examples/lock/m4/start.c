/* What a Cortex-M4 does before main: the vectors, the data, and milliseconds. Words for main come from the debugger (semihosting), as a test has them; a board
 * has none. */
#include <stddef.h>
#include <stdint.h>
#include <stdlib.h>

#include "start.h"

extern uint32_t data_begins, data_ends, data_in_flash, bss_begins, bss_ends, end, heap_ends, stack_top;

int main(int count, char **words);
void initialise_monitor_handles(void); /* of newlib's librdimon: standard output by semihosting */
void reset(void);
void _init(void);
void _fini(void);

/* ---- milliseconds since the reset, counted by SysTick */

#define SYSTICK ((volatile uint32_t *)0xe000e010)

enum { CLOCK_HZ = 25000000 };

static volatile uint32_t low, high;

static void on_systick(void) {
    if (++low == 0) high++;
}

uint64_t milliseconds(void) {
    uint32_t upper, lower;
    do {
        upper = high;
        lower = low;
    } while (upper != high);
    return (uint64_t)upper << 32 | lower;
}

static void count_milliseconds(void) {
    SYSTICK[1] = CLOCK_HZ / 1000 - 1;
    SYSTICK[2] = 0;
    SYSTICK[0] = 7;
}

/* ---- the words */

static int ask_debugger(int what, void *with) {
    register int r0 __asm__("r0") = what;
    register void *r1 __asm__("r1") = with;
    __asm__ volatile("bkpt 0xab" : "+r"(r0) : "r"(r1) : "memory");
    return r0;
}

enum { GET_COMMAND_LINE = 0x15, MOST_WORDS = 16 };

static char line[256];
static char *words[MOST_WORDS + 1];

static int read_words(void) {
    struct {
        char *line;
        int length;
    } asked = {line, sizeof line - 1};
    int count = 0;
    if (ask_debugger(GET_COMMAND_LINE, &asked) != 0) return 0;
    for (char *at = line; *at != '\0' && count < MOST_WORDS;) {
        words[count++] = at;
        while (*at != '\0' && *at != ' ') at++;
        if (*at == ' ') *at++ = '\0';
    }
    return count;
}

/* ---- what malloc of newlib takes: all between the data and 64 KB of stack. The nodes of the lock take none of it. */

void *_sbrk(ptrdiff_t more);

void *_sbrk(ptrdiff_t more) {
    static unsigned char *free_from = (unsigned char *)&end;
    unsigned char *before = free_from;
    if (more > (unsigned char *)&heap_ends - before) return (void *)-1;
    free_from += more;
    return before;
}

/* ---- the beginning */

void reset(void) {
    const uint32_t *from = &data_in_flash;
    for (uint32_t *to = &data_begins; to < &data_ends;) *to++ = *from++;
    for (uint32_t *to = &bss_begins; to < &bss_ends;) *to++ = 0;
    initialise_monitor_handles();
    count_milliseconds();
    exit(main(read_words(), words));
}

/* (newlib calls these at its beginning and its end) */
void _init(void) {}
void _fini(void) {}

static void fault(void) {
    ask_debugger(0x20, (uint32_t[]){0x20023, 125});
    for (;;) {
    }
}

__attribute__((section(".vectors"), used)) static const void *const VECTORS[] = {
    &stack_top, (void *)reset, (void *)fault, (void *)fault, (void *)fault, (void *)fault, (void *)fault, 0, 0, 0, 0,
    (void *)fault, 0, 0, (void *)fault, (void *)on_systick,
};
