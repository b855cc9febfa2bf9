/* How many bytes of the heap a call holds, how many blocks it takes, and how deep a stack of its own it writes. The heap is counted by what was asked
   for: link with -Wl,--wrap=malloc,--wrap=realloc,--wrap=free, and with --wrap=calloc where that is called. */
#include <stddef.h>
#include <stdint.h>
#include <stdio.h>
#include <stdlib.h>
#include <string.h>

#if defined(__ARM_ARCH_PROFILE) && __ARM_ARCH_PROFILE == 'M'
#define IS_BARE
#else
#include <ucontext.h>
#endif

void *__real_malloc(size_t size);
void *__real_realloc(void *block, size_t size);
void __real_free(void *block);
void *__wrap_malloc(size_t size);
void *__wrap_realloc(void *block, size_t size);
void *__wrap_calloc(size_t count, size_t size);
void __wrap_free(void *block);

/* In front of each block: its size. */
typedef union {
    size_t size;
    max_align_t align;
} header;

/* Blocks: calls of malloc, of realloc without a block, and of realloc with one that has to grow. */
static size_t live, peak, blocks;

/* A block that would take what is held above this is refused. */
static size_t cap = SIZE_MAX;

#ifdef MARK
/* The block that is handed out where one of MARK bytes is taken: it isn't in the heap, so that taking it costs no more than what is done at the mark. */
static max_align_t mark_block[MARK / sizeof(max_align_t) + 1];
static void *at_mark(void);
#endif

#ifdef IS_BARE
enum { STACK = 1 << 20 };
#else
enum { STACK = 4 << 20 };
#endif

enum { PAINT = 0xa5 };
static uint8_t stack[STACK] __attribute__((aligned(64)));

/* How many blocks are taken when the stack is painted again, where that is asked. */
static size_t paint_at;

/* Paints what is free of the stack, from within a call; below the frame 128 bytes are left. */
static __attribute__((noinline)) void paint_again(void) {
    uint8_t *here = __builtin_frame_address(0);
    memset(stack, PAINT, (size_t)(here - stack) - 128);
}

void *__wrap_malloc(size_t size) {
#ifdef MARK
    if (size == MARK) return at_mark();
#endif
    if (size > cap || live > cap - size) return NULL;
    blocks++;
    if (blocks == paint_at) paint_again();
    header *block = __real_malloc(sizeof(header) + size);
    if (!block) return NULL;
    block->size = size;
    live += size;
    if (live > peak) peak = live;
    return block + 1;
}

void *__wrap_calloc(size_t count, size_t size) {
    void *block = __wrap_malloc(count * size);
    return block ? memset(block, 0, count * size) : NULL;
}

void __wrap_free(void *bytes) {
#ifdef MARK
    if (bytes == mark_block) return;
#endif
    if (!bytes) return;
    header *block = (header *)bytes - 1;
    live -= block->size;
    __real_free(block);
}

void *__wrap_realloc(void *bytes, size_t size) {
    if (!bytes) return __wrap_malloc(size);
    header *block = (header *)bytes - 1;
    size_t before = block->size;
    if (size > before && (size > cap || live - before > cap - size)) return NULL;
    block = __real_realloc(block, sizeof(header) + size);
    if (!block) return NULL;
    block->size = size;
    if (size > before) blocks++;
    /* While the bytes move, both blocks may be held. */
    if (live + size > peak) peak = live + size;
    live = live - before + size;
    return block + 1;
}

#ifdef IS_BARE

/* Calls it on the stack that ends there; no interrupt writes to it meanwhile. */
static __attribute__((naked, noinline)) void call_on(void *top, void (*of)(void)) {
    (void)top;
    (void)of;
    __asm__ volatile("push {r4, lr}\n mov r4, sp\n cpsid i\n mov sp, r0\n blx r1\n mov sp, r4\n cpsie i\n pop {r4, pc}");
}

#else

static ucontext_t outside, inside;
static void (*called)(void);

static void call(void) { called(); }

static void call_on(void *top, void (*of)(void)) {
    called = of;
    getcontext(&inside);
    inside.uc_stack.ss_sp = stack;
    inside.uc_stack.ss_size = (size_t)((uint8_t *)top - stack);
    inside.uc_link = &outside;
    makecontext(&inside, call, 0);
    swapcontext(&outside, &inside);
}

#endif

/* What a call left held, what it held at the most beyond what was held before, and how much of the stack it wrote. */
typedef struct {
    size_t left, most, deep;
} need;

static need need_of(void (*of)(void)) {
    memset(stack, PAINT, STACK);
    size_t before = live;
    peak = live;
    call_on(stack + STACK, of);
    size_t clean = 0;
    while (clean < STACK && stack[clean] == PAINT) clean++;
    need it = {live - before, peak - before, STACK - clean};
    return it;
}

static void nothing(void) {}

/* A line of the table; what the switch itself writes is taken off the stack. */
static need row(const char *what, void (*of)(void)) {
    size_t empty = need_of(nothing).deep;
    need it = need_of(of);
    printf("%-52s %8ld %8lu %8lu\n", what, (long)it.left, (unsigned long)it.most, (unsigned long)(it.deep - empty));
    return it;
}
