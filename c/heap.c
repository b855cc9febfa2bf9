/* The heap of the library: the three functions by which its nodes take memory, change the size of a block and give it back.
 *
 * Each block is cleared before it is given back or moved, so that no key, no secret and no payload stays in memory that a node has let go of.
 * How many bytes are in use, and how many were at most, is counted: nzf_heap_used, nzf_heap_most.
 *
 * By default blocks come from malloc and free of the program. With NZF_POOL defined as a number of bytes they come from one array of that
 * size, by first fit, and malloc isn't called. The array is shared by all nodes, which one thread at a time may then use.
 *
 * A block has 16 bytes before it, for its size: each alignment that is asked for divides 16. */
#include <stdbool.h>
#include <stddef.h>
#include <stdint.h>
#include <string.h>

#include "nozzlefern_heap.h"

/* What the first two functions answer: whether there is memory, and the block. Where there is none the pointer points to a byte that is kept
 * here, and nothing may be read or written there. The nodes' sizes have 64 bits on each machine. */
typedef struct tried {
    bool ok;
    void *block;
} tried;

tried rattle_alloc(uint64_t size, uint64_t align);
tried rattle_realloc(void *block, uint64_t kept, uint64_t size, uint64_t align);
void rattle_dealloc(void *block);

#define HEAD 16

typedef struct head {
    size_t size; /* of the block, without its head */
    size_t used; /* of a pool: whether it is in use; else what malloc gave */
} head;

static char nowhere;

static size_t used_now;
static size_t used_most;

static tried no_memory(void) {
    tried none = {false, &nowhere};
    return none;
}

static head *head_of(void *block) { return (head *)(void *)((unsigned char *)block - HEAD); }

static void *block_of(head *it) { return (unsigned char *)(void *)it + HEAD; }

/* memset, which the compiler may not leave out though nobody reads what it writes. */
static void clear(void *from, size_t size) {
    memset(from, 0, size);
    __asm__ __volatile__("" : : "r"(from) : "memory");
}

static void count(size_t more, size_t less) {
    size_t now = __atomic_add_fetch(&used_now, more - less, __ATOMIC_RELAXED);
    size_t most = __atomic_load_n(&used_most, __ATOMIC_RELAXED);
    while (now > most && !__atomic_compare_exchange_n(&used_most, &most, now, true, __ATOMIC_RELAXED, __ATOMIC_RELAXED)) {
    }
}

size_t nzf_heap_used(void) { return __atomic_load_n(&used_now, __ATOMIC_RELAXED); }

size_t nzf_heap_most(void) { return __atomic_load_n(&used_most, __ATOMIC_RELAXED); }

/* Sizes are whole multiples of 16, so that each head is aligned. */
static size_t rounded(size_t size) { return size == 0 ? HEAD : (size + HEAD - 1) / HEAD * HEAD; }

#ifdef NZF_POOL

_Static_assert(NZF_POOL % HEAD == 0 && NZF_POOL >= 2 * HEAD, "NZF_POOL is a multiple of 16, and at least 32");

static union {
    unsigned char bytes[NZF_POOL];
    _Alignas(16) head first;
} pool;

static bool is_laid_out;

static head *after(head *it) { return (head *)(void *)((unsigned char *)block_of(it) + it->size); }

static bool is_end(const head *it) { return (const unsigned char *)(const void *)it == pool.bytes + NZF_POOL; }

/* Joins a free block with the free ones that follow it. */
static void join(head *it) {
    for (head *next = after(it); !is_end(next) && !next->used; next = after(it)) {
        it->size += HEAD + next->size;
    }
}

/* Leaves the block this size, and what is over as a free block where it has room for one. */
static void cut(head *it, size_t size) {
    if (it->size - size > HEAD) {
        size_t over = it->size - size - HEAD;
        it->size = size;
        head *rest = after(it);
        rest->size = over;
        rest->used = 0;
    }
}

static head *take(size_t size) {
    if (!is_laid_out) {
        pool.first.size = NZF_POOL - HEAD;
        pool.first.used = 0;
        is_laid_out = true;
    }
    for (head *it = &pool.first; !is_end(it); it = after(it)) {
        if (it->used) continue;
        join(it);
        if (it->size >= size) {
            cut(it, size);
            it->used = 1;
            return it;
        }
    }
    return NULL;
}

static void give_back(head *it) { it->used = 0; }

/* Grows or shrinks a block where it lies, if it can. */
static bool is_resized(head *it, size_t size) {
    size_t before = it->size;
    join(it);
    if (it->size < size) {
        cut(it, before);
        return false;
    }
    cut(it, size);
    return true;
}

#else

#include <stdlib.h>

/* How far malloc's blocks may be from an alignment of 16: with 32 bits by 8, else not at all. */
#define SLACK ((HEAD - _Alignof(max_align_t) % HEAD) % HEAD)

static head *take(size_t size) {
    unsigned char *given = malloc(HEAD + size + SLACK);
    if (given == NULL) return NULL;
    head *it = (head *)(void *)(given + (SLACK == 0 ? 0 : (HEAD - (uintptr_t)given % HEAD) % HEAD));
    it->size = size;
    if (SLACK != 0) it->used = (size_t)given;
    return it;
}

static void give_back(head *it) { free(SLACK == 0 ? (void *)it : (void *)it->used); }

static bool is_resized(head *it, size_t size) { return it->size == size; }

#endif

tried rattle_alloc(uint64_t size, uint64_t align) {
    (void)align;
    if (size > SIZE_MAX / 2) return no_memory();
    head *it = take(rounded((size_t)size));
    if (it == NULL) return no_memory();
    count(it->size, 0);
    tried made = {true, block_of(it)};
    return made;
}

tried rattle_realloc(void *block, uint64_t kept, uint64_t size, uint64_t align) {
    head *it = head_of(block);
    size_t before = it->size;
    size_t wanted = rounded((size_t)size);
    (void)align;
    if (size > SIZE_MAX / 2) return no_memory();
    if (wanted < before) clear((unsigned char *)block + wanted, before - wanted);
    if (is_resized(it, wanted)) {
        count(it->size, before);
        tried same = {true, block};
        return same;
    }
    head *moved = take(wanted);
    if (moved == NULL) {
        /* A block that should only shrink stays where it is. */
        tried same = {wanted <= before, wanted <= before ? block : &nowhere};
        return same;
    }
    memcpy(block_of(moved), block, (size_t)kept);
    count(moved->size, before);
    clear(block, before);
    give_back(it);
    tried made = {true, block_of(moved)};
    return made;
}

void rattle_dealloc(void *block) {
    head *it = head_of(block);
    count(0, it->size);
    clear(block, it->size);
    give_back(it);
}
