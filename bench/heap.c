/* Tries c/heap.c alone: random blocks that are taken, resized and given back, each with its own pattern, by the pool or by malloc. */
#include <assert.h>
#include <stdbool.h>
#include <stdint.h>
#include <stdio.h>
#include <stdlib.h>
#include <string.h>

#include "nozzlefern_heap.h"

typedef struct tried { bool ok; void *block; } tried;
tried rattle_alloc(size_t size, size_t align);
tried rattle_realloc(void *block, size_t kept, size_t size, size_t align);
void rattle_dealloc(void *block);

#define BLOCKS 64

static uint32_t state = 1;

static uint32_t drawn(void) {
    state = state * 1664525 + 1013904223;
    return state >> 8;
}

static void fill(unsigned char *block, size_t from, size_t size, unsigned char with) { memset(block + from, with, size - from); }

static void look(const unsigned char *block, size_t size, unsigned char with) {
    for (size_t i = 0; i < size; i++) assert(block[i] == with);
}

int main(void) {
    unsigned char *blocks[BLOCKS] = {0};
    size_t sizes[BLOCKS] = {0};
    unsigned refused = 0;
    for (int round = 0; round < 1000000; round++) {
        unsigned which = drawn() % BLOCKS;
        unsigned char with = (unsigned char)(which + 1);
        if (blocks[which] == NULL) {
            size_t size = drawn() % 1500;
            tried made = rattle_alloc(size, 16);
            if (!made.ok) { refused++; continue; }
            assert((uintptr_t)made.block % 16 == 0);
            blocks[which] = made.block;
            sizes[which] = size;
            fill(blocks[which], 0, size, with);
        } else if (drawn() % 3 == 0) {
            size_t size = drawn() % 1500;
            size_t kept = size < sizes[which] ? size : sizes[which];
            tried made = rattle_realloc(blocks[which], kept, size, 16);
            if (!made.ok) { refused++; look(blocks[which], kept, with); continue; }
            assert((uintptr_t)made.block % 16 == 0);
            look(made.block, kept, with);
            blocks[which] = made.block;
            sizes[which] = size;
            fill(blocks[which], kept, size, with);
        } else {
            look(blocks[which], sizes[which], with);
            rattle_dealloc(blocks[which]);
            blocks[which] = NULL;
        }
    }
    for (int i = 0; i < BLOCKS; i++) if (blocks[i] != NULL) { look(blocks[i], sizes[i], (unsigned char)(i + 1)); rattle_dealloc(blocks[i]); }
    assert(nzf_heap_used() == 0);
    printf("heap: 1,000,000 blocks taken, resized and given back; %u refused; at most %zu bytes\n", refused, nzf_heap_most());
    return 0;
}
