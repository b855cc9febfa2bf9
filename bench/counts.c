/* Calls one function of osc_bench so many times: `counts NAME ROUNDS SIZE`, for `bench/run counts`. */
#include <stddef.h>
#include <stdint.h>
#include <stdio.h>
#include <stdlib.h>
#include <string.h>

uint64_t osc_bench_serve(uint16_t resources, uint32_t apart, const uint8_t *datagram, size_t length, uint64_t rounds);
uint64_t osc_bench_repeat(const uint8_t *datagram, size_t length, uint64_t rounds);
uint64_t osc_bench_serve_gets(uint8_t contexts, uint16_t rounds);
uint64_t osc_bench_serve_posts(uint8_t contexts, uint16_t rounds);
uint64_t osc_bench_serve_forged(uint16_t rounds);
uint64_t osc_bench_ask(uint64_t rounds);
uint64_t osc_bench_post(uint8_t others, uint64_t rounds);
uint64_t osc_bench_flood_valid(uint16_t number, uint8_t *out, size_t room);
uint64_t osc_bench_hear_full(const uint8_t *datagram, size_t length, uint32_t rounds);

/* A confirmable GET of /r000, and of /r999; each is open. */
static const uint8_t FIRST[] = {0x44, 0x01, 0x00, 0x01, 1, 2, 3, 4, 0xb4, 'r', '0', '0', '0'};
static const uint8_t LATE[] = {0x44, 0x01, 0x00, 0x01, 1, 2, 3, 4, 0xb4, 'r', '9', '9', '9'};

/* A full server with a revocation path hears a post: of a token of this number, as bench/shapes.h has it. */
static uint64_t full(uint16_t number, uint32_t rounds) {
    uint8_t post[1152];
    return osc_bench_hear_full(post, osc_bench_flood_valid(number, post, sizeof post), rounds);
}

/* How many bytes were sent; 0 where the call did not do what it was to do, or has no such name. */
static uint64_t called(const char *name, uint16_t rounds, uint16_t size) {
    if (strcmp(name, "first") == 0) return osc_bench_serve(size, 1, FIRST, sizeof FIRST, rounds);
    if (strcmp(name, "late") == 0) return osc_bench_serve(size, 1, LATE, sizeof LATE, rounds);
    if (strcmp(name, "repeat") == 0) return osc_bench_repeat(FIRST, sizeof FIRST, rounds);
    if (strcmp(name, "gets") == 0) return osc_bench_serve_gets((uint8_t)size, rounds);
    if (strcmp(name, "posts") == 0) return osc_bench_serve_posts((uint8_t)size, rounds);
    if (strcmp(name, "forged") == 0) return osc_bench_serve_forged(rounds);
    if (strcmp(name, "ask") == 0) return osc_bench_ask(rounds);
    if (strcmp(name, "token") == 0) return osc_bench_post((uint8_t)size, rounds);
    if (strcmp(name, "full") == 0) return full(size, rounds);
    return 0;
}

int main(int count, char **words) {
    if (count != 4) {
        fprintf(stderr, "counts: say counts NAME ROUNDS SIZE\n");
        return 2;
    }
    if (called(words[1], (uint16_t)atoi(words[2]), (uint16_t)atoi(words[3])) == 0) {
        fprintf(stderr, "counts: %s did not do what it was to do\n", words[1]);
        return 1;
    }
    return 0;
}
