/* What a call of `on_datagram` takes, of one datagram that a node of osc_bench hears again and again. Link with -Wl,--wrap=malloc,--wrap=free: the library
   takes a block of one size where a call begins and where it ends, and nowhere else. */
#include <stddef.h>
#include <stdint.h>
#include <stdio.h>
#include <stdlib.h>
#include <string.h>
#include <time.h>

uint64_t osc_bench_flood_valid(uint16_t number, uint8_t *out, size_t room);
uint64_t osc_bench_hear_server(const uint8_t *datagram, size_t length, uint32_t rounds);
uint64_t osc_bench_hear_full(const uint8_t *datagram, size_t length, uint32_t rounds);
uint64_t osc_bench_hear_client(uint8_t asks, const uint8_t *datagram, size_t length, uint32_t rounds);
uint64_t osc_bench_hear_holder(const uint8_t *text, size_t length, uint32_t rounds);
uint64_t osc_bench_hear_proxy(uint8_t open, uint8_t from, const uint8_t *datagram, size_t length, uint32_t rounds);

void *__real_malloc(size_t size);
void __real_free(void *block);
void *__wrap_malloc(size_t size);
void __wrap_free(void *block);

/* No call may take more than so many times the median of an open GET, the first one of its resource. */
enum { TIMES = 30 };

/* The most bytes of a datagram; the size of the block that marks; the most rounds of one measurement. */
enum { LIMIT = 1152, MARK = 65521, MOST_ROUNDS = 1000 };

/* Who hears. A holder's bytes are the text that is sealed in its request. The proxy has 63 exchanges open where somebody else sends, and 64 where its target does. */
enum { SERVER, FULL, HOLDER, CLIENT_POST, CLIENT_ASK, PROXY, TARGET, EARS };

static const char *const WHO[EARS] = {
    "Server::on_datagram",
    "Server::on_datagram, of a server with a revocation path, 1,024 resources and 128 contexts",
    "Server::on_datagram, from the holder of a token, who seals this text",
    "Client::on_datagram, from its server, while a post of its token waits",
    "Client::on_datagram, from its server, while a request waits",
    "Proxy::on_datagram, from a client",
    "Proxy::on_datagram, from its target",
};

static uint64_t nanoseconds(void) {
    struct timespec now;
    clock_gettime(CLOCK_MONOTONIC, &now);
    return (uint64_t)now.tv_sec * 1000000000u + (uint64_t)now.tv_nsec;
}

/* What is counted of a call: by itself nanoseconds. */
static uint64_t (*count_now)(void) = nanoseconds;

/* What a count before and one after nothing differ by: it is taken off. */
static uint64_t overhead;

/* The least count of each call of a measurement. */
static uint32_t least[MOST_ROUNDS];
static size_t marks;
static uint64_t began;

/* The block that is handed out at a mark: it isn't in the heap, so that taking it costs no more than the count. */
static max_align_t mark_block[MARK / sizeof(max_align_t) + 1];

static void *at_mark(void) {
    uint64_t now = count_now();
    if (marks % 2 == 1 && marks / 2 < MOST_ROUNDS) {
        uint64_t taken = now - began;
        taken = taken > overhead ? taken - overhead : 0;
        if (taken < least[marks / 2]) least[marks / 2] = taken < UINT32_MAX ? (uint32_t)taken : UINT32_MAX;
    }
    marks++;
    began = count_now();
    return mark_block;
}

void *__wrap_malloc(size_t size) { return size == MARK ? at_mark() : __real_malloc(size); }

void __wrap_free(void *block) {
    if (block != mark_block) __real_free(block);
}

static void find_overhead(void) {
    overhead = UINT64_MAX;
    for (int i = 0; i < 100000; i++) {
        uint64_t start = count_now();
        uint64_t taken = count_now() - start;
        if (taken < overhead) overhead = taken;
    }
}

static uint64_t heard(int ear, const uint8_t *datagram, size_t length, uint32_t rounds) {
    switch (ear) {
    case SERVER: return osc_bench_hear_server(datagram, length, rounds);
    case FULL: return osc_bench_hear_full(datagram, length, rounds);
    case HOLDER: return osc_bench_hear_holder(datagram, length, rounds);
    case CLIENT_POST: return osc_bench_hear_client(0, datagram, length, rounds);
    case CLIENT_ASK: return osc_bench_hear_client(1, datagram, length, rounds);
    case PROXY: return osc_bench_hear_proxy(63, 200, datagram, length, rounds);
    default: return osc_bench_hear_proxy(64, 255, datagram, length, rounds);
    }
}

/* So many calls, in so many runs: `least` has of each call the least of its runs. Answers the code that the last one was answered, or 256 for none. */
static uint64_t measure(int ear, const uint8_t *datagram, size_t length, uint32_t rounds, int runs) {
    uint64_t code = 0;
    memset(least, 0xff, sizeof least);
    for (int run = 0; run < runs; run++) {
        marks = 0;
        code = heard(ear, datagram, length, rounds);
        if (code >= 1000 || marks != 2 * (size_t)rounds) {
            fprintf(stderr, "a node didn't hear each datagram: there is no memory\n");
            exit(2);
        }
    }
    return code;
}

static int compare(const void *one, const void *other) {
    uint32_t a = *(const uint32_t *)one, b = *(const uint32_t *)other;
    return (a > b) - (a < b);
}

/* Of so many counts, which are sorted here: the one in the middle, and the greatest. */
typedef struct {
    uint32_t median, most;
} count;

static count counted(uint32_t rounds) {
    qsort(least, rounds, sizeof least[0], compare);
    return (count){least[rounds / 2], least[rounds - 1]};
}

/* A confirmable GET of the server's open resource, as libcoap would write it. */
static const uint8_t OPEN_GET[] = {0x44, 0x01, 0x00, 0x01, 1, 2, 3, 4, 0xb4, 'r', '0', '0', '0'};

/* Measures it as `measure` does: each is the first GET of its server's resource, for which an ETag is computed. */
static void measure_get(uint32_t rounds, int runs) {
    static uint32_t taken[MOST_ROUNDS];
    for (uint32_t i = 0; i < rounds; i++) {
        measure(SERVER, OPEN_GET, sizeof OPEN_GET, 1, runs);
        taken[i] = least[0];
    }
    memcpy(least, taken, sizeof taken[0] * rounds);
}

enum { CODE_TEXT = 16 };

/* What a call was answered, as 4.00. */
static const char *code_text(uint64_t code, char text[CODE_TEXT]) {
    if (code > 255) return "nothing";
    if (code == 0) return "empty";
    snprintf(text, CODE_TEXT, "%u.%02u", (unsigned)(code >> 5), (unsigned)(code & 31));
    return text;
}
