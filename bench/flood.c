/* Floods nodes with a million datagrams each, by osc_bench: 200,000 of each kind at a node of its own. It sees where a call of `on_datagram` begins and ends by
   blocks of one size, which the library takes there and nowhere else. Of each kind it prints what the node held and what its calls took, and ends with
   status 1 where a node holds more than its limit, one of the million calls takes more than 100 times their median, a client isn't served behind the flood,
   or a proxy isn't free again. Where most datagrams of a kind are dropped at their first bytes, calls above 100 times that kind's own median are counted
   beside it.

   Each flood is run several times, and a call's time is the least of these runs, since other work on the machine stops one run here and another there. */
#define MARK 65521
#include "measured.h"

#include <time.h>

uint64_t osc_bench_flood_valid(uint16_t number, uint8_t *out, size_t room);
uint64_t osc_bench_flood_server(const uint8_t *flood, size_t length, uint32_t count);
uint64_t osc_bench_flood_proxy(uint8_t open, const uint8_t *flood, size_t length, uint32_t count);

enum { COUNT = 200000, KINDS = 5, RUNS = 5, LIMIT = 1152, TOKENS = 1000, TIMES = 100 };

/* ---- limits, in bytes, none above the figures of docs/LIBRARY.md */

/* What a node sends has at most LIMIT bytes, and so has what it keeps for a repeat; 64 are kept. */
enum { REPEATS = 64 * LIMIT };

/* A server, one open resource of four bytes, and two contexts of each of 64 token ids. */
enum { SERVER_LIMIT = 18177 + 160 + 128 * 665 + REPEATS };

/* A proxy, 64 exchanges, and the messages that may be open to one target and to the peers of these exchanges: 17 and 64. */
enum { PROXY_LIMIT = 105345 + 104 + 63 * 24 + (17 + 64) * LIMIT + REPEATS };

/* ---- the marks */

/* What the marks of one flood tell: the first comes before the node, and two behind it. */
static struct {
    size_t marks, base, start, most_between, most_within, behind, end;
    uint64_t began;
} flood_now;

/* The least time of each call of a kind, and then of all kinds at one node, in ns. */
static uint32_t least[COUNT], all[KINDS * COUNT];
static size_t all_count;
static int first_run;

static uint64_t nanoseconds(void) {
    struct timespec now;
    clock_gettime(CLOCK_MONOTONIC, &now);
    return (uint64_t)now.tv_sec * 1000000000u + (uint64_t)now.tv_nsec;
}

static void *at_mark(void) {
    uint64_t now = nanoseconds();
    size_t mark = flood_now.marks++;
    size_t held = live - flood_now.base;
    if (mark == 0) {
        flood_now.base = live;
    } else if (mark <= 2 * COUNT) {
        size_t call = (mark - 1) / 2;
        if (mark % 2 == 1) {
            /* A call begins. */
            if (call == 0) flood_now.start = held;
            if (held > flood_now.most_between) flood_now.most_between = held;
            peak = live;
            flood_now.began = nanoseconds();
        } else {
            uint64_t taken = now - flood_now.began;
            if (taken > UINT32_MAX) taken = UINT32_MAX;
            if (first_run || taken < least[call]) least[call] = (uint32_t)taken;
            if (peak - flood_now.base > flood_now.most_within) flood_now.most_within = peak - flood_now.base;
        }
    } else if (mark == 2 * COUNT + 1) {
        flood_now.behind = held;
        if (held > flood_now.most_between) flood_now.most_between = held;
    } else {
        flood_now.end = held;
    }
    return mark_block;
}

/* ---- the datagrams */

/* A generator with a seed of its own for each kind (xorshift64*). */
static uint64_t state;

static uint32_t drawn(void) {
    state ^= state >> 12;
    state ^= state << 25;
    state ^= state >> 27;
    return (uint32_t)((state * 0x2545f4914f6cdd1du) >> 32);
}

static uint32_t below(uint32_t bound) { return (uint32_t)(((uint64_t)drawn() * bound) >> 32); }

/* A flood: each datagram behind a byte that says who sends, and its length. */
static uint8_t *flood;
static size_t flood_length;

enum { TARGET = 255 };

static void add(uint8_t from, const uint8_t *bytes, size_t length) {
    uint8_t *at = flood + flood_length;
    at[0] = from;
    at[1] = (uint8_t)(length >> 8);
    at[2] = (uint8_t)length;
    memcpy(at + 3, bytes, length);
    flood_length += 3 + length;
}

static uint8_t anyone(void) { return (uint8_t)below(TARGET); }

static void fill(uint8_t *bytes, size_t length) {
    for (size_t i = 0; i < length; i++) bytes[i] = (uint8_t)drawn();
}

/* Mostly short, and up to what a datagram may have and some more. */
static size_t any_length(void) { return below(8) ? below(64) : below(LIMIT + 49); }

static uint8_t request[LIMIT];
static size_t request_length;
static uint8_t posts[TOKENS][256];
static size_t post_lengths[TOKENS];

/* A confirmable GET of the server's open resource, and one that a proxy forwards, as libcoap would write them. */
static const uint8_t GET[] = {0x44, 0x01, 0x00, 0x01, 1, 2, 3, 4, 0xb4, 'r', '0', '0', '0'};
static const uint8_t PROXIED[] = {0x44, 0x01, 0x00, 0x01, 1, 2, 3, 4, 0x31, 's', 0x81, 'e', 0xd4, 0x0f, 'c', 'o', 'a', 'p'};
static const uint8_t PROXY_URI[] = {0x44, 0x01, 0x00, 0x01, 1, 2, 3, 4, 0xdd, 0x16, 0x01, 'c', 'o', 'a', 'p', ':', '/', '/', 's', ':', '5', '6', '8', '3', '/', 'e'};

/* A message ID of its own, as far as there are so many. */
static void number(uint8_t *datagram, uint32_t place) {
    datagram[2] = (uint8_t)(place >> 8);
    datagram[3] = (uint8_t)place;
}

/* One to four changes: a bit, a byte, a byte more or less, or an end. Message IDs are new, so that few are repeats. */
static size_t mutate(uint8_t *bytes, size_t length, uint32_t place) {
    if (length >= 4) number(bytes, place);
    for (uint32_t changes = 1 + below(4); changes > 0 && length > 0; changes--) {
        size_t at = below((uint32_t)length);
        switch (below(5)) {
        case 0: bytes[at] ^= (uint8_t)(1 << below(8)); break;
        case 1: bytes[at] = (uint8_t)drawn(); break;
        case 2: memmove(bytes + at, bytes + at + 1, length - at - 1); length--; break;
        case 3:
            if (length < LIMIT) {
                memmove(bytes + at + 1, bytes + at, length - at);
                bytes[at] = (uint8_t)drawn();
                length++;
            }
            break;
        default: length = at; break;
        }
    }
    return length;
}

static void random_one(uint32_t place) {
    uint8_t bytes[LIMIT + 49];
    size_t length = any_length();
    (void)place;
    fill(bytes, length);
    /* Half of them have the version that there is, so that more is read of them. */
    if (length > 0 && below(2)) bytes[0] = (uint8_t)(0x40 | (bytes[0] & 0x3f));
    add(anyone(), bytes, length);
}

static void mutated_for_server(uint32_t place) {
    uint8_t bytes[LIMIT + 4];
    size_t length;
    switch (below(3)) {
    case 0: memcpy(bytes, GET, length = sizeof GET); break;
    case 1: memcpy(bytes, request, length = request_length); break;
    default: {
        size_t token = below(TOKENS);
        memcpy(bytes, posts[token], length = post_lengths[token]);
    }
    }
    add(anyone(), bytes, mutate(bytes, length, place));
}

/* The client's second request under another Partial IV of one to five bytes, with a ciphertext of random bytes: it names the client's context. */
static void forged(uint32_t place) {
    uint8_t bytes[LIMIT] = {0x44, 0x02, 0, 0, 1, 2, 3, 4};
    number(bytes, place);
    size_t iv = 1 + below(5), kid = 1, text = 9 + below(below(16) ? 64 : 1024), at = 8;
    bytes[at++] = (uint8_t)(0x90 | (1 + iv + kid));
    bytes[at++] = (uint8_t)(0x08 | iv);
    fill(bytes + at, iv);
    at += iv;
    /* Another number than those that the client uses. */
    bytes[at - 1] |= 0x80;
    bytes[at++] = 1;
    bytes[at++] = 0xff;
    fill(bytes + at, text);
    add(anyone(), bytes, at + text);
}

/* The post of a token, of whose ciphertext and tag one bit is turned over. */
static void bad_token(uint32_t place) {
    uint8_t bytes[256];
    size_t token = below(TOKENS), length = post_lengths[token];
    memcpy(bytes, posts[token], length);
    number(bytes, place);
    /* The token begins behind the header, the options and the map's first key; its last 40 bytes at least are ciphertext. */
    bytes[60 + below(16)] ^= (uint8_t)(1 << below(8));
    add(anyone(), bytes, length);
}

static void good_token(uint32_t place) {
    uint8_t bytes[256];
    size_t token = 1 + below(TOKENS - 1), length = post_lengths[token];
    memcpy(bytes, posts[token], length);
    number(bytes, place);
    add(anyone(), bytes, length);
}

static void mutated_for_proxy(uint32_t place) {
    uint8_t bytes[LIMIT + 4];
    size_t length;
    if (below(2)) {
        memcpy(bytes, PROXIED, length = sizeof PROXIED);
    } else {
        memcpy(bytes, PROXY_URI, length = sizeof PROXY_URI);
    }
    add(anyone(), bytes, mutate(bytes, length, place));
}

static void empty(uint8_t type, uint8_t from) {
    uint8_t bytes[4] = {type, 0, (uint8_t)drawn(), (uint8_t)drawn()};
    add(from, bytes, sizeof bytes);
}

/* A response, piggybacked, separate or not confirmable, with a token of up to 8 bytes. */
static void response(uint8_t from) {
    uint8_t bytes[LIMIT] = {0};
    size_t token = below(9), text = below(below(16) ? 64 : 1024);
    bytes[0] = (uint8_t)(0x40 | (below(3) << 4) | token);
    bytes[1] = below(4) ? 0x45 : (uint8_t)(0x40 | below(0xc0));
    fill(bytes + 2, 2 + token);
    bytes[4 + token] = 0xff;
    fill(bytes + 5 + token, text);
    add(from, bytes, text == 0 ? 4 + token : 5 + token + text);
}

static void settling(uint8_t from) {
    switch (below(3)) {
    case 0: empty(0x60, from); break;
    case 1: empty(0x70, from); break;
    default: response(from);
    }
}

static void from_anyone(uint32_t place) {
    (void)place;
    settling(anyone());
}

static void from_target(uint32_t place) {
    (void)place;
    settling(TARGET);
}

/* Requests that are forwarded, as long as there is room. */
static void forwarded(uint32_t place) {
    uint8_t bytes[sizeof PROXIED];
    memcpy(bytes, PROXIED, sizeof PROXIED);
    if (below(2)) bytes[0] |= 0x10;
    number(bytes, place);
    add(anyone(), bytes, sizeof PROXIED);
}

/* ---- what was found */

static int failed;

static void must(int holds, const char *what) {
    if (!holds) {
        failed = 1;
        printf("    %s\n", what);
    }
}

static int compare(const void *one, const void *other) {
    uint32_t a = *(const uint32_t *)one, b = *(const uint32_t *)other;
    return (a > b) - (a < b);
}

/* What two clocks in a row take: it is taken off. */
static uint32_t clock_ns(void) {
    uint32_t best = UINT32_MAX;
    for (int i = 0; i < 100000; i++) {
        uint64_t start = nanoseconds();
        uint64_t taken = nanoseconds() - start;
        if (taken < best) best = (uint32_t)taken;
    }
    return best;
}

static uint32_t overhead;

static uint32_t less(uint32_t taken) { return taken > overhead ? taken - overhead : 0; }

/* Prints what these calls took: the median, what one in 100 and one in 1,000 reach, the greatest, and how many are above 100 times the median. Answers the last. */
static size_t times_of(uint32_t *taken, size_t count) {
    qsort(taken, count, sizeof taken[0], compare);
    uint32_t median = less(taken[count / 2]);
    size_t above = 0;
    while (above < count && less(taken[count - 1 - above]) > (uint64_t)TIMES * median) above++;
    printf(" %6u %6u %6u %7u %6zu", median, less(taken[count - count / 100]), less(taken[count - count / 1000]), less(taken[count - 1]), above);
    return above;
}

/* The row of all calls at one node. */
static void row_of_all(void) {
    printf("%-80s ", "all of them");
    size_t above = times_of(all, all_count);
    printf("\n");
    must(above == 0, "calls take more than 100 times the median");
    all_count = 0;
}

typedef uint64_t (*flooded)(void);

static void flood_row(const char *name, uint64_t seed, void (*one)(uint32_t place), flooded run, size_t limit, int is_proxy, uint64_t least_open, uint64_t most_open) {
    state = seed;
    flood_length = 0;
    for (uint32_t place = 0; place < COUNT; place++) one(place);
    uint64_t told = 0;
    for (int i = 0; i < RUNS; i++) {
        memset(&flood_now, 0, sizeof flood_now);
        first_run = i == 0;
        told = run();
        if (flood_now.marks != 2 * COUNT + 3) {
            fprintf(stderr, "flood: %s: %zu marks\n", name, flood_now.marks);
            exit(1);
        }
    }
    memcpy(all + all_count, least, sizeof least);
    all_count += COUNT;
    printf("%-40s %7zu %7zu %7zu %7zu %7zu ", name, flood_now.start, flood_now.most_between, flood_now.most_within, flood_now.behind, flood_now.end);
    times_of(least, COUNT);
    printf(" %6llu\n", (unsigned long long)told);
    must(flood_now.most_within <= limit, "it holds more than its limit");
    if (is_proxy) {
        must(told >= least_open && told <= most_open, "it had other exchanges open behind the flood, or isn't free again behind its deadlines");
        must(live == flood_now.base, "it doesn't give everything back");
    } else {
        must(told > 0, "the client isn't served behind the flood");
    }
}

static uint64_t at_server(void) { return osc_bench_flood_server(flood, flood_length, COUNT); }
static uint64_t at_proxy(void) { return osc_bench_flood_proxy(64, flood, flood_length, COUNT); }
static uint64_t at_idle_proxy(void) { return osc_bench_flood_proxy(0, flood, flood_length, COUNT); }

static void at_servers(const char *name, uint64_t seed, void (*one)(uint32_t place)) { flood_row(name, seed, one, at_server, SERVER_LIMIT, 0, 0, 0); }

int main(void) {
    setvbuf(stdout, NULL, _IOLBF, 0);
    flood = __real_malloc((size_t)COUNT * (LIMIT + 64));
    request_length = osc_bench_flood_valid(0, request, sizeof request);
    for (uint16_t token = 0; token < TOKENS; token++) {
        post_lengths[token] = osc_bench_flood_valid((uint16_t)(token + 1), posts[token], sizeof posts[token]);
        if (post_lengths[token] < 76) request_length = 0;
    }
    if (!flood || request_length == 0) {
        fprintf(stderr, "flood: there are no valid datagrams\n");
        return 1;
    }
    overhead = clock_ns();
    printf("A flood is %d datagrams, ten in a millisecond; each call's time is the least of %d runs, less the clock's %u ns. The heap in bytes: before the flood, the most "
        "between two calls, the most within one, behind the flood, and in the end. Times in ns: the median, what 1 in 100 and 1 in 1,000 reach, the greatest, and how many are above %d times "
        "that median.\n\n", COUNT, RUNS, overhead, TIMES);
    printf("%-40s %7s %7s %7s %7s %7s  %6s %6s %6s %7s %6s %6s\n", "", "before", "between", "within", "behind", "end", "median", "1/100", "1/1000", "most", "above", "told");
    printf("Server::on_datagram; it may hold %d bytes. Last: how many were answered, and the client behind them\n", SERVER_LIMIT);
    at_servers("random bytes", 1, random_one);
    at_servers("valid ones, altered", 2, mutated_for_server);
    at_servers("forged requests under the client's kid", 3, forged);
    at_servers("posts of tokens that don't open", 4, bad_token);
    at_servers("posts of 999 other tokens that open", 5, good_token);
    row_of_all();
    printf("Proxy::on_datagram; it may hold %d bytes. Last: how many exchanges were open behind the flood; in the end it is free\n", PROXY_LIMIT);
    flood_row("random bytes, 64 exchanges open", 6, random_one, at_proxy, PROXY_LIMIT, 1, 64, 64);
    flood_row("valid requests, altered, 64 open", 7, mutated_for_proxy, at_proxy, PROXY_LIMIT, 1, 64, 64);
    flood_row("ACKs, Resets and responses, 64 open", 8, from_anyone, at_proxy, PROXY_LIMIT, 1, 64, 64);
    flood_row("the same from the target itself, 64 open", 9, from_target, at_proxy, PROXY_LIMIT, 1, 0, 64);
    flood_row("requests that are forwarded, none open", 10, forwarded, at_idle_proxy, PROXY_LIMIT, 1, 1, 64);
    row_of_all();
    if (failed) {
        puts("floods: something doesn't hold");
        return 1;
    }
    puts("floods: all holds");
    return 0;
}
