/* Looks for the worst datagram of each node: a hill climb over bytes, from the shapes of shapes.h and from datagrams drawn at random.

     worst [SECONDS [SEED]]      so many seconds a node, 60 where they are left out; the seed is 1 where it is left out

   What is kept is what takes a node longest: by the instructions of this process, where the system counts them, and else by the least of three times. Status 1 where what was found
   takes more than TIMES times the median of an open GET by the clock. */
#include "hearing.h"
#include "shapes.h"

#include <linux/perf_event.h>
#include <sys/syscall.h>
#include <unistd.h>

enum { KEPT = 48, TRIES = 3, AGAIN = 9, ROUNDS = 400, RUNS = 5 };

/* ---- instructions */

static int counter = -1;

static uint64_t instructions(void) {
    uint64_t now = 0;
    if (read(counter, &now, sizeof now) != (ssize_t)sizeof now) exit(2);
    return now;
}

/* Whether the system counts the instructions of this process: also whether it counts any. */
static int counts_instructions(void) {
    struct perf_event_attr what = {.type = PERF_TYPE_HARDWARE, .size = sizeof what, .config = PERF_COUNT_HW_INSTRUCTIONS, .exclude_kernel = 1, .exclude_hv = 1};
    counter = (int)syscall(SYS_perf_event_open, &what, 0, -1, -1, 0);
    if (counter < 0) return 0;
    uint64_t start = instructions();
    for (volatile int i = 0; i < 1000; i++) continue;
    return instructions() > start + 1000;
}

/* ---- what is kept: the datagrams that took longest so far, with what they took */

typedef struct {
    uint32_t taken;
    size_t length;
    uint8_t bytes[LIMIT];
} datagram;

static datagram kept[KEPT];
static size_t kept_count;

/* The least of so many calls. */
static uint32_t taken_by(int ear, const datagram *it, uint32_t rounds) {
    measure(ear, it->bytes, it->length, rounds, 1);
    uint32_t best = UINT32_MAX;
    for (uint32_t i = 0; i < rounds; i++)
        if (least[i] < best) best = least[i];
    return best;
}

static size_t least_kept(void) {
    size_t at = 0;
    for (size_t i = 1; i < kept_count; i++)
        if (kept[i].taken < kept[at].taken) at = i;
    return at;
}

static size_t most_kept(void) {
    size_t at = 0;
    for (size_t i = 1; i < kept_count; i++)
        if (kept[i].taken > kept[at].taken) at = i;
    return at;
}

static int is_kept(const datagram *it) {
    for (size_t i = 0; i < kept_count; i++)
        if (kept[i].length == it->length && memcmp(kept[i].bytes, it->bytes, it->length) == 0) return 1;
    return 0;
}

/* Keeps the datagram where it takes longer than one that is kept: timed more often then, since a clock may be late once. */
static void offer(int ear, datagram *it) {
    it->taken = taken_by(ear, it, TRIES);
    size_t at = kept_count < KEPT ? kept_count : least_kept();
    if (kept_count == KEPT && it->taken <= kept[at].taken) return;
    if (is_kept(it)) return;
    it->taken = taken_by(ear, it, AGAIN);
    if (kept_count < KEPT) {
        kept_count++;
    } else if (it->taken <= kept[at].taken) {
        return;
    }
    kept[at] = *it;
}

/* Times one that is kept once more: what it takes is the least of all its times, since other work on the machine makes some of them greater. */
static void time_again(int ear, datagram *it) {
    uint32_t taken = taken_by(ear, it, AGAIN);
    if (taken < it->taken) it->taken = taken;
}

/* Times all that are kept until the one that takes longest stays the same. */
static const datagram *settled(int ear) {
    size_t before = KEPT;
    for (int pass = 0; pass < 20; pass++) {
        for (size_t i = 0; i < kept_count; i++) time_again(ear, &kept[i]);
        size_t most = most_kept();
        if (most == before) break;
        before = most;
    }
    return &kept[most_kept()];
}

/* ---- changes */

static void insert(datagram *it, size_t at, const uint8_t *bytes, size_t length) {
    if (length > LIMIT - at) length = LIMIT - at;
    size_t after = it->length - at;
    if (after > LIMIT - at - length) after = LIMIT - at - length;
    memmove(it->bytes + at + length, it->bytes + at, after);
    memcpy(it->bytes + at, bytes, length);
    it->length = at + length + after;
}

static void delete(datagram *it, size_t at, size_t length) {
    if (length > it->length - at) length = it->length - at;
    memmove(it->bytes + at, it->bytes + at + length, it->length - at - length);
    it->length -= length;
}

/* Mostly short: a run of bytes within so many. */
static size_t run(size_t bound) {
    size_t most = below(3) ? 8 : below(3) ? 64 : LIMIT;
    if (most > bound) most = bound;
    return most == 0 ? 0 : 1 + below((uint32_t)most);
}

static void change(datagram *it) {
    uint8_t part[LIMIT];
    size_t at = it->length == 0 ? 0 : below((uint32_t)it->length), length = run(it->length - at);
    switch (below(9)) {
    case 0: /* a bit */
        if (it->length > 0) it->bytes[at] ^= (uint8_t)(1 << below(8));
        break;
    case 1: /* a byte */
        if (it->length > 0) it->bytes[at] = (uint8_t)drawn();
        break;
    case 2: { /* some bytes more */
        size_t more = run(LIMIT);
        for (size_t i = 0; i < more; i++) part[i] = (uint8_t)drawn();
        insert(it, at, part, more);
        break;
    }
    case 3: delete(it, at, length); break;
    case 4: { /* the end of another one that is kept */
        const datagram *other = &kept[below((uint32_t)kept_count)];
        size_t from = other->length == 0 ? 0 : below((uint32_t)other->length);
        it->length = at;
        insert(it, at, other->bytes + from, other->length - from);
        break;
    }
    case 5: { /* a run again and again */
        memcpy(part, it->bytes + at, length);
        for (size_t times = 1 + below(below(4) ? 4 : 200); times > 0 && it->length < LIMIT && length > 0; times--) insert(it, at, part, length);
        break;
    }
    case 6: { /* a run over what stands elsewhere */
        size_t to = it->length == 0 ? 0 : below((uint32_t)it->length);
        if (length > it->length - to) length = it->length - to;
        memmove(it->bytes + to, it->bytes + at, length);
        break;
    }
    case 7: /* a length, or what may be one: a byte a little more or less, or a head of CBOR that has another count */
        if (it->length == 0) break;
        if (below(3)) {
            it->bytes[at] = (uint8_t)(it->bytes[at] + (below(2) ? 1 + below(8) : 248 + below(8)));
        } else {
            static const uint8_t HEADS[] = {0x58, 0x59, 0x79, 0x80, 0x98, 0x99, 0xa1, 0xb8, 0xb9};
            it->bytes[at] = HEADS[below(sizeof HEADS)];
        }
        break;
    default: /* rotated within a run: the order of what stands there */
        if (length > 1) {
            size_t by = 1 + below((uint32_t)(length - 1));
            memcpy(part, it->bytes + at, length);
            memcpy(it->bytes + at, part + by, length - by);
            memcpy(it->bytes + at + length - by, part, by);
        }
    }
}

static void draw_one(datagram *it) {
    it->length = 4 + below(LIMIT - 3);
    for (size_t i = 0; i < it->length; i++) it->bytes[i] = (uint8_t)drawn();
    it->bytes[0] = (uint8_t)(0x40 | (it->bytes[0] & 0x38));
    if (below(2)) it->bytes[1] = (uint8_t)(1 + below(4));
}

/* ---- the climb */

static int climb(int ear, double seconds, uint64_t seed, uint32_t get_ns, uint32_t get_counted) {
    uint64_t tried = 0, end_at = nanoseconds() + (uint64_t)(1e9 * seconds);
    kept_count = 0;
    /* What the shapes take is told apart from what the climb adds. */
    for (size_t i = 0; i < shape_count; i++) {
        if (shapes[i].ear != ear) continue;
        datagram it = {.length = shapes[i].length};
        memcpy(it.bytes, shapes[i].bytes, it.length);
        offer(ear, &it);
    }
    uint32_t first = settled(ear)->taken;
    state = seed;
    while (nanoseconds() < end_at) {
        datagram it;
        if (below(64) == 0) {
            draw_one(&it);
        } else {
            /* The one that took longest each fourth time. */
            size_t at = below(4) ? below((uint32_t)kept_count) : most_kept();
            time_again(ear, &kept[at]);
            it = kept[at];
            for (uint32_t changes = 1 + below(below(3) ? 2 : 8); changes > 0; changes--) change(&it);
        }
        offer(ear, &it);
        tried++;
    }
    const datagram *worst = settled(ear);
    uint32_t found = worst->taken;
    uint64_t (*counts)(void) = count_now;
    count_now = nanoseconds;
    find_overhead();
    uint64_t code = measure(ear, worst->bytes, worst->length, ROUNDS, RUNS);
    count times = counted(ROUNDS);
    count_now = counts;
    find_overhead();
    char text[CODE_TEXT];
    printf("%s\n    %llu tried; the dearest of the shapes %.1f times an open GET, what was found %.1f times%s\n    by the clock it takes %u ns, at most %u, which is %.1f and %.1f times; it has "
        "%zu bytes, and is answered %s:\n    ", WHO[ear], (unsigned long long)tried, (double)first / get_counted, (double)found / get_counted, counter >= 0 ? ", by instructions" : "",
        times.median, times.most, (double)times.median / get_ns, (double)times.most / get_ns, worst->length, code_text(code, text));
    for (size_t i = 0; i < worst->length; i++) printf("%02x", worst->bytes[i]);
    printf("\n");
    if (times.most <= (uint64_t)TIMES * get_ns) return 0;
    printf("    it takes more than %d times an open GET\n", TIMES);
    return 1;
}

int main(int words, char **word) {
    double seconds = words > 1 ? atof(word[1]) : 60;
    uint64_t seed = words > 2 ? strtoull(word[2], NULL, 10) : 1;
    if (words > 3 || seconds <= 0 || seed == 0) {
        fprintf(stderr, "worst: say the seconds for each node, and a seed above 0, or nothing\n");
        return 2;
    }
    setvbuf(stdout, NULL, _IOLBF, 0);
    find_overhead();
    make_shapes();
    measure_get(MOST_ROUNDS, RUNS);
    uint32_t get_ns = counted(MOST_ROUNDS).median, get_counted = get_ns;
    if (counts_instructions()) {
        count_now = instructions;
        find_overhead();
        measure_get(MOST_ROUNDS, RUNS);
        get_counted = counted(MOST_ROUNDS).median;
        printf("An open GET takes %u ns and %u instructions; %g seconds a node, seed %llu\n", get_ns, get_counted, seconds, (unsigned long long)seed);
    } else {
        if (counter >= 0) close(counter);
        counter = -1;
        printf("An open GET takes %u ns; %g seconds a node, seed %llu\n", get_ns, seconds, (unsigned long long)seed);
    }
    int above = 0;
    for (int ear = 0; ear < EARS; ear++) above |= climb(ear, seconds, seed, get_ns, get_counted);
    puts(above ? "worst: there is a datagram that takes more than it may" : "worst: none was found that takes more than it may");
    return above;
}
