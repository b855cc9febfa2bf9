/* A fuzzer over the calls of nozzlefern.h: the bytes of its input say which calls are made, on a device, two clients and a proxy, what is lost, repeated,
 * altered or made up on the way, how time passes, and which blocks of the heap are refused. What the header claims is the oracle: it stops (abort) where
 *
 *   a call answers a number that its text doesn't name,
 *   a call that is refused leaves its node otherwise than it was,
 *   a datagram is longer than 1152 bytes, or anything is written beyond its room,
 *   a request is served that no client asked for, or twice,
 *   an answer is told that isn't the answer to what was asked,
 *   anything of a step is sent before what it changed is kept, or what is kept isn't what the device has,
 *   a block of the heap is left once all nodes are freed.
 *
 * It is built for libFuzzer, or, with -DALONE, as a program of its own: fuzz RUNS [SEED]. It is linked with -Wl,--wrap=malloc. */
#include <nozzlefern.h>
#include <nozzlefern_heap.h>

#include <stdio.h>
#include <stdlib.h>
#include <string.h>

#define SHOULD(holds)                                                     \
    do {                                                                  \
        if (!(holds)) {                                                   \
            fprintf(stderr, "fuzz:%d: doesn't hold: %s\n", __LINE__, #holds); \
            abort();                                                      \
        }                                                                 \
    } while (0)

/* ---- the heap */

void *__real_malloc(size_t size);
void *__wrap_malloc(size_t size);

/* Counts down: the block at which it comes to 0 is refused; 0 refuses none. */
static unsigned refuse_in;
static int has_refused;

void *__wrap_malloc(size_t size) {
    if (refuse_in > 0 && --refuse_in == 0) {
        has_refused = 1;
        return NULL;
    }
    return __real_malloc(size);
}

/* ---- the input */

static const uint8_t *input;
static nzf_size left;

static uint8_t byte(void) {
    if (left == 0) return 0;
    left--;
    return *input++;
}

static nzf_size below(nzf_size bound) {
    nzf_size it = byte();
    if (bound > 256) it = it << 8 | byte();
    return it % bound;
}

/* Draws differ, as those of a generator do. */
static uint64_t drawn;

static nzf_draw draw(void) {
    nzf_draw it;
    memset(it.bytes, 0x5a, sizeof it.bytes);
    drawn++;
    memcpy(it.bytes, &drawn, sizeof drawn);
    return it;
}

static nzf_draws two_draws(void) {
    nzf_draws it;
    it.own = draw();
    it.server = draw();
    return it;
}

/* ---- the world */

enum { WIRE = 32, CLIENTS = 2, ASKED = 256, SERVED = NZF_PATH_MAX + NZF_DATAGRAM_MAX + NZF_CONTEXT_MAX };

typedef struct datagram {
    nzf_peer from, to;
    nzf_size length;
    uint8_t bytes[NZF_DATAGRAM_MAX];
} datagram;

typedef struct asked {
    uint8_t method, is_served, client;
    nzf_size path_length, payload_length;
    uint8_t path[NZF_PATH_MAX], payload[NZF_PAYLOAD_MAX];
} asked;

static nzf_device device;
static nzf_client clients[CLIENTS];
static nzf_proxy proxy;
static uint64_t now;
static datagram wire[WIRE]; /* what was sent last; the newest is at `sent - 1` */
static nzf_size sent;
static asked requests[ASKED];
static nzf_size request_count;
/* what each client has open: nothing, the exchange, or a request, and of a GET whether it may have an answer */
static uint8_t open_at[CLIENTS];

static const nzf_key KEY = {{1, 2, 3, 4, 5, 6, 7, 8, 9, 10, 11, 12, 13, 14, 15, 16}};
static const nzf_peer DEVICE = NZF_IPV4(10, 0, 0, 1, 5683), PROXY = NZF_IPV4(10, 0, 0, 2, 5683), STRANGER = NZF_IPV4(10, 0, 0, 9, 9);
/* the second one is on the link of zone 2 */
static const nzf_peer AT[CLIENTS] = {NZF_IPV4(10, 0, 0, 3, 1), {1, 2, {0xfe, 0x80, 0, 0, 0, 0, 0, 0, 0, 0, 0, 0, 0, 0, 0, 4}}};
static const char *const PATHS[] = {"/e", "/log", "/a/b", "/a", "/r/0aff", "", "e", "/a//b", "/a/b/c/d/e/f/g/h", "/a/b/c/d/e/f/g/h/i"};

#define TEXT(text) (text), strlen(text)

/* ---- what calls answer */

#define OR(number) (UINT64_C(1) << (number))
#define ANSWERS(number, set) SHOULD((number) >= 0 && (number) < 64 && ((set) >> (number) & 1) != 0)

/* What can be read of a node without a step: of a device also what its last step left. */
typedef struct view {
    int32_t numbers[8];
    uint64_t deadline;
    uint8_t code;
    nzf_served served;
    nzf_refused refused;
    nzf_change change;
    nzf_value values[3];
    uint8_t bytes[3][512];
} view;

static void look(view *it) {
    uint8_t bytes[SERVED];
    unsigned kept = refuse_in;
    refuse_in = 0;
    memset(it, 0, sizeof *it);
    it->served.size = sizeof it->served;
    it->refused.size = sizeof it->refused;
    it->numbers[0] = nzf_device_next_deadline(&device, &it->deadline);
    it->numbers[1] = nzf_device_learnt(&device, &it->code);
    it->numbers[2] = nzf_device_served(&device, &it->served, bytes, sizeof bytes);
    it->numbers[3] = nzf_device_refused(&device, &it->refused);
    it->change.size = sizeof it->change;
    it->numbers[7] = nzf_device_changed(&device, &it->change, bytes, sizeof bytes);
    for (nzf_size at = 0; at < 3; at++) {
        it->values[at].size = sizeof it->values[at];
        it->numbers[4 + at] = nzf_device_get(&device, TEXT(PATHS[at]), it->bytes[at], sizeof it->bytes[at], &it->values[at]);
    }
    refuse_in = kept;
}

static int is_etag(const nzf_etag *one, const nzf_etag *other) { return memcmp(one, other, sizeof *one) == 0; }

static int is_same(const view *one, const view *other) {
    int same = memcmp(one->numbers, other->numbers, sizeof one->numbers) == 0 && one->deadline == other->deadline && one->code == other->code;
    for (nzf_size at = 0; at < 3; at++)
        same = same && one->values[at].format == other->values[at].format && one->values[at].length == other->values[at].length &&
               is_etag(&one->values[at].etag, &other->values[at].etag) && memcmp(one->bytes[at], other->bytes[at], sizeof one->bytes[at]) == 0;
    same = same && one->change.is_there == other->change.is_there && one->change.waits == other->change.waits &&
           one->change.path_length == other->change.path_length && one->change.payload_length == other->change.payload_length;
    return same && one->served.number == other->served.number && one->served.method == other->served.method && one->refused.code == other->refused.code;
}

static int is_refusal(int32_t number) { return number != NZF_DONE && number != NZF_LOST && number != NZF_UNVERIFIED && number != NZF_REFUSED; }

/* ---- the wire */

static void put_on_wire(const nzf_peer *from, const nzf_peer *to, const uint8_t *bytes, nzf_size length) {
    datagram *it = &wire[sent++ % WIRE];
    it->from = *from;
    it->to = *to;
    it->length = length;
    memcpy(it->bytes, bytes, length);
}

/* Takes what a node sends. A room that is too short takes nothing, and nothing is written beyond it. */
static void take_all(int32_t (*next)(void *, nzf_peer *, uint8_t *, nzf_size, nzf_size *), void *node, const nzf_peer *from) {
    uint8_t bytes[NZF_DATAGRAM_MAX + 8];
    nzf_peer to;
    nzf_size length, count = 0;
    for (;;) {
        nzf_size room = byte() % 8 == 1 ? below(NZF_DATAGRAM_MAX) : NZF_DATAGRAM_MAX;
        memset(bytes, 0xee, sizeof bytes);
        int32_t number = next(node, &to, bytes, room, &length);
        ANSWERS(number, OR(NZF_DONE) | OR(NZF_NOTHING) | OR(NZF_TOO_SHORT));
        for (nzf_size at = room; at < sizeof bytes; at++) SHOULD(bytes[at] == 0xee);
        if (number == NZF_NOTHING) return;
        SHOULD(length <= NZF_DATAGRAM_MAX);
        if (number == NZF_TOO_SHORT) {
            SHOULD(length > room);
            number = next(node, &to, bytes, NZF_DATAGRAM_MAX, &length);
            SHOULD(number == NZF_DONE);
        }
        SHOULD(++count < 1000);
        put_on_wire(from, &to, bytes, length);
    }
}

static int32_t next_of_device(void *it, nzf_peer *to, uint8_t *bytes, nzf_size room, nzf_size *length) {
    return nzf_device_next((nzf_device *)it, to, bytes, room, length);
}

static int32_t next_of_client(void *it, nzf_peer *to, uint8_t *bytes, nzf_size room, nzf_size *length) {
    return nzf_client_next((nzf_client *)it, to, bytes, room, length);
}

static int32_t next_of_proxy(void *it, nzf_peer *to, uint8_t *bytes, nzf_size room, nzf_size *length) {
    return nzf_proxy_next((nzf_proxy *)it, to, bytes, room, length);
}

/* ---- what the device tells of a step */

/* The size of an answer's struct whose last members are left out: `end` is where they begin, and 8 its alignment. */
#define SHORT(type, end) ((offsetof(type, end) + sizeof(uint64_t) - 1) / sizeof(uint64_t) * sizeof(uint64_t))

/* The same is told to a shorter struct, and what that leaves out is not written; one of another size gets nothing. */
static void served_in_short(const nzf_served *told, uint8_t *bytes, nzf_size room) {
    static const nzf_size SHORTER = SHORT(nzf_served, token);
    nzf_served it, before, *alone = (nzf_served *)malloc(SHORTER);
    memset(&it, 0xee, sizeof it);
    it.size = SHORTER;
    if (alone == NULL) abort();
    memcpy(alone, &it, SHORTER);
    SHOULD(nzf_device_served(&device, alone, bytes, room) == NZF_DONE);
    memcpy(&it, alone, SHORTER);
    free(alone);
    SHOULD(it.number == told->number && it.code == told->code && it.path_length == told->path_length && it.context_length == told->context_length);
    SHOULD(it.size == SHORTER);
    it.size = 1 + below(2 * sizeof it);
    if (it.size == sizeof it || it.size == SHORTER) it.size = 0;
    before = it;
    SHOULD(nzf_device_served(&device, &it, bytes, room) == NZF_BAD_ARGUMENT && memcmp(&it, &before, sizeof it) == 0);
}

/* The token's id is that of who asked, and what a GET is answered has the ETag that the resource has. */
static void served_rightly(const asked *by, const nzf_served *told, const uint8_t *path) {
    uint8_t payload[NZF_PAYLOAD_MAX];
    nzf_value value = NZF_VALUE;
    SHOULD(told->token.length == 1 && told->token.bytes[0] == 'a' + by->client && told->token.bytes[1] == 0);
    SHOULD(told->etag.length == (told->code == 0x45 ? 8 : 0));
    if (told->etag.length == 0) return;
    SHOULD(nzf_device_get(&device, path, told->path_length, payload, sizeof payload, &value) == NZF_DONE && is_etag(&value.etag, &told->etag));
}

/* `bytes` are the path, the payload and the id context, one after the other. */
static int is_of(const asked *it, const nzf_served *told, const uint8_t *bytes) {
    const uint8_t *payload = bytes + it->path_length, *context = payload + it->payload_length;
    return !it->is_served && it->method == told->method && it->path_length == told->path_length && it->payload_length == told->payload_length &&
           told->context_length == 1 && *context == 'a' + it->client && memcmp(it->path, bytes, it->path_length) == 0 &&
           memcmp(it->payload, payload, it->payload_length) == 0;
}

static void act_on_served(void) {
    nzf_served it = NZF_SERVED;
    uint8_t bytes[SERVED];
    unsigned kept = refuse_in;
    refuse_in = 0;
    int32_t number = nzf_device_served(&device, &it, bytes, sizeof bytes);
    ANSWERS(number, OR(NZF_DONE) | OR(NZF_NOTHING));
    if (number == NZF_DONE) {
        nzf_size at = 0, whole = it.path_length + it.payload_length + it.context_length;
        SHOULD(it.method <= 4 && it.path_length <= NZF_PATH_MAX && it.payload_length <= NZF_DATAGRAM_MAX && it.context_length <= NZF_CONTEXT_MAX);
        while (at < request_count && !is_of(&requests[at], &it, bytes)) at++;
        SHOULD(at < request_count);
        requests[at].is_served = 1;
        served_rightly(&requests[at], &it, bytes);
        served_in_short(&it, bytes, sizeof bytes);
        /* a room that is too short: the lengths are told, and nothing is written beyond it */
        if (whole > 0) {
            nzf_served again = NZF_SERVED;
            memset(bytes, 0xee, sizeof bytes);
            number = nzf_device_served(&device, &again, bytes, whole - 1);
            SHOULD(number == NZF_TOO_SHORT && again.path_length == it.path_length && bytes[whole - 1] == 0xee && is_etag(&again.etag, &it.etag));
        }
    }
    nzf_refused refused = NZF_REFUSAL;
    number = nzf_device_refused(&device, &refused);
    ANSWERS(number, OR(NZF_DONE) | OR(NZF_NOTHING));
    if (number == NZF_DONE) {
        SHOULD(refused.code >= 0x80 && refused.reason < 64 && refused.has_token <= 1);
        if (refused.has_token) SHOULD(refused.token.length == 1 && refused.token.bytes[0] - 'a' < CLIENTS && refused.token.bytes[1] == 0);
        else SHOULD(refused.token.length == 0 && refused.token.bytes[0] == 0);
    }
    refuse_in = kept;
}

/* What a client learns: only what it has open can end. */
static void act_on_client(nzf_size at) {
    nzf_result it = NZF_RESULT;
    uint8_t payload[NZF_DATAGRAM_MAX];
    unsigned kept = refuse_in;
    refuse_in = 0;
    int32_t number = nzf_client_result(&clients[at], &it, payload, sizeof payload);
    ANSWERS(number, OR(NZF_DONE) | OR(NZF_NOTHING));
    if (number == NZF_DONE) {
        SHOULD(it.what >= NZF_RESULT_MADE && it.what <= NZF_RESULT_REFUSED && it.length <= sizeof payload);
        if (it.what == NZF_RESULT_MADE) SHOULD(open_at[at] == 1);
        if (it.what == NZF_RESULT_ANSWER) SHOULD(open_at[at] == 2 && it.code >= 0x40);
        if (it.what != NZF_RESULT_REFUSED || open_at[at] == 1) open_at[at] = 0;
    }
    refuse_in = kept;
}

/* ---- what the device's owner keeps */

enum { KEPT = 64 };

typedef struct kept_value {
    uint8_t path[NZF_PATH_MAX], bytes[NZF_PAYLOAD_MAX];
    nzf_size path_length, length;
    int32_t format;
    int is_there;
} kept_value;

static kept_value kept[KEPT];
static nzf_size kept_count;
/* whether the device's owner keeps what steps change */
static int keeps;

static void make_device(void);

static kept_value *kept_at(const void *path, nzf_size length) {
    for (nzf_size at = 0; at < kept_count; at++)
        if (kept[at].path_length == length && memcmp(kept[at].path, path, length) == 0) return &kept[at];
    return NULL;
}

/* At times it can't be kept; and it is only so much that is kept. */
static int keep(void *context, const void *path, nzf_size path_length, const void *value, nzf_size length, int32_t format) {
    kept_value *it = kept_at(path, path_length);
    SHOULD(context == &keeps && path_length >= 2 && path_length <= NZF_PATH_MAX && length <= NZF_PAYLOAD_MAX);
    SHOULD(value != NULL || (length == 0 && format == NZF_NO_FORMAT));
    if (byte() % 64 == 1 || (it == NULL && kept_count == KEPT)) return 1;
    if (it == NULL) it = &kept[kept_count++];
    memcpy(it->path, path, it->path_length = path_length);
    it->is_there = value != NULL;
    it->length = length;
    it->format = format;
    if (value != NULL) memcpy(it->bytes, value, length);
    return 0;
}

/* What couldn't be kept ends the device, and another is made of what is kept. */
static void not_kept(void) {
    uint8_t bytes[NZF_DATAGRAM_MAX], code = 0xee;
    nzf_peer to;
    nzf_size length;
    nzf_draw random = draw();
    nzf_draws draws = two_draws();
    SHOULD(nzf_device_next(&device, &to, bytes, sizeof bytes, &length) == NZF_NOT_KEPT);
    SHOULD(nzf_device_on_tick(&device, now, &random) == NZF_NOT_KEPT);
    SHOULD(nzf_device_open(&device, now, &draws, &code) == NZF_NOT_KEPT && code == 0);
    SHOULD(nzf_device_kept(&device, 1) == NZF_NOT_KEPT && nzf_device_keeps(&device) == NZF_NOT_KEPT);
    make_device();
}

/* The last step's change is that of the path, and waits; once it is kept, what is kept is what the device has. */
static void keep_step(void) {
    uint8_t bytes[NZF_PATH_MAX + NZF_PAYLOAD_MAX], payload[NZF_PAYLOAD_MAX];
    nzf_peer to;
    nzf_size length;
    nzf_change it = NZF_CHANGE;
    nzf_value value = NZF_VALUE;
    unsigned planned = refuse_in;
    refuse_in = 0;
    int32_t number = nzf_device_changed(&device, &it, bytes, sizeof bytes);
    ANSWERS(number, OR(NZF_DONE) | OR(NZF_NOTHING));
    if (number == NZF_DONE) {
        SHOULD(it.is_there <= 1 && it.waits == keeps);
        SHOULD(nzf_device_get(&device, bytes, it.path_length, payload, sizeof payload, &value) == (it.is_there ? NZF_DONE : NZF_NOTHING));
        if (it.is_there) SHOULD(value.format == it.format && value.length == it.payload_length);
        if (it.is_there) SHOULD(memcmp(payload, bytes + it.path_length, value.length) == 0);
        if (keeps) SHOULD(nzf_device_next(&device, &to, payload, sizeof payload, &length) == NZF_NOT_KEPT);
    }
    if (keeps) {
        number = nzf_device_keep(&device, keep, &keeps);
        ANSWERS(number, OR(NZF_DONE) | OR(NZF_NOT_KEPT));
        if (number == NZF_NOT_KEPT) not_kept();
        for (nzf_size at = 0; at < kept_count; at++) {
            const kept_value *one = &kept[at];
            number = nzf_device_get(&device, one->path, one->path_length, payload, sizeof payload, &value);
            SHOULD(number == (one->is_there ? NZF_DONE : NZF_NOTHING));
            if (one->is_there) SHOULD(value.length == one->length && value.format == one->format && memcmp(payload, one->bytes, one->length) == 0);
        }
    }
    refuse_in = planned;
}

/* ---- steps */

static void to_device(const datagram *it) {
    view before, after;
    nzf_draw random = draw();
    look(&before);
    int32_t number = nzf_device_on_datagram(&device, now, &it->from, it->bytes, it->length, &random);
    ANSWERS(number, OR(NZF_DONE) | (has_refused ? OR(NZF_NO_MEMORY) : 0));
    if (number != NZF_DONE) {
        look(&after);
        SHOULD(is_same(&before, &after));
        return;
    }
    act_on_served();
    keep_step();
    take_all(next_of_device, &device, &DEVICE);
}

static void to_proxy(const datagram *it) {
    nzf_draw random = draw();
    int32_t number = nzf_proxy_on_datagram(&proxy, now, &it->from, it->bytes, it->length, &random);
    ANSWERS(number, OR(NZF_DONE) | (has_refused ? OR(NZF_NO_MEMORY) : 0));
    if (number == NZF_DONE) take_all(next_of_proxy, &proxy, &PROXY);
}

static void to_client(nzf_size at, const datagram *it) {
    int32_t number = nzf_client_on_datagram(&clients[at], now, &it->from, it->bytes, it->length);
    ANSWERS(number, OR(NZF_DONE) | (has_refused ? OR(NZF_NO_MEMORY) : 0));
    if (number != NZF_DONE) return;
    act_on_client(at);
    take_all(next_of_client, &clients[at], &AT[at]);
}

static int is_at(const nzf_peer *one, const nzf_peer *other) {
    return one->port == other->port && one->scope == other->scope && memcmp(one->bytes, other->bytes, sizeof one->bytes) == 0;
}

static void deliver(const datagram *it) {
    has_refused = 0;
    if (is_at(&it->to, &DEVICE)) to_device(it);
    else if (is_at(&it->to, &PROXY)) to_proxy(it);
    else
        for (nzf_size at = 0; at < CLIENTS; at++)
            if (is_at(&it->to, &AT[at])) to_client(at, it);
}

static datagram of_wire(nzf_size back) {
    datagram it;
    memset(&it, 0, sizeof it);
    it.from = STRANGER;
    it.to = DEVICE;
    return sent == 0 ? it : wire[(sent - 1 - back % (sent < WIRE ? sent : WIRE)) % WIRE];
}

static void deliver_altered(void) {
    datagram it = of_wire(below(WIRE));
    uint8_t how = byte();
    if (how & 1 && it.length > 0) it.bytes[below(it.length)] ^= (uint8_t)(1 << below(8));
    if (how & 2) it.length = below(it.length + 1);
    if (how & 4 && it.length < NZF_DATAGRAM_MAX) it.bytes[it.length++] = byte();
    if (how & 8) it.from = STRANGER;
    if (how & 16) it.to = below(2) ? DEVICE : PROXY;
    if (how & 32 && it.length > 3) it.bytes[2] = byte(), it.bytes[3] = byte();
    deliver(&it);
}

static void deliver_raw(void) {
    datagram it;
    memset(&it, 0, sizeof it);
    nzf_size who = below(5);
    it.from = who == 0 ? STRANGER : who == 1 ? DEVICE : who == 2 ? PROXY : AT[who - 3];
    who = below(4);
    it.to = who == 0 ? DEVICE : who == 1 ? PROXY : AT[who - 2];
    it.length = below(byte() == 0 ? NZF_DATAGRAM_MAX + 1 : 64);
    for (nzf_size at = 0; at < it.length; at++) it.bytes[at] = byte();
    deliver(&it);
}

/* ---- what clients begin */

static void exchange(nzf_size at) {
    nzf_draw random = draw();
    has_refused = 0;
    int32_t number = nzf_client_exchange(&clients[at], now, &random);
    ANSWERS(number, OR(NZF_DONE) | (has_refused ? OR(NZF_NO_MEMORY) : 0));
    if (number != NZF_DONE) return;
    nzf_result it = NZF_RESULT;
    uint8_t payload[NZF_DATAGRAM_MAX];
    if (nzf_client_result(&clients[at], &it, payload, sizeof payload) == NZF_NOTHING) open_at[at] = 1;
    else SHOULD(it.what == NZF_RESULT_REFUSED);
    take_all(next_of_client, &clients[at], &AT[at]);
}

static void ask(nzf_size at) {
    nzf_draw random = draw();
    nzf_request request = NZF_REQUEST;
    asked *it = &requests[request_count % ASKED];
    const char *path = PATHS[below(sizeof PATHS / sizeof *PATHS)];
    if (request_count == ASKED) return;
    memset(it, 0, sizeof *it);
    if (byte() % 4 == 0) request.options.format = (int32_t)below(70000);
    if (byte() % 8 == 0) request.options.accept = (int32_t)below(70000);
    request.options.if_none_match = byte() % 16 == 0 ? byte() : 0;
    request.options.if_match = byte() % 16 == 0 ? byte() : 0;
    request.options.if_match_length = request.options.if_match ? byte() : 0;
    it->client = (uint8_t)at;
    it->method = (uint8_t)(byte() % 16 == 0 ? byte() : 1 + below(4));
    it->path_length = strlen(path);
    memcpy(it->path, path, it->path_length);
    it->payload_length = below(byte() % 8 == 0 ? sizeof it->payload + 1 : 16);
    for (nzf_size next = 0; next < it->payload_length; next++) it->payload[next] = byte();
    request.method = it->method;
    request.path = nzf_text(path);
    request.payload = nzf_bytes_of(it->payload, it->payload_length);
    if (byte() % 32 == 1) request.size++;
    has_refused = 0;
    int32_t number = nzf_client_ask(&clients[at], now, &request, &random);
    ANSWERS(number, OR(NZF_DONE) | OR(NZF_BAD_ARGUMENT) | (has_refused ? OR(NZF_NO_MEMORY) : 0));
    if (request.size != sizeof request) SHOULD(number == NZF_BAD_ARGUMENT);
    if (number != NZF_DONE) return;
    request_count++;
    nzf_result told = NZF_RESULT;
    uint8_t payload[NZF_DATAGRAM_MAX];
    if (nzf_client_result(&clients[at], &told, payload, sizeof payload) == NZF_NOTHING) open_at[at] = 2;
    else SHOULD(told.what == NZF_RESULT_REFUSED);
    take_all(next_of_client, &clients[at], &AT[at]);
}

/* ---- what the device does itself */

static void own_call(void) {
    nzf_draws draws = two_draws();
    const char *path = PATHS[below(sizeof PATHS / sizeof *PATHS)];
    uint8_t payload[600], code = 0xee, id[80];
    nzf_size length = below(byte() % 8 == 0 ? sizeof payload : 16), id_length = byte() % 16 == 0 ? below(sizeof id) : below(3);
    int32_t number = 0;
    nzf_resource resource = NZF_RESOURCE;
    uint64_t set = OR(NZF_DONE) | OR(NZF_UNVERIFIED) | OR(NZF_BUSY) | OR(NZF_BAD_ARGUMENT);
    uint64_t writes = set | OR(NZF_TOO_LONG) | OR(NZF_EXHAUSTED) | OR(NZF_NO_CONTEXT);
    view before, after;
    memset(payload, byte(), sizeof payload);
    if (byte() % 4 == 0) resource.format = (int32_t)below(70000);
    resource.path = nzf_text(path);
    resource.payload = nzf_bytes_of(payload, length);
    memset(id, 0x61, sizeof id);
    look(&before);
    has_refused = 0;
    switch (below(6)) {
    case 0: number = nzf_device_open(&device, now, &draws, &code); break;
    case 1: number = nzf_device_put(&device, now, &resource, &draws, &code), set = writes; break;
    case 2: number = nzf_device_append(&device, now, &resource, &draws, &code), set = writes; break;
    case 3: number = nzf_device_remove(&device, now, TEXT(path), &draws, &code), set = writes; break;
    case 4: number = nzf_device_revoke(&device, now, id, id_length, &draws, &code), set = writes | OR(NZF_REFUSED); break;
    default: number = nzf_device_allow(&device, now, id, id_length, &draws, &code), set = writes | OR(NZF_REFUSED); break;
    }
    ANSWERS(number, set | (has_refused ? OR(NZF_NO_MEMORY) | OR(NZF_LOST) : 0));
    if (number != NZF_DONE && number != NZF_UNVERIFIED && number != NZF_REFUSED) SHOULD(code == 0);
    if (is_refusal(number)) {
        look(&after);
        SHOULD(is_same(&before, &after));
        return;
    }
    keep_step();
    take_all(next_of_device, &device, &DEVICE);
}

/* ---- time */

static void pass(void) {
    static const uint64_t BY[] = {1, 250, 1000, 3000, 10000, 100000, 300000, 4000000};
    nzf_size who = below(4);
    nzf_draw random = draw();
    uint64_t due = 0;
    int32_t number;
    now += BY[below(sizeof BY / sizeof *BY)];
    has_refused = 0;
    if (who == 0) {
        number = nzf_device_next_deadline(&device, &due);
        ANSWERS(number, OR(NZF_DONE) | OR(NZF_NOTHING));
        number = nzf_device_on_tick(&device, now, &random);
        ANSWERS(number, OR(NZF_DONE) | (has_refused ? OR(NZF_LOST) : 0));
        uint8_t code;
        ANSWERS(nzf_device_learnt(&device, &code), OR(NZF_DONE) | OR(NZF_UNVERIFIED) | OR(NZF_NOTHING));
        keep_step();
        take_all(next_of_device, &device, &DEVICE);
    } else if (who == 1) {
        number = nzf_proxy_on_tick(&proxy, now, &random);
        ANSWERS(number, OR(NZF_DONE) | (has_refused ? OR(NZF_NO_MEMORY) | OR(NZF_LOST) : 0));
        if (number != NZF_NO_MEMORY) take_all(next_of_proxy, &proxy, &PROXY);
    } else {
        number = nzf_client_on_tick(&clients[who - 2], now);
        ANSWERS(number, OR(NZF_DONE) | (has_refused ? OR(NZF_LOST) : 0));
        act_on_client(who - 2);
        take_all(next_of_client, &clients[who - 2], &AT[who - 2]);
    }
}

static void restart(void) {
    nzf_size who = below(4);
    has_refused = 0;
    if (who == 0) ANSWERS(nzf_device_restart(&device), OR(NZF_DONE) | (has_refused ? OR(NZF_NO_MEMORY) : 0));
    else if (who == 1) ANSWERS(nzf_proxy_restart(&proxy), OR(NZF_DONE) | (has_refused ? OR(NZF_NO_MEMORY) : 0));
    else if (nzf_client_restart(&clients[who - 2]) == NZF_DONE) open_at[who - 2] = 0;
}

/* Arguments that no call takes, and which change nothing. */
static void bad_arguments(void) {
    view before, after;
    nzf_draw random = draw();
    nzf_draws draws = two_draws();
    static const nzf_peer NOBODY = NZF_IPV4(0, 0, 0, 0, 0);
    uint8_t code = 0xee;
    look(&before);
    refuse_in = 0;
    switch (below(7)) {
    case 0: SHOULD(nzf_device_on_datagram(&device, UINT64_C(1) << 63, &STRANGER, "", 0, &random) == NZF_BAD_ARGUMENT); break;
    case 1: SHOULD(nzf_device_on_tick(&device, UINT64_MAX, &random) == NZF_BAD_ARGUMENT); break;
    case 2: SHOULD(nzf_device_on_datagram(&device, now, &NOBODY, "", 0, &random) == NZF_BAD_ARGUMENT); break;
    case 3: SHOULD(nzf_device_remove(&device, now, TEXT("no path"), &draws, &code) == NZF_BAD_ARGUMENT && code == 0); break;
    case 4: SHOULD(nzf_device_kept(&device, 2) == NZF_BAD_ARGUMENT && nzf_device_kept(&device, 1) == NZF_NOTHING); break;
    case 5: SHOULD(nzf_proxy_set_outstanding(&proxy, 17) == NZF_BAD_ARGUMENT); break;
    default: ANSWERS(nzf_proxy_add_target(&proxy, TEXT("late"), 1, &DEVICE), OR(NZF_DONE) | OR(NZF_NOT_NOW)); break;
    }
    look(&after);
    SHOULD(is_same(&before, &after));
}

/* ---- the nodes */

static const char *const SCOPES[CLIENTS] = {"/e:GET+PUT,/log:GET+POST", "/a:GET+PUT+DELETE+SUB"};

static void make_device(void) {
    static nzf_resource first[KEPT];
    nzf_size count = 0;
    nzf_draw random = draw();
    nzf_device_settings settings = NZF_DEVICE_SETTINGS;
    nzf_change none = NZF_CHANGE;
    uint8_t how = byte();
    for (nzf_size at = 0; at < kept_count; at++) {
        const kept_value *one = &kept[at];
        nzf_resource it = NZF_RESOURCE;
        it.path = nzf_bytes_of(one->path, one->path_length);
        it.payload = nzf_bytes_of(one->bytes, one->length);
        it.format = one->format;
        if (one->is_there) first[count++] = it;
    }
    settings.key = KEY;
    settings.context_seconds = how % 4 == 0 ? 60 : 0;
    settings.audience = nzf_text("fuzz");
    settings.unprotected = nzf_text("/e:GET");
    settings.own = nzf_text("/e:GET+PUT+POST+DELETE,/log:POST+DELETE,/r:PUT+DELETE+SUB");
    settings.revoked = nzf_text("/r");
    SHOULD(nzf_device_new_with(&device, &settings, first, count, &random) == NZF_DONE);
    SHOULD(nzf_device_changed(&device, &none, &how, 0) == NZF_NOTHING);
    if (keeps) SHOULD(nzf_device_keeps(&device) == NZF_DONE);
}

static void make_client(nzf_size at) {
    uint8_t token[NZF_DATAGRAM_MAX], secret[16], id = (uint8_t)('a' + at);
    nzf_size length = 0;
    nzf_claims claims = NZF_CLAIMS;
    nzf_client_settings settings = NZF_CLIENT_SETTINGS;
    memset(secret, (int)at + 1, sizeof secret);
    claims.key = KEY;
    memset(claims.iv.bytes, (int)at + 1, sizeof claims.iv.bytes);
    claims.has_context = settings.has_context = 1;
    claims.algorithm = settings.algorithm = at == 0 ? NZF_ALGORITHM_CCM_8 : NZF_ALGORITHM_CCM_16;
    claims.expires = now / 1000 + 100000;
    claims.audience = nzf_text("fuzz");
    claims.id = claims.context = settings.context = nzf_bytes_of(&id, 1);
    claims.secret = settings.secret = nzf_bytes_of(secret, sizeof secret);
    claims.scope = nzf_text(SCOPES[at]);
    SHOULD(nzf_token_mint(&claims, token, sizeof token, &length) == NZF_DONE);
    settings.token = nzf_bytes_of(token, length);
    settings.next_hop = at == 0 ? DEVICE : PROXY;
    if (at == 1) {
        settings.host = nzf_text("fuzz");
        settings.port = 5683;
    }
    SHOULD(nzf_client_new(&clients[at], &settings) == NZF_DONE);
}

static void make(void) {
    drawn = 0;
    now = UINT64_C(1700000000000);
    sent = request_count = 0;
    refuse_in = 0;
    memset(open_at, 0, sizeof open_at);
    kept_count = 0;
    keeps = byte() % 2;
    make_device();
    for (nzf_size at = 0; at < CLIENTS; at++) make_client(at);
    SHOULD(nzf_proxy_new(&proxy) == NZF_DONE);
    SHOULD(nzf_proxy_add_target(&proxy, TEXT("fuzz"), 5683, &DEVICE) == NZF_DONE);
}

static void one_call(void) {
    switch (below(16)) {
    case 0:
    case 1:
    case 2:
    case 3: {
        datagram it = of_wire(0);
        deliver(&it);
        break;
    }
    case 4: {
        datagram it = of_wire(below(WIRE));
        deliver(&it);
        break;
    }
    case 5: deliver_altered(); break;
    case 6: deliver_raw(); break;
    case 7: exchange(below(CLIENTS)); break;
    case 8:
    case 9:
    case 10: ask(below(CLIENTS)); break;
    case 11: own_call(); break;
    case 12: pass(); break;
    case 13: restart(); break;
    case 14: bad_arguments(); break;
    default: refuse_in = 1 + (unsigned)below(64); break;
    }
}

int LLVMFuzzerTestOneInput(const uint8_t *data, nzf_size size);

int LLVMFuzzerTestOneInput(const uint8_t *data, nzf_size size) {
    input = data;
    left = size;
    make();
    while (left > 0) one_call();
    nzf_device_free(&device);
    for (nzf_size at = 0; at < CLIENTS; at++) nzf_client_free(&clients[at]);
    nzf_proxy_free(&proxy);
    SHOULD(nzf_heap_used() == 0);
    return 0;
}

#ifdef ALONE
/* Random inputs, always the same ones from a seed: xorshift64*. Each begins with an exchange of both clients, so that most have contexts. */
int main(int count, char **words) {
    static const uint8_t FIRST[] = {1, 7, 0, 0, 0, 0, 0, 0};
    static uint8_t bytes[4096];
    uint64_t runs = count > 1 ? strtoull(words[1], NULL, 10) : 1000, state = count > 2 ? strtoull(words[2], NULL, 10) : 1, served = 0, asked_for = 0;
    if (state == 0) state = 1;
    for (uint64_t run = 0; run < runs; run++) {
        nzf_size length = 0;
        if (run % 4 != 0) memcpy(bytes, FIRST, length = sizeof FIRST);
        do {
            state ^= state >> 12, state ^= state << 25, state ^= state >> 27;
            bytes[length++] = (uint8_t)(state * UINT64_C(2685821657736338717) >> 56);
        } while (length < sizeof bytes && (state & 511) != 0);
        LLVMFuzzerTestOneInput(bytes, length);
        asked_for += request_count;
        for (nzf_size at = 0; at < request_count; at++) served += requests[at].is_served;
    }
    printf("fuzz: %llu runs, %llu requests asked, %llu of them served\n", (unsigned long long)runs, (unsigned long long)asked_for, (unsigned long long)served);
    return 0;
}
#endif
