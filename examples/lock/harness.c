/* The claims of nozzlefern.h, tried from C: what each call answers; a whole exchange of clients, a proxy and a device by value; random datagrams and calls;
 * and all of it with a heap that refuses blocks.
 *
 *   harness [COUNT]      COUNT random calls, from a seed that is always the same; below 1,000 only each tenth block is refused in turn
 *
 * It is linked with -Wl,--wrap=malloc,--wrap=realloc,--wrap=free, so the three functions below stand before those of the C library. A claim that doesn't
 * hold is a line on stderr, and makes the status 1. */
#define _POSIX_C_SOURCE 200809L

#include <nozzlefern.h>

#include "moment.h"

#include <inttypes.h>
#include <stdio.h>
#include <stdlib.h>
#include <string.h>

#define TEXT(text) (text), sizeof(text) - 1

/* ---- the heap: what is held, and which block is refused */

void *__real_malloc(size_t size);
void *__real_realloc(void *block, size_t size);
void __real_free(void *block);
void *__wrap_malloc(size_t size);
void *__wrap_realloc(void *block, size_t size);
void __wrap_free(void *block);

/* `taken` counts what was asked for since the plan was made: the block of the number `refuse` is refused, and with `again` each multiple of it, too. */
static nzf_size held, taken, refuse, again, refused;

static int is_refused(void) {
    taken++;
    if (refuse == 0 || (again ? taken % refuse != 0 : taken != refuse)) return 0;
    refused++;
    return 1;
}

void *__wrap_malloc(size_t size) {
    if (is_refused()) return NULL;
    void *block = __real_malloc(size);
    if (block) held++;
    return block;
}

void *__wrap_realloc(void *before, size_t size) {
    if (!before) return __wrap_malloc(size);
    if (is_refused()) return NULL;
    return __real_realloc(before, size);
}

void __wrap_free(void *block) {
    if (block) held--;
    __real_free(block);
}

static void plan(nzf_size at, nzf_size always) {
    refuse = at;
    again = always;
    taken = refused = 0;
}

/* ---- claims */

static nzf_size claims, broken;

static void claim_at(int holds, const char *what, int line) {
    claims++;
    if (holds) return;
    broken++;
    fprintf(stderr, "harness:%d: doesn't hold: %s\n", line, what);
}

static void answers_at(int32_t number, int32_t wanted, const char *call, int line) {
    claims++;
    if (number == wanted) return;
    broken++;
    fprintf(stderr, "harness:%d: %" PRId32 " and not %" PRId32 ": %s\n", line, number, wanted, call);
}

#define CLAIM(holds) claim_at(holds, #holds, __LINE__)
#define ANSWERS(wanted, call) answers_at(call, wanted, #call, __LINE__)

/* An argument is out of its range: so it answers with all memory there is, and without any. */
#define IS_BAD(call)                       \
    do {                                   \
        ANSWERS(NZF_BAD_ARGUMENT, call);   \
        plan(1, 1);                        \
        ANSWERS(NZF_BAD_ARGUMENT, call);   \
        plan(0, 0);                        \
    } while (0)

/* In the world below, which is also played with a heap that refuses: stops there, and claims only where nothing was refused. */
#define NEEDS(holds)                                          \
    do {                                                      \
        int needed = (holds);                                 \
        if (!refused) claim_at(needed, #holds, __LINE__);     \
        if (!needed) return 0;                                \
    } while (0)

static const int32_t NUMBERS[] = {NZF_DONE,      NZF_TOO_SHORT, NZF_NO_MEMORY, NZF_TOO_LONG,     NZF_BUSY, NZF_EXHAUSTED,  NZF_NO_CONTEXT,
                                  NZF_BAD_SCOPE, NZF_NOTHING,   NZF_LOST,      NZF_BAD_ARGUMENT, NZF_NOT_NOW, NZF_UNVERIFIED,
                                  NZF_REFUSED,   NZF_NOT_KEPT};

/* The size of a struct without its last members: `first` is the first of these, and a nzf_size is what the struct is aligned for. */
#define SHORT(type, first) ((offsetof(type, first) + sizeof(nzf_size) - 1) / sizeof(nzf_size) * sizeof(nzf_size))

enum {
    SHORT_VALUE = SHORT(nzf_value, etag),
    SHORT_SERVED = SHORT(nzf_served, token),
    SHORT_REFUSED = SHORT(nzf_refused, has_token),
    SHORT_RESULT = SHORT(nzf_result, etag)
};

static int is_a_number(int32_t number) {
    for (nzf_size at = 0; at < sizeof NUMBERS / sizeof NUMBERS[0]; at++)
        if (NUMBERS[at] == number) return 1;
    return 0;
}

/* ---- chance: xorshift64*, always from the same seed */

static uint64_t state;

static uint64_t chance(void) {
    state ^= state >> 12;
    state ^= state << 25;
    state ^= state >> 27;
    return state * UINT64_C(2685821657736338717);
}

static nzf_size below(nzf_size bound) { return (nzf_size)(chance() >> 33) % bound; }

static nzf_draw draw(void) {
    nzf_draw it;
    for (nzf_size at = 0; at < sizeof it.bytes; at++) it.bytes[at] = (uint8_t)below(256);
    return it;
}

static nzf_draws two_draws(void) {
    nzf_draws it;
    it.own = draw();
    it.server = draw();
    return it;
}

/* A struct's size, or a shorter one that it may have, or one that it may not. */
static nzf_size some_size(nzf_size whole, nzf_size shorter) {
    nzf_size which = below(8), other = below(2 * whole);
    return which == 0 ? other : which < 3 ? shorter : whole;
}

/* ---- a world: a device, two clients, and a proxy behind which the second one is */

enum { DATAGRAM = 1152, ROOM = 1200, CLIENTS = 2, QUEUE = 64, PAST = 64 };
enum { DEVICE_PORT = 5683, PROXY_PORT = 5690, CLIENT_PORT = 5700, STRANGER_PORT = 9000 };

typedef struct datagram {
    nzf_peer from, to;
    nzf_size length;
    uint8_t bytes[ROOM];
} datagram;

typedef struct world {
    nzf_device device;
    nzf_proxy proxy;
    nzf_client clients[CLIENTS];
    uint64_t now;
    nzf_result results[CLIENTS]; /* what each client learnt last, and its payload; `what` is 0 for nothing */
    uint8_t learnt[CLIENTS][ROOM];
    nzf_size served, refusals; /* how many requests the device told of; the last one: */
    nzf_served last;
    nzf_refused why;
    uint8_t path[300], payload[ROOM], context[64];
    datagram queue[QUEUE]; /* what is on its way */
    nzf_size waiting;
    datagram past[PAST]; /* what was sent, by turns */
    nzf_size sent;
    int keeps; /* whether what the device's steps change is kept at once */
} world;

static const nzf_key KEY = {{1, 2, 3, 4, 5, 6, 7, 8, 9, 10, 11, 12, 13, 14, 15, 16}};
static const nzf_key OLD_KEY = {{16, 15, 14, 13, 12, 11, 10, 9, 8, 7, 6, 5, 4, 3, 2, 1}};
static const uint8_t SECRETS[CLIENTS][16] = {{1}, {2}};
static const char *const NAMES[CLIENTS] = {"owner", "guest"};

/* An address of IPv6 that begins and ends so. */
static nzf_peer v6(uint8_t first, uint8_t second, uint8_t last, uint32_t scope, uint16_t port) {
    uint8_t bytes[16] = {0};
    bytes[0] = first;
    bytes[1] = second;
    bytes[15] = last;
    return nzf_ipv6(bytes, scope, port);
}

/* Who has this port: the device and the second client on one link, the proxy on another one, the first client by IPv4, and the stranger by a global address. */
static nzf_peer peer(uint16_t port) {
    switch (port) {
    case CLIENT_PORT: return nzf_ipv4(127, 0, 0, 1, port);
    case DEVICE_PORT: return v6(0xfe, 0x80, 1, 2, port);
    case PROXY_PORT: return v6(0xfe, 0x80, 1, 3, port);
    case CLIENT_PORT + 1: return v6(0xfe, 0x80, 2, 2, port);
    default: return v6(0x20, 0x01, 3, 0, port);
    }
}

static int is_peer(const nzf_peer *one, const nzf_peer *other) {
    return one->port == other->port && one->scope == other->scope && memcmp(one->bytes, other->bytes, sizeof one->bytes) == 0;
}

/* The settings of a device that anyone may ask for /e, and which may do this itself. */
static nzf_device_settings settings_for(const char *own) {
    nzf_device_settings it = NZF_DEVICE_SETTINGS;
    it.key = KEY;
    it.audience = nzf_text("door");
    it.unprotected = nzf_text("/e:GET");
    it.own = nzf_text(own);
    return it;
}

static int32_t device_of(nzf_device *device, const nzf_device_settings *settings) {
    nzf_draw it = draw();
    return nzf_device_new(device, settings, &it);
}

static int32_t new_device(nzf_device *device) {
    nzf_device_settings it = settings_for("/e:GET+PUT+DELETE,/log:POST+DELETE,/d:GET+POST+PUT+DELETE+SUB");
    return device_of(device, &it);
}

/* What a device's server rules. */
typedef struct rules {
    nzf_key old_key;
    uint8_t has_old_key;
    uint32_t context_seconds;
} rules;

/* A device with these rules, and a revocation path of this text, which may do this. */
static int32_t device_with(nzf_device *device, const rules *its, const char *revoked, const char *own) {
    nzf_device_settings it = settings_for(own);
    it.old_key = its->old_key;
    it.has_old_key = its->has_old_key;
    it.context_seconds = its->context_seconds;
    it.revoked = nzf_text(revoked);
    return device_of(device, &it);
}

/* A device that takes tokens under the former key, too, whose contexts count for ten seconds, and which revokes below /gone. */
static int32_t new_device_with(nzf_device *device) {
    rules its = {OLD_KEY, 1, 10};
    return device_with(device, &its, "/gone", "/e:GET+PUT,/gone:PUT+DELETE+SUB");
}

static int is_id(const nzf_id *it, const void *bytes, nzf_size length) {
    static const uint8_t none[NZF_ID_MAX] = {0};
    return it->length == length && memcmp(it->bytes, bytes, length) == 0 && memcmp(it->bytes + length, none, sizeof it->bytes - length) == 0;
}

/* What a device is to have at a path. */
static nzf_resource value_at(const char *path, int32_t format, const char *payload) {
    nzf_resource it = NZF_RESOURCE;
    it.path = nzf_text(path);
    it.format = format;
    it.payload = nzf_text(payload);
    return it;
}

/* What the tokens of the clients grant. */
static const char SCOPE[] = "/e:GET+PUT,/log:GET+POST+DELETE";
static const char *granted = SCOPE;

/* Mints the token of one of the clients. */
static int32_t mint_under(const nzf_key *key, nzf_size client, uint8_t *token, nzf_size room, nzf_size *length) {
    nzf_claims it = NZF_CLAIMS;
    uint8_t id = (uint8_t)(client + 1);
    it.key = *key;
    it.iv.bytes[12] = id;
    it.audience = nzf_text("door");
    it.id = nzf_bytes_of(&id, 1);
    it.secret = nzf_bytes_of(SECRETS[client], 16);
    it.context = nzf_text(NAMES[client]);
    it.has_context = 1;
    it.scope = nzf_text(granted);
    it.algorithm = client ? NZF_ALGORITHM_CCM_16 : NZF_ALGORITHM_CCM_8;
    return nzf_token_mint(&it, token, room, length);
}

static int32_t mint(nzf_size client, uint8_t *token, nzf_size room, nzf_size *length) { return mint_under(&KEY, client, token, room, length); }

static int32_t new_client_under(const nzf_key *key, nzf_client *client, nzf_size which) {
    uint8_t token[512];
    nzf_size length = 0;
    nzf_client_settings it = NZF_CLIENT_SETTINGS;
    int32_t number = mint_under(key, which, token, sizeof token, &length);
    if (number != NZF_DONE) return number;
    it.next_hop = peer(which ? PROXY_PORT : DEVICE_PORT);
    it.host = nzf_text(which ? "door" : "");
    it.port = DEVICE_PORT;
    it.token = nzf_bytes_of(token, length);
    it.secret = nzf_bytes_of(SECRETS[which], 16);
    it.context = nzf_text(NAMES[which]);
    it.has_context = 1;
    it.algorithm = which ? NZF_ALGORITHM_CCM_16 : NZF_ALGORITHM_CCM_8;
    return nzf_client_new(client, &it);
}

static int32_t new_client(nzf_client *client, nzf_size which) { return new_client_under(&KEY, client, which); }

static int32_t new_proxy(nzf_proxy *proxy) {
    nzf_peer to = peer(DEVICE_PORT);
    int32_t number = nzf_proxy_new(proxy);
    return number == NZF_DONE ? nzf_proxy_add_target(proxy, TEXT("door"), DEVICE_PORT, &to) : number;
}

static void free_world(world *w) {
    nzf_device_free(&w->device);
    nzf_proxy_free(&w->proxy);
    for (nzf_size at = 0; at < CLIENTS; at++) nzf_client_free(&w->clients[at]);
}

static int make_world(world *w) {
    memset(w, 0, sizeof *w);
    w->now = UINT64_C(1700000000000);
    NEEDS(new_device(&w->device) == NZF_DONE);
    NEEDS(new_proxy(&w->proxy) == NZF_DONE);
    for (nzf_size at = 0; at < CLIENTS; at++) NEEDS(new_client(&w->clients[at], at) == NZF_DONE);
    return 1;
}

/* ---- what keeps the device's resources */

enum { KEPT = 8 };

/* What is kept of a path: nothing where `is_there` is 0. */
typedef struct kept_value {
    char path[32];
    uint8_t bytes[NZF_PAYLOAD_MAX];
    nzf_size length;
    int32_t format;
    int is_there;
} kept_value;

/* What was kept, how often something was to be kept, and whether nothing can be kept now. */
typedef struct store {
    kept_value values[KEPT];
    nzf_size count, calls;
    int is_full;
} store;

static int keeps_all(void *context, const void *path, nzf_size path_length, const void *value, nzf_size length, int32_t format) {
    store *of = context;
    nzf_size at = 0;
    if (of == NULL) return 0;
    of->calls++;
    if (of->is_full || path_length >= sizeof of->values[0].path || length > NZF_PAYLOAD_MAX) return -1;
    while (at < of->count && (strlen(of->values[at].path) != path_length || memcmp(of->values[at].path, path, path_length) != 0)) at++;
    if (at == KEPT) return -1;
    if (at == of->count) of->count++;
    kept_value *it = &of->values[at];
    memset(it, 0, sizeof *it);
    memcpy(it->path, path, path_length);
    it->is_there = value != NULL;
    it->length = length;
    it->format = format;
    if (value != NULL) memcpy(it->bytes, value, length);
    return 0;
}

/* ---- the network of that world */

static void keep(world *w, uint16_t from, const datagram *it) {
    datagram sent = *it;
    nzf_peer there = peer(it->to.port);
    CLAIM(is_peer(&it->to, &there));
    sent.from = peer(from);
    w->past[w->sent++ % PAST] = sent;
    if (w->waiting < QUEUE) w->queue[w->waiting++] = sent;
}

/* What the last step of the device left. */
static void act_on_device(world *w) {
    datagram it;
    if (w->keeps) CLAIM(nzf_device_keep(&w->device, keeps_all, NULL) != NZF_TOO_SHORT);
    while (nzf_device_next(&w->device, &it.to, it.bytes, sizeof it.bytes, &it.length) == NZF_DONE) keep(w, DEVICE_PORT, &it);
    nzf_served served = NZF_SERVED;
    uint8_t bytes[NZF_PATH_MAX + ROOM + NZF_CONTEXT_MAX];
    if (nzf_device_served(&w->device, &served, bytes, sizeof bytes) == NZF_DONE) {
        w->served++;
        w->last = served;
        memcpy(w->path, bytes, served.path_length);
        memcpy(w->payload, bytes + served.path_length, served.payload_length);
        memcpy(w->context, bytes + served.path_length + served.payload_length, served.context_length);
    }
    w->why.size = sizeof w->why;
    if (nzf_device_refused(&w->device, &w->why) == NZF_DONE) w->refusals++;
}

static void act_on_proxy(world *w) {
    datagram it;
    while (nzf_proxy_next(&w->proxy, &it.to, it.bytes, sizeof it.bytes, &it.length) == NZF_DONE) keep(w, PROXY_PORT, &it);
}

static void act_on_client(world *w, nzf_size at) {
    datagram it;
    nzf_client *client = &w->clients[at];
    while (nzf_client_next(client, &it.to, it.bytes, sizeof it.bytes, &it.length) == NZF_DONE) keep(w, (uint16_t)(CLIENT_PORT + at), &it);
    nzf_result result = NZF_RESULT;
    if (nzf_client_result(client, &result, w->learnt[at], ROOM) == NZF_DONE) w->results[at] = result;
}

static int32_t deliver(world *w, const datagram *it) {
    nzf_draw chosen = draw();
    int32_t number = NZF_DONE;
    uint16_t to = it->to.port;
    if (to == DEVICE_PORT) {
        number = nzf_device_on_datagram(&w->device, w->now, &it->from, it->bytes, it->length, &chosen);
        act_on_device(w);
    } else if (to == PROXY_PORT) {
        number = nzf_proxy_on_datagram(&w->proxy, w->now, &it->from, it->bytes, it->length, &chosen);
        act_on_proxy(w);
    } else if (to >= CLIENT_PORT && to < CLIENT_PORT + CLIENTS) {
        nzf_size at = to - CLIENT_PORT;
        number = nzf_client_on_datagram(&w->clients[at], w->now, &it->from, it->bytes, it->length);
        act_on_client(w, at);
    }
    return number;
}

/* Delivers what is on its way until nothing is. Whether each step was done. */
static int quiet(world *w) {
    for (nzf_size turn = 0; w->waiting > 0 && turn < 100; turn++) {
        datagram first = w->queue[0];
        memmove(w->queue, w->queue + 1, --w->waiting * sizeof(datagram));
        int32_t number = deliver(w, &first);
        if (refused) CLAIM(number == NZF_DONE || number == NZF_NO_MEMORY);
        if (number != NZF_DONE) return 0;
    }
    return w->waiting == 0;
}

/* ---- calls in that world */

static int exchange(world *w, nzf_size at) {
    nzf_draw it = draw();
    w->results[at].what = 0;
    NEEDS(nzf_client_exchange(&w->clients[at], w->now, &it) == NZF_DONE);
    act_on_client(w, at);
    NEEDS(quiet(w));
    NEEDS(w->results[at].what == NZF_RESULT_MADE);
    return 1;
}

static int32_t ask(world *w, nzf_size at, uint8_t method, const char *path, const char *payload) {
    nzf_draw it = draw();
    nzf_request asked = NZF_REQUEST;
    asked.method = method;
    asked.path = nzf_text(path);
    asked.payload = nzf_text(payload);
    w->results[at].what = 0;
    int32_t number = nzf_client_ask(&w->clients[at], w->now, &asked, &it);
    act_on_client(w, at);
    return number;
}

/* Asks, and is answered this. */
static int asks(world *w, nzf_size at, uint8_t method, const char *path, const char *payload, uint8_t code) {
    NEEDS(ask(w, at, method, path, payload) == NZF_DONE);
    NEEDS(quiet(w));
    NEEDS(w->results[at].what == NZF_RESULT_ANSWER);
    NEEDS(w->results[at].code == code);
    return 1;
}

/* A holder asks for this, and it comes to the device. */
static int arrives(world *w, uint8_t method, const char *path, const char *payload) {
    nzf_draw it = draw();
    if (ask(w, 0, method, path, payload) != NZF_DONE || w->waiting != 1) return 0;
    datagram request = w->queue[0];
    w->waiting = 0;
    return nzf_device_on_datagram(&w->device, w->now, &request.from, request.bytes, request.length, &it) == NZF_DONE;
}

static int opens(world *w) {
    nzf_draws draws = two_draws();
    uint8_t code = 0;
    int32_t number = nzf_device_open(&w->device, w->now, &draws, &code);
    if (refused) CLAIM(number == NZF_DONE || number == NZF_NO_MEMORY || number == NZF_LOST);
    NEEDS(number == NZF_DONE);
    return 1;
}

static int32_t writes(world *w, uint8_t method, const char *path, const char *payload, uint8_t *code) {
    nzf_draws draws = two_draws();
    nzf_resource value = value_at(path, 0, payload);
    if (method == 2) return nzf_device_append(&w->device, w->now, &value, &draws, code);
    if (method == 3) return nzf_device_put(&w->device, w->now, &value, &draws, code);
    return nzf_device_remove(&w->device, w->now, path, strlen(path), &draws, code);
}

/* The device writes, and is answered this. Where memory was wanting, a sealed 5.00 may be the answer. */
static int written(world *w, uint8_t method, const char *path, const char *payload, uint8_t wanted) {
    uint8_t code = 0;
    int32_t number = writes(w, method, path, payload, &code);
    if (refused) CLAIM(number == NZF_DONE || number == NZF_NO_MEMORY || number == NZF_LOST);
    NEEDS(number == NZF_DONE);
    NEEDS(code == wanted);
    return 1;
}

/* `revoke`, and else `allow`. */
static int32_t revokes(world *w, int revoke, const void *id, nzf_size length, uint8_t *code) {
    nzf_draws draws = two_draws();
    return (revoke ? nzf_device_revoke : nzf_device_allow)(&w->device, w->now, id, length, &draws, code);
}

/* The device revokes the token of one of the clients, or lets it in again, and is answered this. */
static int revoked(world *w, int revoke, nzf_size client, uint8_t wanted) {
    uint8_t id = (uint8_t)(client + 1), code = 0;
    int32_t number = revokes(w, revoke, &id, 1, &code);
    if (refused) CLAIM(number == NZF_DONE || number == NZF_NO_MEMORY || number == NZF_LOST || (number == NZF_REFUSED && code == 0xa0));
    NEEDS(number == NZF_DONE);
    NEEDS(code == wanted);
    return 1;
}

/* Posts its token, and is refused by this. */
static int is_refused_by(world *w, nzf_size at, uint8_t code) {
    nzf_draw it = draw();
    w->results[at].what = 0;
    NEEDS(nzf_client_exchange(&w->clients[at], w->now, &it) == NZF_DONE);
    act_on_client(w, at);
    NEEDS(quiet(w));
    NEEDS(w->results[at].what == NZF_RESULT_ENDED && w->results[at].code == code);
    return 1;
}

/* The same by 4.01. */
static int is_shut_out(world *w, nzf_size at) { return is_refused_by(w, at, 0x81); }

static int reads(world *w, const char *path, const char *wanted) {
    uint8_t payload[ROOM];
    nzf_value value = NZF_VALUE;
    NEEDS(nzf_device_get(&w->device, path, strlen(path), payload, sizeof payload, &value) == NZF_DONE);
    NEEDS(value.length == strlen(wanted) && memcmp(payload, wanted, value.length) == 0);
    return 1;
}

/* What holders and the device do in a day; 0 where it stopped. */
static int play(world *w) {
    if (!make_world(w) || !opens(w)) return 0;
    if (!written(w, 3, "/e", "shut", 0x41) || !written(w, 3, "/e", "open", 0x44) || !written(w, 2, "/log", "a", 0x41)) return 0;
    if (!exchange(w, 0) || !exchange(w, 1)) return 0;
    if (!asks(w, 0, 3, "/e", "shut", 0x44) || !reads(w, "/e", "shut")) return 0;
    if (!asks(w, 1, 2, "/log", "b", 0x44) || !reads(w, "/log", "ab")) return 0;
    if (!asks(w, 1, 1, "/log", "", 0x45) || !asks(w, 0, 1, "/none", "", 0x83)) return 0;
    if (!written(w, 4, "/log", "", 0x42)) return 0;
    NEEDS(nzf_device_restart(&w->device) == NZF_DONE);
    if (!opens(w) || !exchange(w, 0)) return 0;
    if (!asks(w, 0, 1, "/e", "", 0x45)) return 0;
    NEEDS(new_device_with(&w->device) == NZF_DONE);
    if (!opens(w) || !written(w, 3, "/e", "open", 0x41)) return 0;
    if (!revoked(w, 1, 1, 0x41) || !is_shut_out(w, 1)) return 0;
    if (!revoked(w, 0, 1, 0x42) || !exchange(w, 1)) return 0;
    return asks(w, 1, 1, "/e", "", 0x45);
}

/* ---- what was kept */

/* Whether this is kept at the path; null for nothing. */
static int is_kept(const store *of, const char *path, const char *wanted) {
    for (nzf_size at = 0; at < of->count; at++) {
        const kept_value *it = &of->values[at];
        if (strcmp(it->path, path) != 0) continue;
        if (wanted == NULL) return !it->is_there && it->length == 0 && it->format == NZF_NO_FORMAT;
        return it->is_there && it->length == strlen(wanted) && memcmp(it->bytes, wanted, it->length) == 0;
    }
    return wanted == NULL;
}

/* ---- handles that hold nothing */

static void nothing_of_a_device(void) {
    nzf_device none = {0};
    nzf_draw it = draw();
    nzf_draws draws = two_draws();
    nzf_resource resource = value_at("/e", NZF_NO_FORMAT, "");
    nzf_peer from = peer(STRANGER_PORT);
    nzf_value value = NZF_VALUE;
    nzf_served served = NZF_SERVED;
    nzf_refused why = NZF_REFUSAL;
    nzf_change change = NZF_CHANGE;
    uint8_t bytes[ROOM], code;
    nzf_size length;
    uint64_t moment;
    ANSWERS(NZF_NOTHING, nzf_device_open(&none, 0, &draws, &code));
    ANSWERS(NZF_NOTHING, nzf_device_put(&none, 0, &resource, &draws, &code));
    ANSWERS(NZF_NOTHING, nzf_device_append(&none, 0, &resource, &draws, &code));
    ANSWERS(NZF_NOTHING, nzf_device_remove(&none, 0, TEXT("/e"), &draws, &code));
    ANSWERS(NZF_NOTHING, nzf_device_revoke(&none, 0, TEXT("1"), &draws, &code));
    ANSWERS(NZF_NOTHING, nzf_device_allow(&none, 0, TEXT("1"), &draws, &code));
    ANSWERS(NZF_NOTHING, nzf_device_get(&none, TEXT("/e"), bytes, sizeof bytes, &value));
    ANSWERS(NZF_NOTHING, nzf_device_on_datagram(&none, 0, &from, TEXT("x"), &it));
    ANSWERS(NZF_NOTHING, nzf_device_on_tick(&none, 0, &it));
    ANSWERS(NZF_NOTHING, nzf_device_next_deadline(&none, &moment));
    ANSWERS(NZF_NOTHING, nzf_device_next(&none, &from, bytes, sizeof bytes, &length));
    ANSWERS(NZF_NOTHING, nzf_device_served(&none, &served, bytes, 0));
    ANSWERS(NZF_NOTHING, nzf_device_refused(&none, &why));
    ANSWERS(NZF_NOTHING, nzf_device_learnt(&none, &code));
    ANSWERS(NZF_NOTHING, nzf_device_changed(&none, &change, bytes, sizeof bytes));
    ANSWERS(NZF_NOTHING, nzf_device_keep(&none, keeps_all, NULL));
    ANSWERS(NZF_NOTHING, nzf_device_keeps(&none));
    ANSWERS(NZF_NOTHING, nzf_device_kept(&none, 1));
    ANSWERS(NZF_NOTHING, nzf_device_restart(&none));
    nzf_device_free(&none);
}

static void nothing_of_a_client(void) {
    nzf_client none = {0};
    nzf_draw it = draw();
    nzf_peer from = peer(STRANGER_PORT);
    nzf_request request = NZF_REQUEST;
    nzf_result result = NZF_RESULT;
    uint8_t bytes[ROOM];
    nzf_size length;
    uint64_t moment;
    ANSWERS(NZF_NOTHING, nzf_client_exchange(&none, 0, &it));
    ANSWERS(NZF_NOTHING, nzf_client_ask(&none, 0, &request, &it));
    ANSWERS(NZF_NOTHING, nzf_client_on_datagram(&none, 0, &from, TEXT("x")));
    ANSWERS(NZF_NOTHING, nzf_client_on_tick(&none, 0));
    ANSWERS(NZF_NOTHING, nzf_client_next_deadline(&none, &moment));
    ANSWERS(NZF_NOTHING, nzf_client_next(&none, &from, bytes, sizeof bytes, &length));
    ANSWERS(NZF_NOTHING, nzf_client_result(&none, &result, bytes, sizeof bytes));
    ANSWERS(NZF_NOTHING, nzf_client_context(&none, &moment));
    ANSWERS(NZF_NOTHING, nzf_client_restart(&none));
    nzf_client_free(&none);
}

static void nothing_of_a_proxy(void) {
    nzf_proxy none = {0};
    nzf_draw it = draw();
    nzf_peer from = peer(STRANGER_PORT);
    uint8_t bytes[ROOM];
    nzf_size length;
    uint64_t moment;
    ANSWERS(NZF_NOTHING, nzf_proxy_add_target(&none, TEXT("door"), 5683, &from));
    ANSWERS(NZF_NOTHING, nzf_proxy_on_datagram(&none, 0, &from, TEXT("x"), &it));
    ANSWERS(NZF_NOTHING, nzf_proxy_on_tick(&none, 0, &it));
    ANSWERS(NZF_NOTHING, nzf_proxy_next_deadline(&none, &moment));
    ANSWERS(NZF_NOTHING, nzf_proxy_next(&none, &from, bytes, sizeof bytes, &length));
    ANSWERS(NZF_NOTHING, nzf_proxy_restart(&none));
    nzf_proxy_free(&none);
}

/* `new` in the place of a node, and `free` twice. */
static void handles(void) {
    world w;
    if (!make_world(&w)) return;
    ANSWERS(NZF_DONE, new_device(&w.device));
    ANSWERS(NZF_DONE, new_client(&w.clients[0], 0));
    ANSWERS(NZF_DONE, new_proxy(&w.proxy));
    free_world(&w);
    free_world(&w);
    CLAIM(!w.device.held && !w.proxy.held && !w.clients[0].held);
    CLAIM(held == 0);
}

/* ---- arguments out of their range */

/* A device with these texts. */
static int32_t device_named(nzf_device *device, const char *audience, const char *unprotected, const char *own) {
    nzf_device_settings it = settings_for(own);
    it.audience = nzf_text(audience);
    it.unprotected = nzf_text(unprotected);
    return device_of(device, &it);
}

static void bad_devices(void) {
    nzf_device it = {0};
    ANSWERS(NZF_BAD_SCOPE, device_named(&it, "door", "e:GET", "/e:GET"));
    ANSWERS(NZF_BAD_SCOPE, device_named(&it, "door", "/e:GET", "/e:get"));
    ANSWERS(NZF_BAD_SCOPE, device_named(&it, "door", "/e:GET", "/e:GET,"));
    IS_BAD(device_named(&it, "\xff", "", "/e:GET"));
    CLAIM(!it.held && held == 0);
    ANSWERS(NZF_BAD_SCOPE, device_named(&it, "door", "", ""));
    ANSWERS(NZF_DONE, device_named(&it, "", "", "/e:GET"));
    nzf_device before;
    memcpy(&before, &it, sizeof it);
    ANSWERS(NZF_BAD_SCOPE, device_named(&it, "door", "e:GET", "/e:GET"));
    CLAIM(memcmp(&before, &it, sizeof it) == 0);
    nzf_device_free(&it);
}

/* Structs that say another size than theirs. */
static void bad_sizes(world *w) {
    static const nzf_size OFF[] = {0, 1, SIZE_MAX};
    nzf_draw it = draw();
    nzf_draws draws = two_draws();
    nzf_resource resource = value_at("/e", NZF_NO_FORMAT, "x");
    nzf_request request = NZF_REQUEST;
    nzf_claims claim = NZF_CLAIMS;
    uint8_t token[512], code;
    nzf_size length;
    request.path = nzf_text("/e");
    claim.secret = nzf_text("s");
    claim.scope = nzf_text("/e:GET");
    for (nzf_size at = 0; at < sizeof OFF / sizeof OFF[0]; at++) {
        nzf_device_settings device = settings_for("/e:GET");
        nzf_client_settings client = NZF_CLIENT_SETTINGS;
        client.secret = nzf_text("s");
        device.size = OFF[at] == 1 ? device.size + 8 : OFF[at];
        client.size = OFF[at] == 1 ? client.size + 8 : OFF[at];
        resource.size = OFF[at] == 1 ? sizeof resource + 8 : OFF[at];
        request.size = OFF[at] == 1 ? sizeof request + 8 : OFF[at];
        claim.size = OFF[at] == 1 ? sizeof claim + 8 : OFF[at];
        IS_BAD(nzf_device_new(&w->device, &device, &it));
        IS_BAD(nzf_client_new(&w->clients[0], &client));
        IS_BAD(nzf_device_put(&w->device, w->now, &resource, &draws, &code));
        IS_BAD(nzf_device_append(&w->device, w->now, &resource, &draws, &code));
        IS_BAD(nzf_client_ask(&w->clients[0], w->now, &request, &it));
        IS_BAD(nzf_token_mint(&claim, token, sizeof token, &length));
    }
    claim.size = sizeof claim;
    ANSWERS(NZF_DONE, nzf_token_mint(&claim, token, sizeof token, &length));
}

/* A struct that a call fills, of each size up to twice its own: two are taken, and of the shorter one the members from `first` on stay as they were. With
 * another size nothing is written. */
#define FILLED(type, it, shorter, first, wanted, call)                                                               \
    for (nzf_size size = 0; size <= 2 * sizeof(it); size++) {                                                          \
        nzf_size from = size == (shorter) ? offsetof(type, first) : 0;                                                 \
        type before;                                                                                                 \
        memset(&(it), 0xee, sizeof(it));                                                                             \
        (it).size = size;                                                                                            \
        before = (it);                                                                                               \
        if (size == (shorter) || size == sizeof(it)) ANSWERS(wanted, call);                                          \
        else IS_BAD(call);                                                                                           \
        if (size == sizeof(it)) CLAIM((it).size == size);                                                            \
        else CLAIM((it).size == size && memcmp((char *)&(it) + from, (char *)&before + from, sizeof(it) - from) == 0); \
    }

static void filled_sizes(world *w) {
    nzf_device none = {0};
    nzf_client nobody = {0};
    nzf_draw chosen = draw();
    uint8_t bytes[ROOM], code;
    nzf_value value;
    nzf_served served;
    nzf_refused why;
    nzf_result result;
    CLAIM(SHORT_VALUE == 24 && SHORT_SERVED == 48 && SHORT_REFUSED == 40 && SHORT_RESULT == 24);
    FILLED(nzf_value, value, SHORT_VALUE, etag, NZF_NOTHING, nzf_device_get(&none, TEXT("/e"), bytes, sizeof bytes, &value))
    FILLED(nzf_served, served, SHORT_SERVED, token, NZF_NOTHING, nzf_device_served(&none, &served, bytes, sizeof bytes))
    FILLED(nzf_refused, why, SHORT_REFUSED, has_token, NZF_NOTHING, nzf_device_refused(&none, &why))
    FILLED(nzf_result, result, SHORT_RESULT, etag, NZF_NOTHING, nzf_client_result(&nobody, &result, bytes, sizeof bytes))
    CLAIM(opens(w) && writes(w, 3, "/e", "open", &code) == NZF_DONE && exchange(w, 0));
    FILLED(nzf_value, value, SHORT_VALUE, etag, NZF_NOTHING, nzf_device_get(&w->device, TEXT("/none"), bytes, sizeof bytes, &value))
    FILLED(nzf_value, value, SHORT_VALUE, etag, NZF_TOO_SHORT, nzf_device_get(&w->device, TEXT("/e"), bytes, 1, &value))
    CLAIM(asks(w, 0, 1, "/e", "", 0x45));
    ANSWERS(NZF_DONE, nzf_device_on_tick(&w->device, w->now, &chosen));
    FILLED(nzf_served, served, SHORT_SERVED, token, NZF_NOTHING, nzf_device_served(&w->device, &served, bytes, sizeof bytes))
    FILLED(nzf_refused, why, SHORT_REFUSED, has_token, NZF_NOTHING, nzf_device_refused(&w->device, &why))
    FILLED(nzf_result, result, SHORT_RESULT, etag, NZF_TOO_SHORT, nzf_client_result(&w->clients[0], &result, bytes, 1))
    ANSWERS(NZF_DONE, ask(w, 0, 3, "/e", "shut"));
    datagram request = w->queue[0];
    w->waiting = 0;
    ANSWERS(NZF_DONE, nzf_device_on_datagram(&w->device, w->now, &request.from, request.bytes, request.length, &chosen));
    FILLED(nzf_served, served, SHORT_SERVED, token, NZF_TOO_SHORT, nzf_device_served(&w->device, &served, bytes, 1))
    FILLED(nzf_served, served, SHORT_SERVED, token, NZF_DONE, nzf_device_served(&w->device, &served, bytes, sizeof bytes))
    request.bytes[2] ^= 0x55;
    request.bytes[request.length - 1] ^= 1;
    ANSWERS(NZF_DONE, nzf_device_on_datagram(&w->device, w->now, &request.from, request.bytes, request.length, &chosen));
    FILLED(nzf_refused, why, SHORT_REFUSED, has_token, NZF_DONE, nzf_device_refused(&w->device, &why))
}

/* What a step changed is told to a struct of its own size alone; else nothing is written. */
static void changed_sizes(world *w) {
    uint8_t bytes[ROOM], code;
    nzf_change it, before;
    CLAIM(opens(w) && writes(w, 3, "/e", "open", &code) == NZF_DONE);
    for (nzf_size size = 0; size <= 2 * sizeof it; size++) {
        memset(&it, 0xee, sizeof it);
        it.size = size;
        before = it;
        bytes[0] = 0xee;
        if (size == sizeof it) {
            ANSWERS(NZF_DONE, nzf_device_changed(&w->device, &it, bytes, sizeof bytes));
            CLAIM(it.size == size && it.is_there == 1 && it.waits == 0 && it.format == 0 && it.path_length == 2 && it.payload_length == 4);
            continue;
        }
        IS_BAD(nzf_device_changed(&w->device, &it, bytes, sizeof bytes));
        CLAIM(memcmp(&it, &before, sizeof it) == 0 && bytes[0] == 0xee);
    }
}

/* A shorter struct may be all that there is: nothing is read or written after its end, which valgrind sees. */
static void at_the_end(world *w) {
    uint8_t bytes[ROOM], code;
    nzf_size size = SHORT_SERVED;
    nzf_served *it = malloc(SHORT_SERVED);
    CLAIM(it != NULL && opens(w) && writes(w, 3, "/e", "open", &code) == NZF_DONE && exchange(w, 0));
    if (!it) return;
    ANSWERS(NZF_DONE, ask(w, 0, 3, "/e", "shut"));
    datagram request = w->queue[0];
    nzf_draw chosen = draw();
    w->waiting = 0;
    memcpy(it, &size, sizeof size);
    ANSWERS(NZF_DONE, nzf_device_on_datagram(&w->device, w->now, &request.from, request.bytes, request.length, &chosen));
    ANSWERS(NZF_DONE, nzf_device_served(&w->device, it, bytes, sizeof bytes));
    free(it);
}

/* What a shorter struct is told is what a whole one is, less its last members. */
static void told_in_short(world *w) {
    uint8_t bytes[ROOM];
    nzf_value value = NZF_VALUE, less_of_value = NZF_VALUE;
    nzf_result result = NZF_RESULT, less_of_result = NZF_RESULT;
    uint8_t code;
    less_of_value.size = SHORT_VALUE;
    less_of_result.size = SHORT_RESULT;
    CLAIM(opens(w) && writes(w, 3, "/e", "open", &code) == NZF_DONE && exchange(w, 0) && asks(w, 0, 1, "/e", "", 0x45));
    ANSWERS(NZF_DONE, nzf_device_get(&w->device, TEXT("/e"), bytes, sizeof bytes, &value));
    ANSWERS(NZF_DONE, nzf_device_get(&w->device, TEXT("/e"), bytes, sizeof bytes, &less_of_value));
    CLAIM(less_of_value.format == value.format && less_of_value.length == 4 && less_of_value.etag.length == 0 && value.etag.length == 8);
    ANSWERS(NZF_DONE, nzf_client_result(&w->clients[0], &result, bytes, sizeof bytes));
    ANSWERS(NZF_DONE, nzf_client_result(&w->clients[0], &less_of_result, bytes, sizeof bytes));
    CLAIM(less_of_result.what == result.what && less_of_result.code == 0x45 && less_of_result.format == result.format && less_of_result.length == 4);
    CLAIM(less_of_result.etag.length == 0 && memcmp(&result.etag, &value.etag, sizeof value.etag) == 0);
}

/* Each outcome has a text of its own, and another number that of none. */
static void words(void) {
    const char *none = nzf_outcome_text(-1);
    CLAIM(nzf_version() == NZF_VERSION);
    for (nzf_size at = 0; at < sizeof NUMBERS / sizeof NUMBERS[0]; at++) {
        CLAIM(strcmp(nzf_outcome_text(NUMBERS[at]), none) != 0);
        for (nzf_size other = 0; other < at; other++) CLAIM(strcmp(nzf_outcome_text(NUMBERS[at]), nzf_outcome_text(NUMBERS[other])) != 0);
    }
    CLAIM(strcmp(nzf_outcome_text(1), none) == 0 && strcmp(nzf_outcome_text(INT32_MAX), none) == 0);
}

/* What is no rule makes no device, and what is held stays. */
static void bad_rules(void) {
    static const char *const BAD_ROOTS[] = {"/", "gone", "//", "/a/b/c/d/e", "/a/b/c/d/", "/123456789012345678901234567890123", "/\xff"};
    nzf_device it = {0};
    rules its = {KEY, 0, 0};
    for (nzf_size at = 0; at < sizeof BAD_ROOTS / sizeof BAD_ROOTS[0]; at++) IS_BAD(device_with(&it, &its, BAD_ROOTS[at], "/e:GET"));
    its.has_old_key = 2;
    IS_BAD(device_with(&it, &its, "", "/e:GET"));
    CLAIM(!it.held && held == 0);
    its.has_old_key = 1;
    its.context_seconds = UINT32_MAX;
    ANSWERS(NZF_BAD_SCOPE, device_with(&it, &its, "/gone", "/e:get"));
    ANSWERS(NZF_DONE, device_with(&it, &its, "", "/e:GET"));
    ANSWERS(NZF_DONE, device_with(&it, &its, "/a/b/c/d", "/e:GET"));
    nzf_device before;
    memcpy(&before, &it, sizeof it);
    IS_BAD(device_with(&it, &its, "gone", "/e:GET"));
    CLAIM(memcmp(&before, &it, sizeof it) == 0);
    nzf_device_free(&it);
}

enum { MOST_ENTRIES = 4000, ENTRY = 20 };

/* A device whose own scope has so many entries. */
static int32_t of_long_scope(nzf_device *it, nzf_size entries) {
    static char scope[MOST_ENTRIES * ENTRY + 1];
    nzf_device_settings its = settings_for("");
    for (nzf_size at = 0; at < entries; at++) snprintf(scope + at * ENTRY, ENTRY + 1, "/aaaaaaaaaa%04u:GET,", (unsigned)(at % 10000));
    its.unprotected = nzf_text("");
    its.own = nzf_bytes_of(scope, entries * ENTRY - 1);
    return device_of(it, &its);
}

/* A scope that is longer than a token may be, one whose token's post fits no datagram, and one whose token's does: 1028 bytes of the 1033 that may be. */
static void a_long_scope(void) {
    nzf_device it = {0};
    nzf_draws draws = two_draws();
    uint8_t code;
    ANSWERS(NZF_TOO_LONG, of_long_scope(&it, MOST_ENTRIES));
    ANSWERS(NZF_TOO_LONG, of_long_scope(&it, 58));
    CLAIM(!it.held && held == 0);
    ANSWERS(NZF_DONE, of_long_scope(&it, 57));
    ANSWERS(NZF_DONE, nzf_device_open(&it, 0, &draws, &code));
    nzf_device_free(&it);
}

static const char *const BAD_PATHS[] = {"", "/", "e", "//", "/e/", "/a/b/c/d/e/f/g/h/i", "/123456789012345678901234567890123", "/\xff"};

static void bad_paths(world *w) {
    nzf_value value = NZF_VALUE;
    uint8_t bytes[ROOM], code;
    for (nzf_size at = 0; at < sizeof BAD_PATHS / sizeof BAD_PATHS[0]; at++) {
        const char *path = BAD_PATHS[at];
        for (uint8_t method = 2; method <= 4; method++) IS_BAD(writes(w, method, path, "x", &code));
        IS_BAD(nzf_device_get(&w->device, path, strlen(path), bytes, sizeof bytes, &value));
        IS_BAD(ask(w, 0, 1, path, ""));
    }
    CLAIM(writes(w, 3, "/d/b/c/d/e/f/g/h", "x", &code) == NZF_DONE && code == 0x41);
    CLAIM(writes(w, 3, "/d/12345678901234567890123456789012", "x", &code) == NZF_DONE && code == 0x41);
}

static void bad_moments(world *w) {
    const uint64_t late = UINT64_C(1) << 63;
    nzf_draw it = draw();
    nzf_draws draws = two_draws();
    nzf_peer from = peer(STRANGER_PORT), nowhere = NZF_IPV4(0, 0, 0, 0, 1);
    nzf_resource resource = value_at("/e", NZF_NO_FORMAT, "x");
    nzf_request request = NZF_REQUEST;
    uint8_t code;
    request.path = nzf_text("/e");
    IS_BAD(nzf_device_open(&w->device, late, &draws, &code));
    IS_BAD(nzf_device_put(&w->device, late, &resource, &draws, &code));
    ANSWERS(NZF_DONE, new_device_with(&w->device));
    IS_BAD(nzf_device_revoke(&w->device, late, TEXT("1"), &draws, &code));
    IS_BAD(nzf_device_allow(&w->device, late, TEXT("1"), &draws, &code));
    IS_BAD(nzf_device_on_datagram(&w->device, late, &from, TEXT("x"), &it));
    IS_BAD(nzf_device_on_datagram(&w->device, w->now, &nowhere, TEXT("x"), &it));
    IS_BAD(nzf_device_on_tick(&w->device, UINT64_MAX, &it));
    IS_BAD(nzf_client_exchange(&w->clients[0], late, &it));
    IS_BAD(nzf_client_ask(&w->clients[0], late, &request, &it));
    IS_BAD(nzf_client_on_datagram(&w->clients[0], late, &from, TEXT("x")));
    IS_BAD(nzf_client_on_tick(&w->clients[0], late));
    IS_BAD(nzf_proxy_on_datagram(&w->proxy, late, &from, TEXT("x"), &it));
    IS_BAD(nzf_proxy_on_tick(&w->proxy, late, &it));
}

static int32_t asks_with(world *w, uint8_t method, int32_t format, int32_t accept, uint8_t if_match_length, uint8_t if_none_match, uint8_t if_match) {
    nzf_draw it = draw();
    nzf_request asked = NZF_REQUEST;
    asked.method = method;
    asked.path = nzf_text("/e");
    asked.options.if_none_match = if_none_match;
    asked.options.if_match = if_match;
    asked.options.format = format;
    asked.options.accept = accept;
    asked.options.if_match_length = if_match_length;
    return nzf_client_ask(&w->clients[0], w->now, &asked, &it);
}

static void bad_requests(world *w) {
    nzf_draws draws = two_draws();
    nzf_resource below_all = value_at("/e", -2, "x"), above_all = value_at("/e", 65536, "x"), least = value_at("/e", INT32_MIN, "x");
    uint8_t code;
    IS_BAD(nzf_device_put(&w->device, w->now, &below_all, &draws, &code));
    IS_BAD(nzf_device_put(&w->device, w->now, &above_all, &draws, &code));
    IS_BAD(nzf_device_append(&w->device, w->now, &least, &draws, &code));
    IS_BAD(asks_with(w, 0, -1, -1, 0, 0, 0));
    IS_BAD(asks_with(w, 5, -1, -1, 0, 0, 0));
    IS_BAD(asks_with(w, 1, -2, -1, 0, 0, 0));
    IS_BAD(asks_with(w, 1, 65536, -1, 0, 0, 0));
    IS_BAD(asks_with(w, 1, -1, 65536, 0, 0, 0));
    IS_BAD(asks_with(w, 1, -1, -1, 9, 0, 1));
    IS_BAD(asks_with(w, 1, -1, -1, 0, 2, 0));
    IS_BAD(asks_with(w, 1, -1, -1, 0, 0, 2));
    ANSWERS(NZF_DONE, asks_with(w, 1, 65535, 0, 8, 0, 1));
}

static int32_t client_of(nzf_size host, nzf_size secret, nzf_size salt, nzf_size context, uint8_t has_context, uint8_t algorithm) {
    static const uint8_t bytes[300] = {1};
    nzf_client it = {0};
    nzf_client_settings its = NZF_CLIENT_SETTINGS;
    its.next_hop = peer(DEVICE_PORT);
    its.host = nzf_bytes_of(bytes, host);
    its.port = DEVICE_PORT;
    its.token = nzf_bytes_of(bytes, 40);
    its.secret = nzf_bytes_of(bytes, secret);
    its.salt = nzf_bytes_of(bytes, salt);
    its.context = nzf_bytes_of(bytes, context);
    its.has_context = has_context;
    its.algorithm = algorithm;
    int32_t number = nzf_client_new(&it, &its);
    nzf_client_free(&it);
    return number;
}

static void bad_clients(void) {
    ANSWERS(NZF_DONE, client_of(0, 1, 0, 0, 0, 10));
    ANSWERS(NZF_DONE, client_of(255, 64, 64, 64, 1, 30));
    IS_BAD(client_of(256, 1, 0, 0, 0, 10));
    IS_BAD(client_of(0, 0, 0, 0, 0, 10));
    IS_BAD(client_of(0, 65, 0, 0, 0, 10));
    IS_BAD(client_of(0, 1, 65, 0, 0, 10));
    IS_BAD(client_of(0, 1, 0, 65, 1, 10));
    IS_BAD(client_of(0, 1, 0, 0, 2, 10));
    IS_BAD(client_of(0, 1, 0, 0, 0, 11));
    CLAIM(held == 0);
}

static int32_t token_of(nzf_size id, nzf_size secret, nzf_size context, uint8_t has_context, const char *scope, uint8_t algorithm) {
    static const uint8_t bytes[100] = {1};
    nzf_claims it = NZF_CLAIMS;
    uint8_t token[512];
    nzf_size length = 0;
    it.key = KEY;
    it.iv.bytes[0] = 1;
    it.audience = nzf_text("door");
    it.id = nzf_bytes_of(bytes, id);
    it.secret = nzf_bytes_of(bytes, secret);
    it.context = nzf_bytes_of(bytes, context);
    it.has_context = has_context;
    it.scope = nzf_text(scope);
    it.algorithm = algorithm;
    return nzf_token_mint(&it, token, sizeof token, &length);
}

static void tokens(void) {
    uint8_t one[512], other[512];
    nzf_size needed = 0, length = 0;
    ANSWERS(NZF_TOO_SHORT, mint(0, one, 0, &needed));
    CLAIM(needed > 0 && needed <= sizeof one);
    ANSWERS(NZF_TOO_SHORT, mint(0, one, needed - 1, &length));
    CLAIM(length == needed);
    ANSWERS(NZF_DONE, mint(0, one, needed, &length));
    ANSWERS(NZF_DONE, mint(0, other, sizeof other, &length));
    CLAIM(length == needed && memcmp(one, other, needed) == 0);
    ANSWERS(NZF_DONE, token_of(0, 1, 0, 0, "/e:GET", 10));
    ANSWERS(NZF_BAD_SCOPE, token_of(0, 1, 0, 0, "", 10));
    ANSWERS(NZF_DONE, token_of(64, 64, 64, 1, "/e:GET", 30));
    IS_BAD(token_of(65, 1, 0, 0, "/e:GET", 10));
    IS_BAD(token_of(1, 0, 0, 0, "/e:GET", 10));
    IS_BAD(token_of(1, 65, 0, 0, "/e:GET", 10));
    IS_BAD(token_of(1, 1, 65, 1, "/e:GET", 10));
    IS_BAD(token_of(1, 1, 0, 2, "/e:GET", 10));
    IS_BAD(token_of(1, 1, 0, 0, "/e:GET", 0));
    ANSWERS(NZF_BAD_SCOPE, token_of(1, 1, 0, 0, "/e", 10));
    CLAIM(held == 0);
}

/* ---- what a device does for itself */

static void writing(world *w) {
    static char long_text[2000];
    uint8_t code = 0;
    memset(long_text, 'x', sizeof long_text - 1);
    ANSWERS(NZF_NO_CONTEXT, writes(w, 3, "/e", "x", &code));
    if (!opens(w)) return;
    CLAIM(writes(w, 3, "/e", "x", &code) == NZF_DONE && code == 0x41);
    CLAIM(writes(w, 3, "/e", "y", &code) == NZF_DONE && code == 0x44);
    CLAIM(writes(w, 3, "/none", "y", &code) == NZF_DONE && code == 0x83);
    CLAIM(writes(w, 3, "/log", "y", &code) == NZF_DONE && code == 0x85);
    CLAIM(writes(w, 2, "/log", "y", &code) == NZF_DONE && code == 0x41);
    CLAIM(writes(w, 4, "/log", "", &code) == NZF_DONE && code == 0x42);
    CLAIM(writes(w, 4, "/log", "", &code) == NZF_DONE && code == 0x42);
    ANSWERS(NZF_TOO_LONG, writes(w, 3, "/e", long_text, &code));
    long_text[513] = '\0';
    CLAIM(writes(w, 3, "/e", long_text, &code) == NZF_DONE && code == 0x8d);
    CLAIM(reads(w, "/e", "y"));
    long_text[512] = '\0';
    CLAIM(writes(w, 3, "/e", long_text, &code) == NZF_DONE && code == 0x44);
    CLAIM(reads(w, "/e", long_text));
}

/* A token that is revoked makes no context, and its context serves nothing, until it is let in again. Others are served all the same. */
static void revoking(world *w) {
    uint8_t code = 0xee;
    const uint8_t id = 1;
    ANSWERS(NZF_DONE, new_device_with(&w->device));
    ANSWERS(NZF_NO_CONTEXT, revokes(w, 1, &id, 1, &code));
    CLAIM(code == 0 && opens(w) && written(w, 3, "/e", "open", 0x41) && exchange(w, 0) && exchange(w, 1));
    CLAIM(asks(w, 0, 1, "/e", "", 0x45) && asks(w, 1, 1, "/e", "", 0x45));
    CLAIM(revoked(w, 1, 0, 0x41) && reads(w, "/gone/01", ""));
    ANSWERS(NZF_DONE, ask(w, 0, 1, "/e", ""));
    CLAIM(quiet(w) && w->results[0].what == NZF_RESULT_ENDED && w->results[0].code == 0x81);
    CLAIM(w->why.code == 0x81 && w->why.reason == 22);
    CLAIM(is_shut_out(w, 0) && w->why.code == 0x81 && w->why.reason == 38);
    CLAIM(asks(w, 1, 1, "/e", "", 0x45) && revoked(w, 1, 0, 0x44));
    CLAIM(revoked(w, 0, 0, 0x42) && revoked(w, 0, 0, 0x42));
    CLAIM(exchange(w, 0) && asks(w, 0, 1, "/e", "", 0x45));
}

/* Ids that have no path: of a device without a revocation path, and where the digits are too many. And ids that its own scope doesn't name. */
static void not_revoked(world *w) {
    static const uint8_t ids[65] = {1};
    rules its = {KEY, 0, 0};
    uint8_t code = 0xee;
    CLAIM(opens(w));
    IS_BAD(revokes(w, 1, ids, 1, &code));
    IS_BAD(revokes(w, 0, ids, 1, &code));
    CLAIM(code == 0);
    ANSWERS(NZF_DONE, device_with(&w->device, &its, "/a/b/c/d", "/a/b/c/d:PUT+DELETE+SUB"));
    CLAIM(opens(w));
    ANSWERS(NZF_BAD_ARGUMENT, revokes(w, 1, ids, 65, &code));
    ANSWERS(NZF_BAD_ARGUMENT, revokes(w, 0, ids, 65, &code));
    CLAIM(revokes(w, 1, ids, 64, &code) == NZF_DONE && code == 0x41 && revokes(w, 0, ids, 64, &code) == NZF_DONE && code == 0x42);
    CLAIM(revokes(w, 1, ids, 33, &code) == NZF_DONE && code == 0x41);
    CLAIM(reads(w, "/a/b/c/d/01000000000000000000000000000000/00000000000000000000000000000000/00", ""));
    CLAIM(revokes(w, 1, ids, 0, &code) == NZF_DONE && code == 0x41 && reads(w, "/a/b/c/d", ""));
    ANSWERS(NZF_DONE, device_with(&w->device, &its, "/gone", "/e:PUT,/gone:DELETE+SUB"));
    CLAIM(opens(w) && revokes(w, 1, ids, 1, &code) == NZF_REFUSED && code == 0x85);
    ANSWERS(NZF_DONE, device_with(&w->device, &its, "/gone", "/e:PUT"));
    CLAIM(opens(w) && written(w, 3, "/e", "open", 0x41) && revokes(w, 1, ids, 1, &code) == NZF_REFUSED && code == 0x83);
    CLAIM(revokes(w, 0, ids, 1, &code) == NZF_DONE && code == 0x83);
    CLAIM(exchange(w, 0) && asks(w, 0, 1, "/e", "", 0x45));
}

/* A device that refuses +SUB takes no token that has it, and has none of its own. */
static void no_subtrees(world *w) {
    nzf_device_settings its = settings_for("/e:PUT,/d:PUT+SUB");
    its.no_subtrees = 1;
    ANSWERS(NZF_BAD_SCOPE, device_of(&w->device, &its));
    its.own = nzf_text("/e:PUT");
    its.no_subtrees = 2;
    IS_BAD(device_of(&w->device, &its));
    its.no_subtrees = 1;
    ANSWERS(NZF_DONE, device_of(&w->device, &its));
    CLAIM(opens(w) && written(w, 3, "/e", "open", 0x41) && exchange(w, 0) && asks(w, 0, 1, "/e", "", 0x45));
    granted = "/e:GET+SUB";
    ANSWERS(NZF_DONE, new_client(&w->clients[0], 0));
    CLAIM(is_refused_by(w, 0, 0x80) && w->why.reason == 24);
    its.no_subtrees = 0;
    ANSWERS(NZF_DONE, device_of(&w->device, &its));
    CLAIM(opens(w) && written(w, 3, "/e", "open", 0x41) && exchange(w, 0) && asks(w, 0, 1, "/e", "", 0x45));
    granted = SCOPE;
}

/* A token under the former key makes a context at a device that has it, and at no other. */
static void former_key(world *w) {
    rules its = {OLD_KEY, 0, 0};
    ANSWERS(NZF_DONE, new_client_under(&OLD_KEY, &w->clients[0], 0));
    ANSWERS(NZF_DONE, device_with(&w->device, &its, "", "/e:PUT"));
    CLAIM(is_shut_out(w, 0) && w->why.reason == 25);
    its.has_old_key = 1;
    ANSWERS(NZF_DONE, device_with(&w->device, &its, "", "/e:PUT"));
    CLAIM(opens(w) && written(w, 3, "/e", "open", 0x41));
    CLAIM(exchange(w, 0) && exchange(w, 1) && asks(w, 0, 1, "/e", "", 0x45) && asks(w, 1, 1, "/e", "", 0x45));
}

/* The moments of a lock, over readings of its two clocks. */
static void moments(void) {
    static const uint64_t START = UINT64_C(1700000000000), MONTH = UINT64_C(30) * 86400000;
    clocks it = {0};
    CLAIM(moment_of(&it, START, 500) == START);
    CLAIM(moment_of(&it, START + MONTH, 600) == START + 100 && moment_of(&it, START + 200, 700) == START + 200);
    CLAIM(moment_of(&it, START - 3600000, 1500) == START + 1000 && moment_of(&it, START - 3500000, 101500) == START + 101000);
    CLAIM(moment_of(&it, START + 106500, 102000) == START + 101500 && moment_of(&it, START + MONTH, 150000) == START + 149500);
    CLAIM(moment_of(&it, START + 163500, 161999) == START + 161499);
    CLAIM(moment_of(&it, START + 169500, 162000) == START + 163501);
    CLAIM(moment_of(&it, START, 163000) == START + 164501);
}

/* Ten seconds after its post a context counts no more, the device's own neither; and that post, in a new message, is known. */
static void ten_seconds(world *w) {
    uint8_t code = 0xee;
    nzf_size made;
    ANSWERS(NZF_DONE, new_device_with(&w->device));
    CLAIM(opens(w) && written(w, 3, "/e", "open", 0x41));
    made = w->sent;
    CLAIM(exchange(w, 0));
    datagram post = w->past[made % PAST];
    post.bytes[2] ^= 0x55;
    w->now += 9999;
    CLAIM(asks(w, 0, 1, "/e", "", 0x45) && written(w, 3, "/e", "shut", 0x44));
    w->now += 1;
    ANSWERS(NZF_DONE, ask(w, 0, 1, "/e", ""));
    CLAIM(quiet(w) && w->results[0].what == NZF_RESULT_ENDED && w->results[0].code == 0x81 && w->why.reason == 22);
    ANSWERS(NZF_UNVERIFIED, writes(w, 3, "/e", "x", &code));
    CLAIM(code == 0x81);
    w->results[0].what = 0;
    ANSWERS(NZF_DONE, deliver(w, &post));
    CLAIM(w->why.code == 0x81 && w->why.reason == 23);
    w->waiting = 0;
    CLAIM(opens(w) && written(w, 3, "/e", "open", 0x44) && exchange(w, 0) && asks(w, 0, 1, "/e", "", 0x45));
}

static void reading(world *w) {
    uint8_t bytes[ROOM], code = 0;
    nzf_value value = NZF_VALUE;
    if (!opens(w)) return;
    CLAIM(writes(w, 3, "/e", "four", &code) == NZF_DONE);
    ANSWERS(NZF_NOTHING, nzf_device_get(&w->device, TEXT("/none"), bytes, sizeof bytes, &value));
    memset(bytes, 0xee, sizeof bytes);
    ANSWERS(NZF_TOO_SHORT, nzf_device_get(&w->device, TEXT("/e"), bytes, 3, &value));
    CLAIM(value.length == 4 && value.format == 0 && bytes[3] == 0xee);
    ANSWERS(NZF_DONE, nzf_device_get(&w->device, TEXT("/e"), bytes, value.length, &value));
    CLAIM(memcmp(bytes, "four", 4) == 0 && bytes[4] == 0xee);
}

/* A GET of an open path and one of another, from nobody: 2.05 and 4.01. */
static void unprotected(world *w) {
    static const uint8_t open[] = {0x40, 1, 0, 1, 0xb1, 'e'}, closed[] = {0x40, 1, 0, 2, 0xb1, 'f'};
    uint8_t bytes[ROOM], code = 0;
    nzf_peer from = peer(STRANGER_PORT), to;
    nzf_draw it = draw();
    nzf_size length = 0, told = 0;
    nzf_served served = NZF_SERVED;
    nzf_refused why = NZF_REFUSAL;
    if (!opens(w) || writes(w, 3, "/e", "four", &code) != NZF_DONE) return;
    ANSWERS(NZF_DONE, nzf_device_on_datagram(&w->device, w->now, &from, open, sizeof open, &it));
    ANSWERS(NZF_TOO_SHORT, nzf_device_next(&w->device, &to, bytes, 0, &length));
    ANSWERS(NZF_TOO_SHORT, nzf_device_next(&w->device, &to, bytes, length - 1, &told));
    CLAIM(told == length);
    ANSWERS(NZF_DONE, nzf_device_next(&w->device, &to, bytes, length, &told));
    CLAIM(told == length && bytes[1] == 0x45 && memcmp(bytes + length - 4, "four", 4) == 0);
    CLAIM(to.port == STRANGER_PORT && is_peer(&to, &from));
    ANSWERS(NZF_NOTHING, nzf_device_next(&w->device, &to, bytes, sizeof bytes, &length));
    ANSWERS(NZF_NOTHING, nzf_device_served(&w->device, &served, bytes, 0));
    ANSWERS(NZF_NOTHING, nzf_device_refused(&w->device, &why));
    ANSWERS(NZF_DONE, nzf_device_on_datagram(&w->device, w->now, &from, closed, sizeof closed, &it));
    ANSWERS(NZF_DONE, nzf_device_refused(&w->device, &why));
    CLAIM(why.code == 0x81 && why.reason == 0 && is_peer(&why.from, &from) && why.has_token == 0 && is_id(&why.token, "", 0));
    ANSWERS(NZF_DONE, nzf_device_on_tick(&w->device, w->now, &it));
    ANSWERS(NZF_NOTHING, nzf_device_refused(&w->device, &why));
    ANSWERS(NZF_NOTHING, nzf_device_next(&w->device, &to, bytes, sizeof bytes, &length));
}

/* ---- peers, ETags, ids of tokens */

/* An unprotected GET of /e from there, under this message ID: the answer goes there, and its first byte of payload is told; 0 where none came. */
static uint8_t got_from(world *w, const nzf_peer *from, uint8_t id) {
    const uint8_t get[] = {0x40, 1, 0, id, 0xb1, 'e'};
    uint8_t bytes[ROOM];
    nzf_draw it = draw();
    nzf_peer to;
    nzf_size length;
    if (nzf_device_on_datagram(&w->device, w->now, from, get, sizeof get, &it) != NZF_DONE) return 0;
    if (nzf_device_next(&w->device, &to, bytes, sizeof bytes, &length) != NZF_DONE) return 0;
    return is_peer(&to, from) && bytes[1] == 0x45 ? bytes[length - 4] : 0;
}

/* Of each kind of address an answer goes to just whom it came from; and the functions of the header. */
static void peers(world *w) {
    static const uint8_t four[] = {192, 0, 2, 1}, zero[16] = {0};
    static const uint8_t most[16] = {255, 255, 255, 255, 255, 255, 255, 255, 255, 255, 255, 255, 255, 255, 255, 255};
    static const nzf_peer constant = NZF_IPV4(192, 0, 2, 1, 5683), blank = NZF_PEER;
    uint8_t back[4], code;
    nzf_peer it = nzf_ipv4(192, 0, 2, 1, 5683), nowhere = nzf_ipv4(0, 0, 0, 0, 7);
    nzf_draw chosen = draw();
    CLAIM(sizeof(nzf_peer) == 24 && is_peer(&it, &constant) && nzf_is_ipv4(&it) && it.scope == 0);
    nzf_ipv4_of(&it, back);
    CLAIM(memcmp(back, four, 4) == 0);
    nzf_peer same = nzf_ipv6(it.bytes, 0, 5683), zoned = nzf_ipv6(it.bytes, 1, 5683);
    CLAIM(is_peer(&same, &it) && nzf_is_ipv4(&same) && !nzf_is_ipv4(&zoned) && !nzf_is_ipv4(&blank));
    nzf_peer others[] = {it,
                         zoned,
                         nzf_ipv4(255, 255, 255, 255, 1),
                         nzf_ipv4(0, 0, 0, 1, 1),
                         v6(0, 0, 0, 0, 1),
                         v6(0, 0, 1, 0, 0),
                         v6(0xfe, 0x80, 1, 1, UINT16_MAX),
                         v6(0xfe, 0x80, 1, UINT32_MAX, 5683),
                         v6(0xff, 2, 1, 4, 5683),
                         v6(0x20, 1, 255, 0, 5683),
                         nzf_ipv6(zero, UINT32_MAX, 0),
                         nzf_ipv6(most, UINT32_MAX, UINT16_MAX)};
    CLAIM(opens(w) && writes(w, 3, "/e", "four", &code) == NZF_DONE);
    for (nzf_size at = 0; at < sizeof others / sizeof others[0]; at++) CLAIM(got_from(w, &others[at], 1) == 'f');
    for (uint32_t scope = 0; scope < 2; scope++) {
        nowhere.scope = scope;
        nowhere.port = (uint16_t)scope;
        IS_BAD(nzf_device_on_datagram(&w->device, w->now, &nowhere, TEXT("x"), &chosen));
    }
}

/* One address in two zones is two peers: the same message of the one is a repeat, and of the other it isn't. */
static void zones(world *w) {
    nzf_peer here = v6(0xfe, 0x80, 1, 1, 9), there = v6(0xfe, 0x80, 1, 2, 9);
    uint8_t code;
    CLAIM(opens(w) && writes(w, 3, "/e", "four", &code) == NZF_DONE && got_from(w, &here, 1) == 'f');
    CLAIM(writes(w, 3, "/e", "nine", &code) == NZF_DONE && got_from(w, &here, 1) == 'f' && got_from(w, &there, 1) == 'n');
}

static int32_t puts_where(world *w, const nzf_etag *it, const char *payload) {
    nzf_draw chosen = draw();
    nzf_request asked = NZF_REQUEST;
    asked.method = NZF_METHOD_PUT;
    asked.path = nzf_text("/e");
    asked.payload = nzf_text(payload);
    asked.options.if_match = 1;
    asked.options.if_match_length = it->length;
    memcpy(asked.options.if_match_bytes, it->bytes, sizeof it->bytes);
    w->results[0].what = 0;
    int32_t number = nzf_client_ask(&w->clients[0], w->now, &asked, &chosen);
    act_on_client(w, 0);
    return number;
}

static nzf_etag etag_at(world *w, const char *path) {
    nzf_value it = NZF_VALUE;
    uint8_t bytes[ROOM];
    if (nzf_device_get(&w->device, path, strlen(path), bytes, sizeof bytes, &it) != NZF_DONE) it.etag.length = 0;
    return it.etag;
}

/* What `get` tells, what the holder is told, and what `served` tells of that: one ETag for a value, and another one for another value. A PUT on condition of
 * it is done once. */
static void etags(world *w) {
    uint8_t code;
    CLAIM(opens(w) && writes(w, 3, "/e", "open", &code) == NZF_DONE && exchange(w, 0) && asks(w, 0, 1, "/e", "", 0x45));
    nzf_etag first = etag_at(w, "/e");
    CLAIM(first.length == 8 && memcmp(&w->results[0].etag, &first, sizeof first) == 0 && memcmp(&w->last.etag, &first, sizeof first) == 0);
    ANSWERS(NZF_DONE, puts_where(w, &first, "shut"));
    CLAIM(quiet(w) && w->results[0].what == NZF_RESULT_ANSWER && w->results[0].code == 0x44 && w->results[0].etag.length == 0 && w->last.etag.length == 0);
    nzf_etag second = etag_at(w, "/e");
    CLAIM(second.length == 8 && memcmp(&second, &first, sizeof first) != 0);
    ANSWERS(NZF_DONE, puts_where(w, &first, "open"));
    CLAIM(quiet(w) && w->results[0].what == NZF_RESULT_ANSWER && w->results[0].code == 0x8c && w->results[0].etag.length == 0 && reads(w, "/e", "shut"));
    CLAIM(asks(w, 0, 1, "/e", "", 0x45) && memcmp(&w->results[0].etag, &second, sizeof second) == 0);
    CLAIM(asks(w, 0, 1, "/none", "", 0x83) && w->results[0].etag.length == 0 && w->last.etag.length == 0);
}

/* A client whose token has this id, and is for this audience. */
static int32_t client_named(nzf_client *client, const void *id, nzf_size length, const char *audience) {
    nzf_claims its = NZF_CLAIMS;
    nzf_client_settings it = NZF_CLIENT_SETTINGS;
    uint8_t token[512];
    nzf_size size = 0;
    its.key = KEY;
    its.iv.bytes[0] = 9;
    its.audience = nzf_text(audience);
    its.id = nzf_bytes_of(id, length);
    its.secret = it.secret = nzf_text("a secret");
    its.scope = nzf_text(SCOPE);
    int32_t number = nzf_token_mint(&its, token, sizeof token, &size);
    if (number != NZF_DONE) return number;
    it.next_hop = peer(DEVICE_PORT);
    it.token = nzf_bytes_of(token, size);
    return nzf_client_new(client, &it);
}

static const nzf_size ID_LENGTHS[] = {0, 1, 6, NZF_ID_MAX};

static nzf_id some_id(nzf_size length) {
    nzf_id it = NZF_ID;
    it.length = (uint8_t)length;
    for (nzf_size at = 0; at < length; at++) it.bytes[at] = (uint8_t)(0xff - at);
    return it;
}

/* Who was served is told by the id that was minted, of each length, whatever the answer is. */
static void ids(world *w) {
    CLAIM(opens(w) && written(w, 3, "/e", "open", 0x41));
    for (nzf_size at = 0; at < sizeof ID_LENGTHS / sizeof ID_LENGTHS[0]; at++) {
        nzf_id id = some_id(ID_LENGTHS[at]);
        ANSWERS(NZF_DONE, client_named(&w->clients[0], id.bytes, id.length, "door"));
        CLAIM(exchange(w, 0) && asks(w, 0, 1, "/e", "", 0x45) && is_id(&w->last.token, id.bytes, id.length));
        memset(&w->last.token, 0xee, sizeof w->last.token);
        CLAIM(asks(w, 0, 1, "/d", "", 0x83) && is_id(&w->last.token, id.bytes, id.length));
    }
}

/* A genuine token that is refused tells its id; a post of another one doesn't. */
static void ids_of_refused(world *w) {
    CLAIM(opens(w));
    for (nzf_size at = 0; at < sizeof ID_LENGTHS / sizeof ID_LENGTHS[0]; at++) {
        nzf_id id = some_id(ID_LENGTHS[at]);
        ANSWERS(NZF_DONE, client_named(&w->clients[0], id.bytes, id.length, "gate"));
        CLAIM(is_refused_by(w, 0, 0x83) && w->why.reason == NZF_REASON_AUDIENCE && w->why.has_token == 1 && is_id(&w->why.token, id.bytes, id.length));
    }
    ANSWERS(NZF_DONE, new_client_under(&OLD_KEY, &w->clients[0], 0));
    CLAIM(is_shut_out(w, 0) && w->why.reason == NZF_REASON_TOKEN_NOT_GENUINE && w->why.has_token == 0 && is_id(&w->why.token, "", 0));
}

/* Who was served is revoked by the id that was told, and then the refusal of its post tells it, too. */
static void revoked_by_id(world *w) {
    uint8_t code = 0;
    ANSWERS(NZF_DONE, new_device_with(&w->device));
    CLAIM(opens(w) && written(w, 3, "/e", "open", 0x41) && exchange(w, 1) && asks(w, 1, 1, "/e", "", 0x45));
    nzf_id id = w->last.token;
    CLAIM(revokes(w, 1, id.bytes, id.length, &code) == NZF_DONE && code == 0x41);
    ANSWERS(NZF_DONE, ask(w, 1, 1, "/e", ""));
    CLAIM(quiet(w) && w->results[1].what == NZF_RESULT_ENDED && w->why.reason == NZF_REASON_NO_CONTEXT && w->why.has_token == 0);
    CLAIM(is_shut_out(w, 1) && w->why.reason == NZF_REASON_REVOKED && w->why.has_token == 1 && memcmp(&w->why.token, &id, sizeof id) == 0);
    CLAIM(revokes(w, 0, w->why.token.bytes, w->why.token.length, &code) == NZF_DONE && code == 0x42 && exchange(w, 1));
}

/* ---- a whole exchange */

/* What the device tells of a request that it served, with room that is too short, and long enough. */
static void served_in_parts(world *w) {
    uint8_t bytes[ROOM];
    nzf_served it = NZF_SERVED;
    memset(bytes, 0xee, sizeof bytes);
    ANSWERS(NZF_TOO_SHORT, nzf_device_served(&w->device, &it, bytes, 0));
    ANSWERS(NZF_TOO_SHORT, nzf_device_served(&w->device, &it, bytes, 10));
    CLAIM(it.path_length == 2 && it.payload_length == 4 && it.context_length == 5 && bytes[0] == 0xee);
    CLAIM(is_id(&it.token, "\x01", 1) && it.etag.length == 0 && it.etag.bytes[0] == 0);
    memset(&it.token, 0xee, sizeof it.token);
    ANSWERS(NZF_DONE, nzf_device_served(&w->device, &it, bytes, 11));
    CLAIM(it.method == NZF_METHOD_PUT && it.code == 0x44 && it.number == 0 && it.has_context == 1);
    CLAIM(memcmp(bytes, "/eshutowner", 11) == 0 && bytes[11] == 0xee && is_id(&it.token, "\x01", 1));
}

/* The same datagram again is answered by the same bytes and not served; under another message ID by the same sealed payload, and not served either. With
 * another byte sealed it is refused. */
static void repeated(world *w, datagram request) {
    nzf_size served = w->served, refusals = w->refusals;
    datagram first = w->past[(w->sent - 1) % PAST];
    ANSWERS(NZF_DONE, deliver(w, &request));
    datagram second = w->past[(w->sent - 1) % PAST];
    CLAIM(w->served == served && first.length == second.length && memcmp(first.bytes, second.bytes, first.length) == 0);
    request.bytes[2] ^= 0x55;
    ANSWERS(NZF_DONE, deliver(w, &request));
    datagram third = w->past[(w->sent - 1) % PAST];
    CLAIM(w->served == served && w->refusals == refusals && third.length == first.length && third.bytes[2] != first.bytes[2]);
    CLAIM(memcmp(first.bytes + 4, third.bytes + 4, first.length - 4) == 0);
    request.bytes[3] ^= 0x55;
    request.bytes[request.length - 1] ^= 1;
    ANSWERS(NZF_DONE, deliver(w, &request));
    CLAIM(w->served == served && w->refusals == refusals + 1 && w->why.code == 0x81 && w->why.reason == 23);
    w->waiting = 0;
}

static void results_in_parts(world *w) {
    uint8_t bytes[ROOM];
    nzf_result it = NZF_RESULT;
    CLAIM(asks(w, 0, 1, "/e", "", 0x45));
    memset(bytes, 0xee, sizeof bytes);
    ANSWERS(NZF_TOO_SHORT, nzf_client_result(&w->clients[0], &it, bytes, 3));
    CLAIM(it.length == 4);
    ANSWERS(NZF_DONE, nzf_client_result(&w->clients[0], &it, bytes, 4));
    CLAIM(it.what == NZF_RESULT_ANSWER && it.code == 0x45 && it.length == 4 && it.format == -1);
    CLAIM(memcmp(bytes, "shut", 4) == 0 && bytes[4] == 0xee);
}

static void whole_exchange(world *w) {
    uint64_t number = 7;
    uint8_t code;
    CLAIM(opens(w) && writes(w, 3, "/e", "open", &code) == NZF_DONE);
    ANSWERS(NZF_NOTHING, nzf_client_context(&w->clients[0], &number));
    CLAIM(exchange(w, 0));
    ANSWERS(NZF_DONE, nzf_client_context(&w->clients[0], &number));
    CLAIM(number == 0);
    ANSWERS(NZF_DONE, ask(w, 0, 3, "/e", "shut"));
    ANSWERS(NZF_DONE, nzf_client_context(&w->clients[0], &number));
    CLAIM(number == 1 && w->waiting == 1);
    datagram request = w->queue[0];
    w->waiting = 0;
    ANSWERS(NZF_DONE, deliver(w, &request));
    served_in_parts(w);
    CLAIM(quiet(w) && w->results[0].what == NZF_RESULT_ANSWER && w->results[0].code == 0x44);
    /* (the acknowledgement is the last that was sent) */
    repeated(w, request);
    CLAIM(reads(w, "/e", "shut"));
    results_in_parts(w);
    CLAIM(exchange(w, 1) && asks(w, 1, 2, "/log", "b", 0x41) && asks(w, 1, 1, "/log", "", 0x45));
    CLAIM(w->last.context_length == 5 && memcmp(w->context, "guest", 5) == 0);
}

/* Where something is open, or there is no context, a client begins nothing and says why. */
static void not_begun(world *w) {
    nzf_draw it = draw();
    ANSWERS(NZF_DONE, ask(w, 0, 1, "/e", ""));
    CLAIM(w->results[0].what == NZF_RESULT_REFUSED && w->results[0].code == NZF_REASON_NO_CONTEXT && w->waiting == 0);
    ANSWERS(NZF_DONE, nzf_client_exchange(&w->clients[0], w->now, &it));
    act_on_client(w, 0);
    CLAIM(w->waiting == 1);
    w->results[0].what = 0;
    ANSWERS(NZF_DONE, nzf_client_exchange(&w->clients[0], w->now, &it));
    act_on_client(w, 0);
    CLAIM(w->results[0].what == NZF_RESULT_REFUSED && w->results[0].code == NZF_REASON_BUSY);
    CLAIM(w->waiting == 1 && quiet(w) && w->results[0].what == NZF_RESULT_MADE);
}

/* A call that has no memory leaves the node as it was: also the datagram that is to be taken, and what the last step served. */
static void as_before(world *w) {
    uint8_t bytes[ROOM], code;
    nzf_served it = NZF_SERVED;
    nzf_peer to, from = peer(STRANGER_PORT);
    nzf_draw chosen = draw();
    datagram request, answer;
    CLAIM(opens(w) && writes(w, 3, "/e", "open", &code) == NZF_DONE && exchange(w, 0));
    ANSWERS(NZF_DONE, ask(w, 0, 3, "/e", "shut"));
    request = w->queue[0];
    w->waiting = 0;
    ANSWERS(NZF_DONE, nzf_device_on_datagram(&w->device, w->now, &request.from, request.bytes, request.length, &chosen));
    plan(1, 1);
    ANSWERS(NZF_NO_MEMORY, nzf_device_on_datagram(&w->device, w->now, &from, "\x40\x01\x00\x01\xb1\x65", 6, &chosen));
    plan(0, 0);
    ANSWERS(NZF_DONE, nzf_device_served(&w->device, &it, bytes, sizeof bytes));
    CLAIM(it.method == 3 && it.number == 0);
    ANSWERS(NZF_DONE, nzf_device_next(&w->device, &to, answer.bytes, sizeof answer.bytes, &answer.length));
    CLAIM(to.port == CLIENT_PORT && answer.bytes[1] == 0x44);
    ANSWERS(NZF_NOTHING, nzf_device_next(&w->device, &to, answer.bytes, sizeof answer.bytes, &answer.length));
}

/* Calls that say nothing of the heap take none of it, and are done with a heap that refuses everything. */
static void without_heap(world *w) {
    uint8_t bytes[ROOM], code;
    uint64_t moment;
    nzf_size length;
    nzf_peer to;
    nzf_refused why = NZF_REFUSAL;
    nzf_result result = NZF_RESULT;
    nzf_served served = NZF_SERVED;
    nzf_change change = NZF_CHANGE;
    CLAIM(opens(w) && writes(w, 3, "/e", "open", &code) == NZF_DONE && exchange(w, 0) && exchange(w, 1));
    CLAIM(arrives(w, 3, "/e", "shut"));
    plan(1, 1);
    ANSWERS(NZF_DONE, nzf_device_served(&w->device, &served, bytes, sizeof bytes));
    ANSWERS(NZF_DONE, nzf_device_changed(&w->device, &change, bytes, sizeof bytes));
    ANSWERS(NZF_DONE, nzf_device_keep(&w->device, keeps_all, NULL));
    ANSWERS(NZF_DONE, nzf_device_next(&w->device, &to, bytes, sizeof bytes, &length));
    ANSWERS(NZF_NOTHING, nzf_device_next(&w->device, &to, bytes, sizeof bytes, &length));
    ANSWERS(NZF_NOTHING, nzf_device_next_deadline(&w->device, &moment));
    ANSWERS(NZF_NOTHING, nzf_device_refused(&w->device, &why));
    ANSWERS(NZF_NOTHING, nzf_device_learnt(&w->device, &code));
    ANSWERS(NZF_NOTHING, nzf_client_next(&w->clients[1], &to, bytes, sizeof bytes, &length));
    ANSWERS(NZF_NOTHING, nzf_client_next_deadline(&w->clients[1], &moment));
    ANSWERS(NZF_DONE, nzf_client_result(&w->clients[1], &result, bytes, sizeof bytes));
    ANSWERS(NZF_DONE, nzf_client_context(&w->clients[1], &moment));
    CLAIM(nzf_proxy_next(&w->proxy, &to, bytes, sizeof bytes, &length) != NZF_NO_MEMORY);
    CLAIM(nzf_proxy_next_deadline(&w->proxy, &moment) != NZF_NO_MEMORY);
    CLAIM(taken == 0);
    ANSWERS(NZF_DONE, nzf_device_restart(&w->device));
    ANSWERS(NZF_DONE, nzf_client_restart(&w->clients[0]));
    ANSWERS(NZF_DONE, nzf_proxy_restart(&w->proxy));
    free_world(w);
    CLAIM(taken == 0);
    plan(0, 0);
}

/* ---- a device whose owner keeps what steps change */

/* What the last step changed, told in parts and whole: this path and this value, which is null where it was deleted. */
static int is_changed(world *w, const char *path, const char *value, int waits) {
    uint8_t bytes[ROOM];
    nzf_change it = NZF_CHANGE, again = NZF_CHANGE;
    nzf_size whole = strlen(path) + (value == NULL ? 0 : strlen(value));
    memset(bytes, 0xee, sizeof bytes);
    if (nzf_device_changed(&w->device, &it, bytes, whole - 1) != NZF_TOO_SHORT || bytes[0] != 0xee) return 0;
    if (nzf_device_changed(&w->device, &again, bytes, whole) != NZF_DONE || bytes[whole] != 0xee) return 0;
    if (it.waits != waits || it.is_there != (value != NULL) || again.waits != it.waits || again.is_there != it.is_there) return 0;
    if (again.format != it.format || again.path_length != it.path_length || again.payload_length != it.payload_length) return 0;
    if (it.path_length != strlen(path) || memcmp(bytes, path, it.path_length) != 0) return 0;
    return value == NULL ? it.payload_length == 0 && it.format == NZF_NO_FORMAT
                         : it.payload_length == strlen(value) && memcmp(bytes + it.path_length, value, it.payload_length) == 0;
}

/* The last step changed nothing. */
static int is_unchanged(world *w) {
    uint8_t bytes[1];
    nzf_change it = NZF_CHANGE;
    return nzf_device_changed(&w->device, &it, bytes, sizeof bytes) == NZF_NOTHING;
}

/* Nothing is handed out, no step is made, and all stays; what only looks goes on. */
static int is_withheld(world *w) {
    uint8_t bytes[ROOM], code = 0xee, id = 1;
    nzf_draw it = draw();
    nzf_draws draws = two_draws();
    nzf_peer to, from = peer(STRANGER_PORT);
    nzf_size length = 7;
    uint64_t moment;
    nzf_value value = NZF_VALUE;
    nzf_resource resource = value_at("/e", 0, "later");
    return nzf_device_next(&w->device, &to, bytes, sizeof bytes, &length) == NZF_NOT_KEPT && length == 7
        && nzf_device_on_datagram(&w->device, w->now, &from, "\x40\x01\x00\x01\xb1\x65", 6, &it) == NZF_NOT_KEPT
        && nzf_device_on_tick(&w->device, w->now, &it) == NZF_NOT_KEPT && nzf_device_open(&w->device, w->now, &draws, &code) == NZF_NOT_KEPT && code == 0
        && nzf_device_put(&w->device, w->now, &resource, &draws, &code) == NZF_NOT_KEPT
        && nzf_device_append(&w->device, w->now, &resource, &draws, &code) == NZF_NOT_KEPT
        && nzf_device_remove(&w->device, w->now, "/e", 2, &draws, &code) == NZF_NOT_KEPT
        && nzf_device_revoke(&w->device, w->now, &id, 1, &draws, &code) == NZF_NOT_KEPT
        && nzf_device_allow(&w->device, w->now, &id, 1, &draws, &code) == NZF_NOT_KEPT && nzf_device_restart(&w->device) == NZF_NOT_KEPT
        && nzf_device_get(&w->device, "/e", 2, bytes, sizeof bytes, &value) == NZF_DONE
        && nzf_device_next_deadline(&w->device, &moment) != NZF_NOT_KEPT;
}

/* The device's answer comes to the holder: this code. */
static int is_answered(world *w, uint8_t code) {
    w->results[0].what = 0;
    act_on_device(w);
    return quiet(w) && w->results[0].what == NZF_RESULT_ANSWER && w->results[0].code == code;
}

/* What is told where nobody keeps it. */
static void changes(world *w) {
    uint8_t code = 0;
    CLAIM(opens(w) && is_unchanged(w));
    CLAIM(written(w, 3, "/e", "open", 0x41) && is_changed(w, "/e", "open", 0));
    ANSWERS(NZF_NOTHING, nzf_device_kept(&w->device, 1));
    ANSWERS(NZF_BAD_ARGUMENT, nzf_device_kept(&w->device, 2));
    CLAIM(writes(w, 3, "/log", "no", &code) == NZF_DONE && code == 0x85 && is_unchanged(w));
    CLAIM(exchange(w, 0) && is_unchanged(w));
    CLAIM(arrives(w, 3, "/e", "shut") && is_changed(w, "/e", "shut", 0) && is_answered(w, 0x44) && is_changed(w, "/e", "shut", 0));
    CLAIM(arrives(w, 1, "/e", "") && is_unchanged(w) && is_answered(w, 0x45));
    CLAIM(written(w, 2, "/log", "a", 0x41) && is_changed(w, "/log", "a", 0));
    CLAIM(written(w, 2, "/log", "b", 0x44) && is_changed(w, "/log", "ab", 0));
    CLAIM(written(w, 4, "/log", "", 0x42) && is_changed(w, "/log", NULL, 0));
    ANSWERS(NZF_DONE, nzf_device_restart(&w->device));
    CLAIM(is_unchanged(w));
}

/* Each step's change is kept before anything of the step is sent, also without memory; what changed nothing needs no keeping. */
static void keeping(world *w) {
    static store of;
    nzf_peer to;
    nzf_size length, calls;
    uint8_t bytes[ROOM];
    memset(&of, 0, sizeof of);
    CLAIM(opens(w) && written(w, 3, "/e", "open", 0x41));
    ANSWERS(NZF_DONE, nzf_device_keep(&w->device, keeps_all, &of));
    CLAIM(of.calls == 1 && is_kept(&of, "/e", "open") && is_changed(w, "/e", "open", 0));
    ANSWERS(NZF_DONE, nzf_device_keep(&w->device, keeps_all, &of));
    CLAIM(of.calls == 1 && exchange(w, 0));
    CLAIM(arrives(w, 3, "/e", "shut") && is_changed(w, "/e", "shut", 1) && is_withheld(w) && is_changed(w, "/e", "shut", 1));
    ANSWERS(NZF_BAD_ARGUMENT, nzf_device_kept(&w->device, 2));
    CLAIM(is_withheld(w));
    plan(1, 1);
    ANSWERS(NZF_DONE, nzf_device_keep(&w->device, keeps_all, &of));
    CLAIM(is_changed(w, "/e", "shut", 0) && taken == 0);
    plan(0, 0);
    CLAIM(of.calls == 2 && is_kept(&of, "/e", "shut") && is_answered(w, 0x44));
    ANSWERS(NZF_NOTHING, nzf_device_kept(&w->device, 1));
    ANSWERS(NZF_NOTHING, nzf_device_next(&w->device, &to, bytes, sizeof bytes, &length));
    calls = of.calls;
    CLAIM(arrives(w, 1, "/e", "") && is_answered(w, 0x45));
    ANSWERS(NZF_DONE, nzf_device_keep(&w->device, keeps_all, &of));
    CLAIM(of.calls == calls);
    CLAIM(written(w, 2, "/log", "a", 0x41) && is_withheld(w));
    ANSWERS(NZF_DONE, nzf_device_keep(&w->device, keeps_all, &of));
    CLAIM(is_kept(&of, "/log", "a") && written(w, 4, "/log", "", 0x42) && is_changed(w, "/log", NULL, 1));
    ANSWERS(NZF_DONE, nzf_device_keep(&w->device, keeps_all, &of));
    CLAIM(is_kept(&of, "/log", NULL) && of.count == 2);
}

/* What couldn't be kept: nothing of its step is ever sent, until the device is made again. */
static void not_kept(world *w) {
    static store of;
    uint8_t bytes[ROOM], code = 0;
    nzf_served served = NZF_SERVED;
    memset(&of, 0, sizeof of);
    CLAIM(opens(w) && written(w, 3, "/e", "open", 0x41) && exchange(w, 0));
    ANSWERS(NZF_DONE, nzf_device_keeps(&w->device));
    ANSWERS(NZF_DONE, nzf_device_keeps(&w->device));
    of.is_full = 1;
    CLAIM(arrives(w, 3, "/e", "shut"));
    ANSWERS(NZF_NOT_KEPT, nzf_device_keep(&w->device, keeps_all, &of));
    CLAIM(of.calls == 1 && is_withheld(w) && is_changed(w, "/e", "shut", 0));
    of.is_full = 0;
    ANSWERS(NZF_NOT_KEPT, nzf_device_keep(&w->device, keeps_all, &of));
    ANSWERS(NZF_NOT_KEPT, nzf_device_keeps(&w->device));
    ANSWERS(NZF_NOT_KEPT, nzf_device_kept(&w->device, 1));
    ANSWERS(NZF_NOT_KEPT, nzf_device_kept(&w->device, 0));
    CLAIM(of.calls == 1 && of.count == 0 && is_withheld(w));
    ANSWERS(NZF_DONE, nzf_device_served(&w->device, &served, bytes, sizeof bytes));
    ANSWERS(NZF_NOTHING, nzf_device_learnt(&w->device, &code));
    ANSWERS(NZF_DONE, new_device(&w->device));
    CLAIM(opens(w) && written(w, 3, "/e", "open", 0x41) && is_changed(w, "/e", "open", 0));
    ANSWERS(NZF_DONE, nzf_device_keeps(&w->device));
    CLAIM(is_withheld(w));
    ANSWERS(NZF_DONE, nzf_device_kept(&w->device, 0));
    CLAIM(is_withheld(w));
}

static int32_t device_of_kept(nzf_device *device, const nzf_resource *first, nzf_size count) {
    nzf_draw it = draw();
    nzf_device_settings settings = settings_for("/e:GET+PUT,/log:POST+DELETE");
    return nzf_device_new_with(device, &settings, first, count, &it);
}

/* A device that is made of what was kept has it from the start; none of it is a change, and a resource that can't be one makes no device. */
static void made_of_kept(world *w) {
    static char long_text[NZF_PAYLOAD_MAX + 2];
    nzf_resource first[3] = {NZF_RESOURCE, NZF_RESOURCE, NZF_RESOURCE}, bad;
    nzf_value value = NZF_VALUE;
    uint8_t bytes[ROOM];
    memset(long_text, 'x', NZF_PAYLOAD_MAX + 1);
    first[0] = value_at("/e", 7, "open");
    first[1] = value_at("/log", NZF_NO_FORMAT, "a");
    first[2] = value_at("/e", 0, "shut");
    ANSWERS(NZF_DONE, device_of_kept(&w->device, first, 3));
    ANSWERS(NZF_DONE, nzf_device_keeps(&w->device));
    CLAIM(is_unchanged(w) && reads(w, "/e", "shut") && reads(w, "/log", "a"));
    ANSWERS(NZF_DONE, nzf_device_get(&w->device, TEXT("/log"), bytes, sizeof bytes, &value));
    CLAIM(value.format == NZF_NO_FORMAT && opens(w) && is_unchanged(w));
    CLAIM(written(w, 2, "/log", "b", 0x44) && reads(w, "/log", "ab") && is_changed(w, "/log", "ab", 1));
    ANSWERS(NZF_DONE, device_of_kept(&w->device, first, 2));
    CLAIM(reads(w, "/e", "open"));
    for (nzf_size at = 0; at < sizeof BAD_PATHS / sizeof BAD_PATHS[0]; at++) {
        bad = value_at(BAD_PATHS[at], 0, "");
        ANSWERS(NZF_BAD_ARGUMENT, device_of_kept(&w->device, &bad, 1));
    }
    bad = value_at("/e", 65536, "");
    ANSWERS(NZF_BAD_ARGUMENT, device_of_kept(&w->device, &bad, 1));
    bad = value_at("/e", -2, "");
    ANSWERS(NZF_BAD_ARGUMENT, device_of_kept(&w->device, &bad, 1));
    bad = value_at("/e", 0, long_text);
    ANSWERS(NZF_BAD_ARGUMENT, device_of_kept(&w->device, &bad, 1));
    bad = value_at("/e", 0, "");
    bad.size++;
    ANSWERS(NZF_BAD_ARGUMENT, device_of_kept(&w->device, &bad, 1));
    CLAIM(reads(w, "/e", "open"));
    long_text[NZF_PAYLOAD_MAX] = '\0';
    bad = value_at("/e", 0, long_text);
    ANSWERS(NZF_DONE, device_of_kept(&w->device, &bad, 1));
    CLAIM(reads(w, "/e", long_text));
}

/* Nobody answers: it is sent again four times, and then ends. */
static void timed_out(world *w) {
    nzf_draw it = draw();
    uint64_t moment = 0;
    nzf_size sent;
    ANSWERS(NZF_NOTHING, nzf_client_next_deadline(&w->clients[0], &moment));
    ANSWERS(NZF_DONE, nzf_client_exchange(&w->clients[0], w->now, &it));
    act_on_client(w, 0);
    sent = w->sent;
    w->results[0].what = 0;
    for (nzf_size turn = 0; turn < 10 && nzf_client_next_deadline(&w->clients[0], &moment) == NZF_DONE; turn++) {
        CLAIM(moment > w->now);
        w->now = moment;
        ANSWERS(NZF_DONE, nzf_client_on_tick(&w->clients[0], w->now));
        act_on_client(w, 0);
    }
    CLAIM(w->sent == sent + 4 && w->results[0].what == NZF_RESULT_TIMED_OUT);
    w->waiting = 0;
}

/* Contexts are gone behind a restart, and resources stay. */
static void restarted(world *w) {
    uint8_t code;
    uint64_t number;
    CLAIM(opens(w) && writes(w, 3, "/e", "open", &code) == NZF_DONE && exchange(w, 0));
    ANSWERS(NZF_DONE, nzf_device_restart(&w->device));
    CLAIM(reads(w, "/e", "open"));
    ANSWERS(NZF_NO_CONTEXT, writes(w, 3, "/e", "shut", &code));
    ANSWERS(NZF_DONE, ask(w, 0, 1, "/e", ""));
    CLAIM(quiet(w) && w->results[0].what == NZF_RESULT_ENDED && w->results[0].code == 0x81);
    CLAIM(opens(w) && writes(w, 3, "/e", "shut", &code) == NZF_DONE && code == 0x44);
    CLAIM(exchange(w, 0) && asks(w, 0, 1, "/e", "", 0x45));
    ANSWERS(NZF_DONE, nzf_client_restart(&w->clients[0]));
    ANSWERS(NZF_NOTHING, nzf_client_context(&w->clients[0], &number));
    CLAIM(exchange(w, 0) && asks(w, 0, 1, "/e", "", 0x45));
}

/* With block `at` refused a write is left open, or isn't: where it is, the next tick that is due ends it, and tells what the write would have told. Nothing is
 * appended twice. Whether that block was asked for; `lost` counts. */
static nzf_size one_lost(world *w, nzf_size at, nzf_size *lost) {
    uint8_t code = 0xee;
    nzf_draw it = draw();
    CLAIM(opens(w));
    plan(at, 0);
    int32_t number = writes(w, 2, "/d", "a", &code);
    nzf_size reached = refused;
    plan(0, 0);
    if (number != NZF_LOST) return reached;
    (*lost)++;
    CLAIM(code == 0);
    ANSWERS(NZF_NOTHING, nzf_device_learnt(&w->device, &code));
    ANSWERS(NZF_BUSY, writes(w, 2, "/d", "b", &code));
    ANSWERS(NZF_DONE, nzf_device_next_deadline(&w->device, &w->now));
    ANSWERS(NZF_DONE, nzf_device_on_tick(&w->device, w->now, &it));
    code = 0xee;
    ANSWERS(NZF_DONE, nzf_device_learnt(&w->device, &code));
    CLAIM(code == 0x41 && reads(w, "/d", "a"));
    ANSWERS(NZF_NOTHING, nzf_device_next_deadline(&w->device, &w->now));
    ANSWERS(NZF_DONE, nzf_device_on_tick(&w->device, w->now, &it));
    code = 0xee;
    ANSWERS(NZF_NOTHING, nzf_device_learnt(&w->device, &code));
    CLAIM(code == 0xee);
    return reached;
}

static void learnt_later(void) {
    static world w;
    nzf_size lost = 0, reached = 1;
    for (nzf_size at = 1; reached > 0; at++) {
        if (!make_world(&w)) return;
        reached = one_lost(&w, at, &lost);
        free_world(&w);
        CLAIM(held == 0);
    }
    CLAIM(lost > 0);
}

static void targets(world *w) {
    nzf_peer to = peer(DEVICE_PORT);
    uint8_t host[256];
    memset(host, 'h', sizeof host);
    ANSWERS(NZF_DONE, nzf_proxy_add_target(&w->proxy, TEXT("gate"), 5683, &to));
    ANSWERS(NZF_DONE, nzf_proxy_add_target(&w->proxy, host, 255, 5683, &to));
    IS_BAD(nzf_proxy_add_target(&w->proxy, host, 256, 5683, &to));
    IS_BAD(nzf_proxy_add_target(&w->proxy, host, 0, 5683, &to));
    IS_BAD(nzf_proxy_set_outstanding(&w->proxy, 0));
    IS_BAD(nzf_proxy_set_outstanding(&w->proxy, 17));
    ANSWERS(NZF_DONE, nzf_proxy_set_outstanding(&w->proxy, 1));
    ANSWERS(NZF_DONE, nzf_proxy_set_outstanding(&w->proxy, 16));
    CLAIM(exchange(w, 1));
    ANSWERS(NZF_NOT_NOW, nzf_proxy_add_target(&w->proxy, TEXT("yard"), 5683, &to));
    ANSWERS(NZF_NOT_NOW, nzf_proxy_set_outstanding(&w->proxy, 1));
    ANSWERS(NZF_DONE, nzf_proxy_restart(&w->proxy));
    CLAIM(exchange(w, 1));
}

/* Each in a world of its own, behind which nothing is held. */
static void in_a_world(void (*of)(world *w)) {
    static world w;
    if (make_world(&w)) of(&w);
    free_world(&w);
    CLAIM(held == 0);
}

static void open_and_bad_paths(world *w) {
    if (opens(w)) bad_paths(w);
}

static void all_claims(void) {
    nothing_of_a_device();
    nothing_of_a_client();
    nothing_of_a_proxy();
    handles();
    bad_devices();
    bad_rules();
    a_long_scope();
    bad_clients();
    tokens();
    words();
    in_a_world(bad_sizes);
    in_a_world(filled_sizes);
    in_a_world(changed_sizes);
    in_a_world(at_the_end);
    in_a_world(told_in_short);
    in_a_world(peers);
    in_a_world(zones);
    in_a_world(etags);
    in_a_world(ids);
    in_a_world(ids_of_refused);
    in_a_world(revoked_by_id);
    in_a_world(open_and_bad_paths);
    in_a_world(bad_moments);
    in_a_world(bad_requests);
    in_a_world(writing);
    in_a_world(revoking);
    in_a_world(not_revoked);
    in_a_world(former_key);
    in_a_world(no_subtrees);
    moments();
    in_a_world(ten_seconds);
    in_a_world(reading);
    in_a_world(unprotected);
    in_a_world(whole_exchange);
    in_a_world(not_begun);
    in_a_world(as_before);
    in_a_world(without_heap);
    in_a_world(changes);
    in_a_world(keeping);
    in_a_world(not_kept);
    in_a_world(made_of_kept);
    in_a_world(timed_out);
    in_a_world(restarted);
    in_a_world(targets);
    learnt_later();
}

/* ---- a day with each block refused in turn */

static nzf_size refuse_in_turn(nzf_size apart) {
    static world w;
    for (nzf_size at = 1;; at += apart) {
        plan(at, 0);
        state = 7;
        int done = play(&w);
        nzf_size reached = refused;
        free_world(&w);
        CLAIM(held == 0);
        if (!reached) {
            nzf_size blocks = taken;
            CLAIM(done);
            plan(0, 0);
            return blocks;
        }
    }
}

/* ---- random calls */

static uint64_t digest;

static void tell(int32_t number) {
    CLAIM(is_a_number(number));
    if (number == NZF_NO_MEMORY || number == NZF_LOST) CLAIM(refused > 0);
    digest = (digest ^ (uint64_t)(uint32_t)number) * UINT64_C(1099511628211);
}

/* Bytes of no meaning, or what was sent once, whole or with a few bytes changed. */
static void some_datagram(world *w, datagram *it) {
    static const uint16_t PORTS[] = {DEVICE_PORT, PROXY_PORT, CLIENT_PORT, CLIENT_PORT + 1, STRANGER_PORT};
    if (w->sent == 0 || below(4) == 0) {
        it->length = below(4) ? below(64) : below(ROOM);
        for (nzf_size at = 0; at < it->length; at++) it->bytes[at] = (uint8_t)below(256);
        if (it->length > 0) it->bytes[0] = (uint8_t)(0x40 | (it->bytes[0] & 0x38));
        it->from = peer(PORTS[below(5)]);
        it->to = peer(PORTS[below(4)]);
        return;
    }
    *it = w->past[below(w->sent < PAST ? w->sent : PAST)];
    for (nzf_size change = below(3); change > 0 && it->length > 0; change--) {
        nzf_size at = below(it->length);
        it->bytes[at] ^= (uint8_t)(1 + below(255));
    }
    if (below(8) == 0) it->length = below(it->length + 1);
    if (below(8) == 0) it->from = peer(PORTS[below(5)]);
    if (below(8) == 0) it->to = peer(PORTS[below(4)]);
}

static void some_way(world *w) {
    datagram it;
    if (w->waiting > 0 && below(2)) {
        it = w->queue[0];
        memmove(w->queue, w->queue + 1, --w->waiting * sizeof(datagram));
    } else {
        some_datagram(w, &it);
    }
    int32_t number = deliver(w, &it);
    if (!refused) CLAIM(number == NZF_DONE || number == NZF_NOT_KEPT);
    tell(number);
}

static const char *some_path(void) {
    static const char *const PATHS[] = {"/e", "/log", "/d", "/d/a", "/none", "/d/b/c", "e", "/"};
    return PATHS[below(8)];
}

static const char *some_payload(void) {
    static char text[ROOM + 1];
    nzf_size length = below(8) ? below(20) : below(ROOM);
    memset(text, 'a' + (int)below(26), length);
    text[length] = '\0';
    return text;
}

/* Chance is asked in the same order by each compiler: not within the arguments of a call. */
static void some_call_of_a_client(world *w, nzf_size at) {
    nzf_draw it = draw();
    uint8_t method = (uint8_t)below(6);
    const char *path = some_path(), *payload = some_payload();
    nzf_size room = below(ROOM);
    nzf_result result = NZF_RESULT;
    result.size = some_size(sizeof result, SHORT_RESULT);
    uint8_t bytes[ROOM];
    uint64_t moment;
    switch (below(6)) {
    case 0: tell(nzf_client_exchange(&w->clients[at], w->now, &it)); break;
    case 1: tell(nzf_client_on_tick(&w->clients[at], w->now)); break;
    case 2: tell(nzf_client_next_deadline(&w->clients[at], &moment)); break;
    case 3: tell(nzf_client_result(&w->clients[at], &result, bytes, room)); break;
    default: tell(ask(w, at, method, path, payload)); break;
    }
    act_on_client(w, at);
}

static void some_call_of_a_device(world *w) {
    nzf_draw it = draw();
    nzf_draws draws = two_draws();
    nzf_value value = NZF_VALUE;
    nzf_served served = NZF_SERVED;
    nzf_refused why = NZF_REFUSAL;
    nzf_change change = NZF_CHANGE;
    nzf_peer to;
    nzf_size length;
    uint8_t bytes[ROOM], code = 0, method = (uint8_t)(2 + below(3));
    const char *path = some_path(), *payload = some_payload();
    nzf_size room = below(600), small = below(20);
    value.size = some_size(sizeof value, SHORT_VALUE);
    served.size = some_size(sizeof served, SHORT_SERVED);
    why.size = some_size(sizeof why, SHORT_REFUSED);
    change.size = some_size(sizeof change, sizeof change);
    w->keeps = below(4) > 0;
    switch (below(15)) {
    case 0: tell(nzf_device_open(&w->device, w->now, &draws, &code)); break;
    case 1: tell(nzf_device_on_tick(&w->device, w->now, &it)); break;
    case 2: tell(nzf_device_get(&w->device, path, strlen(path), bytes, room, &value)); break;
    case 3: tell(nzf_device_next(&w->device, &to, bytes, small, &length)); break;
    case 4: tell(nzf_device_served(&w->device, &served, bytes, small)); break;
    case 5: tell(nzf_device_learnt(&w->device, &code)); break;
    case 6: tell(nzf_device_revoke(&w->device, w->now, path, small % 4, &draws, &code)); break;
    case 7: tell(nzf_device_allow(&w->device, w->now, path, small % 4, &draws, &code)); break;
    case 8: tell(nzf_device_refused(&w->device, &why)); break;
    case 9: tell(nzf_device_changed(&w->device, &change, bytes, small)); break;
    case 10: tell(nzf_device_keep(&w->device, keeps_all, NULL)); break;
    case 11: tell(nzf_device_keeps(&w->device)); break;
    case 12: tell(nzf_device_kept(&w->device, (uint8_t)(small == 0 ? 0 : small == 1 ? 2 : 1))); break;
    default: tell(writes(w, method, path, payload, &code)); break;
    }
    act_on_device(w);
}

static void some_call_of_a_proxy(world *w) {
    nzf_draw it = draw();
    nzf_peer to = peer(DEVICE_PORT);
    uint64_t moment;
    switch (below(3)) {
    case 0: tell(nzf_proxy_add_target(&w->proxy, TEXT("gate"), 5683, &to)); break;
    case 1: tell(nzf_proxy_next_deadline(&w->proxy, &moment)); break;
    default: tell(nzf_proxy_on_tick(&w->proxy, w->now, &it)); break;
    }
    act_on_proxy(w);
}

/* A node starts again, is let go, or is made anew; every other time with a heap that refuses nothing, since a node takes many blocks. */
static void some_end(world *w) {
    nzf_size at = below(CLIENTS), kept = refuse;
    if (below(2)) refuse = 0;
    switch (below(8)) {
    case 0: nzf_device_free(&w->device); break;
    case 1: nzf_client_free(&w->clients[at]); break;
    case 2: nzf_proxy_free(&w->proxy); break;
    case 3: tell(nzf_device_restart(&w->device)); break;
    case 4: tell(nzf_client_restart(&w->clients[at])); break;
    case 5: tell(nzf_proxy_restart(&w->proxy)); break;
    default: break;
    }
    if (!w->device.held) tell(below(2) ? new_device(&w->device) : new_device_with(&w->device));
    if (!w->clients[at].held) tell(new_client(&w->clients[at], at));
    if (!w->proxy.held) tell(new_proxy(&w->proxy));
    refuse = kept;
}

static void some_calls(nzf_size count, nzf_size each) {
    static world w;
    plan(0, 0);
    digest = 0;
    state = 42;
    if (!make_world(&w)) return;
    plan(each, 1);
    for (nzf_size at = 0; at < count; at++) {
        nzf_size what = below(100);
        w.now += below(4) ? below(50) : below(3000);
        if (what < 60) some_way(&w);
        else if (what < 80) some_call_of_a_client(&w, below(CLIENTS));
        else if (what < 95) some_call_of_a_device(&w);
        else if (what < 99) some_call_of_a_proxy(&w);
        else some_end(&w);
    }
    plan(0, 0);
    printf("served %lu, refused %lu, sent %lu", (unsigned long)w.served, (unsigned long)w.refusals, (unsigned long)w.sent);
    free_world(&w);
    CLAIM(held == 0);
}

static nzf_size count_of(const char *text) {
    char *end;
    unsigned long long it = strtoull(text, &end, 10);
    if (text[0] < '0' || text[0] > '9' || *end != '\0') {
        fprintf(stderr, "harness: say harness [COUNT]\n");
        exit(2);
    }
    return (nzf_size)it;
}

int main(int words, char **word) {
    static const nzf_size EACH[] = {0, 2, 7, 50};
    nzf_size count = words > 1 ? count_of(word[1]) : 1000;
    state = 1;
    all_claims();
    printf("claims: %lu tried\n", (unsigned long)claims);
    nzf_size apart = count < 1000 ? 10 : 1, blocks = refuse_in_turn(apart);
    printf("a day of %lu blocks of the heap, each of them refused in turn, %lu apart\n", (unsigned long)blocks, (unsigned long)apart);
    for (nzf_size at = 0; at < sizeof EACH / sizeof EACH[0]; at++) {
        printf("%lu random calls, of the heap each block of %lu refused: ", (unsigned long)count, (unsigned long)EACH[at]);
        some_calls(count, EACH[at]);
        printf(", digest %08" PRIx32 "%08" PRIx32 "\n", (uint32_t)(digest >> 32), (uint32_t)digest);
    }
    printf("%lu claims, %lu don't hold\n", (unsigned long)claims, (unsigned long)broken);
    return broken ? 1 : 0;
}
