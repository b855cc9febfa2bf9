/* Nodes without memory, by nozzlefern.h. Each is brought to a state with ample memory in which something is open; then the heap is held to what it has and k bytes
   more, for each k from 0 to MOST by STEP; time goes on by ticks, and what is sent is lost. Whatever k is, each tick answers NZF_DONE and what was open ends. Then the heap is free
   again, and a new request is answered. Then what each node holds at the most. */
#include "measured.h"

#include <nozzlefern.h>

#define TEXT(text) (text), sizeof(text) - 1

enum { DATAGRAM = 1152, MOST = 4000, STEP = 16, TICK = 500, WAIT = 300000 };

static const nzf_key KEY = {{1}};
static const nzf_peer DEVICE_AT = NZF_IPV4(127, 0, 0, 1, 5683), PROXY_AT = NZF_IPV4(127, 0, 0, 1, 5690);
static uint64_t now;
static uint8_t bytes[DATAGRAM];
static size_t length;
static nzf_peer to;

static void must(int holds, const char *what) {
    if (holds) return;
    fprintf(stderr, "wanting: %s did not do what it was to do\n", what);
    exit(2);
}

/* Always the same ones (xorshift64*). */
static nzf_draw draw(void) {
    static uint64_t state = 1;
    nzf_draw it;
    for (size_t at = 0; at < sizeof it.bytes; at++) {
        state ^= state >> 12;
        state ^= state << 25;
        state ^= state >> 27;
        it.bytes[at] = (uint8_t)((state * UINT64_C(2685821657736338717)) >> 56);
    }
    return it;
}

static nzf_draws two_draws(void) {
    nzf_draws it = {draw(), draw()};
    return it;
}

static nzf_peer peer(unsigned number) {
    nzf_peer it = NZF_IPV4(10, 0, 0, 1, 0);
    it.port = (uint16_t)(6000 + number);
    return it;
}

/* What a node holds, and held at the most: each of its calls stands within AT. */
typedef struct {
    size_t held, most;
} heap;

static heap device_heap, client_heap, proxy_heap;
static size_t entered;

static void enter(void) { entered = peak = live; }

static int32_t leave(heap *of, int32_t told) {
    size_t most = of->held + (peak - entered);
    if (most > of->most) of->most = most;
    of->held += live - entered;
    return told;
}

#define AT(of, call) (enter(), leave(&(of), (call)))

/* ---- a device, and a client of it */

static nzf_device device;
static nzf_client client;
static nzf_proxy proxy;

enum { LONG = 4096 };
static uint8_t token[LONG];
static size_t token_length;

/* Mints a token of this number, with a secret, an id context and a scope. */
static int32_t mint(uint8_t number, nzf_bytes secret, nzf_bytes context, const char *scope) {
    nzf_claims it = NZF_CLAIMS;
    it.key = KEY;
    it.iv.bytes[0] = number;
    it.audience = nzf_text("door");
    it.id = nzf_bytes_of(&number, 1);
    it.secret = secret;
    it.context = context;
    it.has_context = context.length > 0;
    it.scope = nzf_text(scope);
    return nzf_token_mint(&it, token, sizeof token, &token_length);
}

static void new_device(const char *own) {
    nzf_device_settings its = NZF_DEVICE_SETTINGS;
    nzf_draw it = draw();
    nzf_draws draws = two_draws();
    uint8_t code;
    its.key = KEY;
    its.audience = nzf_text("door");
    its.unprotected = nzf_text("/e:GET");
    its.own = nzf_text(own);
    must(AT(device_heap, nzf_device_new(&device, &its, &it)) == NZF_DONE, "device_new");
    must(AT(device_heap, nzf_device_open(&device, now, &draws, &code)) == NZF_DONE, "device_open");
}

/* The device's own PUT. */
static int32_t put(const void *path, size_t path_length, int32_t format, const void *payload, size_t payload_length, uint8_t *code) {
    nzf_draws draws = two_draws();
    nzf_resource it = NZF_RESOURCE;
    it.path = nzf_bytes_of(path, path_length);
    it.format = format;
    it.payload = nzf_bytes_of(payload, payload_length);
    return AT(device_heap, nzf_device_put(&device, now, &it, &draws, code));
}

/* A client of the token that was minted last, behind this hop. */
static int32_t client_behind(nzf_peer hop, nzf_bytes host, nzf_bytes secret, nzf_bytes context) {
    nzf_client_settings it = NZF_CLIENT_SETTINGS;
    it.next_hop = hop;
    it.host = host;
    it.port = 5683;
    it.token = nzf_bytes_of(token, token_length);
    it.secret = secret;
    it.context = context;
    it.has_context = context.length > 0;
    return AT(client_heap, nzf_client_new(&client, &it));
}

static void new_client(void) {
    uint8_t byte = 7;
    nzf_bytes secret = nzf_bytes_of(&byte, 1), none = NZF_NO_BYTES;
    must(mint(7, secret, none, "/e:GET+PUT") == NZF_DONE, "token_mint");
    must(client_behind(DEVICE_AT, none, secret, none) == NZF_DONE, "client_new");
}

static void begin_exchange(void) {
    nzf_draw it = draw();
    must(AT(client_heap, nzf_client_exchange(&client, now, &it)) == NZF_DONE, "client_exchange");
}

static void begin_ask(uint8_t method, const void *path, size_t path_length, const void *payload, size_t payload_length) {
    nzf_draw it = draw();
    nzf_request asked = NZF_REQUEST;
    asked.method = method;
    asked.path = nzf_bytes_of(path, path_length);
    asked.payload = nzf_bytes_of(payload, payload_length);
    must(AT(client_heap, nzf_client_ask(&client, now, &asked, &it)) == NZF_DONE, "client_ask");
}

/* What waits at the client goes to the device and its answer back. What the client learns is answered, or 0. */
static nzf_result learnt_by(const nzf_peer *client_at) {
    static uint8_t payload[DATAGRAM];
    nzf_result result = NZF_RESULT;
    nzf_draw it = draw();
    must(AT(client_heap, nzf_client_next(&client, &to, bytes, sizeof bytes, &length)) == NZF_DONE, "client_next");
    must(AT(device_heap, nzf_device_on_datagram(&device, now, client_at, bytes, length, &it)) == NZF_DONE, "device_on_datagram");
    must(AT(device_heap, nzf_device_next(&device, &to, bytes, sizeof bytes, &length)) == NZF_DONE, "device_next");
    must(AT(client_heap, nzf_client_on_datagram(&client, now, &DEVICE_AT, bytes, length)) == NZF_DONE, "client_on_datagram");
    if (AT(client_heap, nzf_client_result(&client, &result, payload, sizeof payload)) != NZF_DONE) result.what = 0;
    return result;
}

static int answered(uint8_t code) {
    nzf_peer at = peer(0);
    nzf_result it = learnt_by(&at);
    return it.what == NZF_RESULT_ANSWER && it.code == code;
}

static int made(void) {
    nzf_peer at = peer(0);
    return learnt_by(&at).what == NZF_RESULT_MADE;
}

/* ---- the client: what nobody answers ends as a time-out, once */

/* A tick does what is due, or says that what should have gone out was lost. */
static int is_ticked(int32_t told) { return told == NZF_DONE || told == NZF_LOST; }

/* How often it ended so, or -1 where a tick was refused. */
static int client_waits(void) {
    int timed_out = 0;
    nzf_result result = NZF_RESULT;
    for (uint64_t end = now + WAIT; now < end;) {
        now += TICK;
        if (!is_ticked(AT(client_heap, nzf_client_on_tick(&client, now)))) return -1;
        if (AT(client_heap, nzf_client_result(&client, &result, bytes, sizeof bytes)) == NZF_DONE && result.what == NZF_RESULT_TIMED_OUT) timed_out++;
        while (AT(client_heap, nzf_client_next(&client, &to, bytes, sizeof bytes, &length)) == NZF_DONE) continue;
    }
    return timed_out;
}

static void client_posts(void) {
    new_client();
    begin_exchange();
}

static void client_asks(void) {
    new_client();
    begin_exchange();
    must(made(), "an exchange");
    begin_ask(3, TEXT("/e"), TEXT("hi"));
}

/* The device acknowledges the request, and sends no answer. */
static void client_acknowledged(void) {
    client_asks();
    must(AT(client_heap, nzf_client_next(&client, &to, bytes, sizeof bytes, &length)) == NZF_DONE, "client_next");
    uint8_t acknowledgement[] = {0x60, 0, bytes[2], bytes[3]};
    must(AT(client_heap, nzf_client_on_datagram(&client, now, &DEVICE_AT, acknowledgement, sizeof acknowledgement)) == NZF_DONE, "client_on_datagram");
}

static int client_ends(void) { return client_waits() == 1; }

static int client_again(void) {
    begin_exchange();
    if (!made()) return 0;
    begin_ask(3, TEXT("/e"), TEXT("ho"));
    return answered(0x44);
}

/* ---- the device: a write of its own that is left open ends */

/* A put, while the heap is held to so many bytes more, that is lost on the way: then it is open still. */
static void device_lost(void) {
    uint8_t code;
    for (size_t more = 0; more < 8 * MOST; more += 8) {
        new_device("/e:GET+PUT,/d:PUT+SUB");
        must(put(TEXT("/e"), -1, TEXT("before"), &code) == NZF_DONE, "device_put");
        cap = live + more;
        int32_t told = put(TEXT("/e"), -1, TEXT("after"), &code);
        cap = SIZE_MAX;
        if (told == NZF_LOST) return;
    }
    must(0, "a put that is lost");
}

static int device_ends(void) {
    uint64_t deadline;
    uint8_t code;
    int told = 0;
    for (uint64_t end = now + WAIT; now < end;) {
        nzf_draw it = draw();
        now += TICK;
        if (!is_ticked(AT(device_heap, nzf_device_on_tick(&device, now, &it)))) return 0;
        if (AT(device_heap, nzf_device_learnt(&device, &code)) != NZF_NOTHING) told++;
        while (AT(device_heap, nzf_device_next(&device, &to, bytes, sizeof bytes, &length)) == NZF_DONE) continue;
    }
    return told <= 1 && AT(device_heap, nzf_device_next_deadline(&device, &deadline)) == NZF_NOTHING;
}

static int device_again(void) {
    uint8_t code;
    if (put(TEXT("/e"), -1, TEXT("again"), &code) != NZF_DONE) return 0;
    return code == 0x44;
}

/* ---- the proxy: exchanges with a target that nobody reaches end */

enum { CON = 0x40, NON = 0x50, WAITING = 16, EXCHANGES = 64 };

static uint16_t next_id;

/* A GET that is to be forwarded, from a client of this number, with a token of its own. */
static int32_t client_gets(unsigned from, uint8_t kind) {
    uint8_t get[] = {(uint8_t)(kind | 2), 1, 0, 0, (uint8_t)(from >> 8), (uint8_t)from, 0x34, 'd', 'o', 'o', 'r', 0x81, 'e', 0xd4, 15, 'c', 'o', 'a', 'p'};
    nzf_peer at = peer(from);
    nzf_draw it = draw();
    next_id++;
    get[2] = (uint8_t)(next_id >> 8);
    get[3] = (uint8_t)next_id;
    return AT(proxy_heap, nzf_proxy_on_datagram(&proxy, now, &at, get, sizeof get, &it));
}

static void proxy_waits(void) {
    must(AT(proxy_heap, nzf_proxy_new(&proxy)) == NZF_DONE && AT(proxy_heap, nzf_proxy_add_target(&proxy, TEXT("door"), 5683, &DEVICE_AT)) == NZF_DONE, "proxy_new");
    for (unsigned at = 0; at < WAITING; at++) {
        must(client_gets(at, CON) == NZF_DONE, "proxy_on_datagram");
        while (AT(proxy_heap, nzf_proxy_next(&proxy, &to, bytes, sizeof bytes, &length)) == NZF_DONE) continue;
    }
}

static int proxy_ends(void) {
    for (uint64_t end = now + WAIT; now < end;) {
        nzf_draw it = draw();
        now += TICK;
        if (!is_ticked(AT(proxy_heap, nzf_proxy_on_tick(&proxy, now, &it)))) return 0;
        while (AT(proxy_heap, nzf_proxy_next(&proxy, &to, bytes, sizeof bytes, &length)) == NZF_DONE) continue;
    }
    return 1;
}

static int is_peer(const nzf_peer *one, const nzf_peer *other) {
    return one->port == other->port && one->scope == other->scope && memcmp(one->bytes, other->bytes, sizeof one->bytes) == 0;
}

/* The target answers what was forwarded to it. Whether that goes to the client. */
static int target_answers(unsigned from, uint8_t kind) {
    nzf_draw it = draw();
    nzf_peer at = peer(from);
    int forwarded = 0;
    uint8_t answer[DATAGRAM] = {0};
    while (AT(proxy_heap, nzf_proxy_next(&proxy, &to, bytes, sizeof bytes, &length)) == NZF_DONE) {
        if (!is_peer(&to, &DEVICE_AT) || length < 12 || bytes[1] != 1) continue;
        forwarded++;
        /* The same message ID and token; an acknowledgement where that is wanted. */
        memcpy(answer, bytes, 12);
        answer[0] = (uint8_t)((kind == CON ? 0x60 : 0x50) | 8);
        answer[1] = 0x45;
        answer[12] = 0xff;
        answer[13] = '1';
    }
    if (forwarded != 1) return 0;
    if (AT(proxy_heap, nzf_proxy_on_datagram(&proxy, now, &DEVICE_AT, answer, 14, &it)) != NZF_DONE) return 0;
    int came = 0;
    while (AT(proxy_heap, nzf_proxy_next(&proxy, &to, bytes, sizeof bytes, &length)) == NZF_DONE) came += is_peer(&to, &at) && length > 1 && bytes[1] == 0x45;
    return came == 1;
}

/* A confirmable request is forwarded at once and answered, and then as many exchanges open as there may be: so nothing of the others is left. */
static int proxy_again(void) {
    if (client_gets(100, CON) != NZF_DONE || !target_answers(100, CON)) return 0;
    for (unsigned at = 0; at < EXCHANGES; at++) {
        if (client_gets(200 + at, NON) != NZF_DONE) return 0;
        int forwarded = 0;
        while (AT(proxy_heap, nzf_proxy_next(&proxy, &to, bytes, sizeof bytes, &length)) == NZF_DONE) forwarded += is_peer(&to, &DEVICE_AT);
        if (forwarded != 1) return 0;
    }
    return 1;
}

/* ---- each k */

static int failed;

/* Brings a node to a state; with the heap held, sees that it ends; and with the heap free, that it goes on. */
static void tried(const char *what, void (*state)(void), int (*ends)(void), int (*again)(void)) {
    unsigned count = 0, recovered = 0, first = 0;
    for (unsigned k = 0; k <= MOST; k += STEP) {
        now += 1000000;
        state();
        cap = live + k;
        int is_over = ends();
        cap = SIZE_MAX;
        int goes_on = is_over && again();
        if (!goes_on && recovered == count) first = k;
        count++;
        recovered += (unsigned)goes_on;
    }
    printf("%-72s %4u tried, %4u recovered", what, count, recovered);
    if (recovered != count) {
        printf("; with %u bytes more it didn't", first);
        failed = 1;
    }
    printf("\n");
}

/* ---- what a node holds at the most */

static void most_row(const char *what, const heap *of) { printf("%-72s %9zu %9zu\n", what, of->held, of->most); }

/* The longest path, of this number. */
static size_t long_path(uint8_t *path, unsigned number) {
    size_t at = 0;
    for (int segment = 0; segment < 8; segment++) {
        path[at++] = '/';
        for (int i = 0; i < 32; i++) path[at++] = (uint8_t)(segment == 0 ? 'x' : 'a' + (number >> (segment == 1 ? 4 * (i % 3) : 0)) % 16);
    }
    return at;
}

/* A scope of as many short paths as its token has room for. */
static char scope[8 * LONG];

static void scope_of(unsigned paths) {
    static const char LETTERS[] = "abcdefghijklmnopqrstuvwxyzABCDEFGHIJKLMNOPQRSTUVWXYZ0123456789";
    size_t at = (size_t)sprintf(scope, "/%.32s:GET+PUT+POST+DELETE+SUB", "xxxxxxxxxxxxxxxxxxxxxxxxxxxxxxxx");
    for (unsigned i = 0; i < paths; i++) {
        if (i < 62) {
            at += (size_t)sprintf(scope + at, ",/%c:GET", LETTERS[i]);
        } else {
            at += (size_t)sprintf(scope + at, ",/%c%c:GET", LETTERS[i / 62], LETTERS[i % 62]);
        }
    }
}

/* A client whose token has the longest scope that its post has room for, and the longest secret, salt and id context. */
static unsigned paths_of_holder;

static int new_holder(uint8_t number) {
    uint8_t secret[64], context[64];
    memset(secret, number, sizeof secret);
    memset(context, number, sizeof context);
    scope_of(paths_of_holder);
    nzf_bytes its_secret = nzf_bytes_of(secret, sizeof secret), its_context = nzf_bytes_of(context, sizeof context);
    if (mint(number, its_secret, its_context, scope) != NZF_DONE) return 0;
    return client_behind(DEVICE_AT, nzf_text(""), its_secret, its_context) == NZF_DONE;
}

/* Whether the client's post is sent, and makes a context. */
static int holder_posts(unsigned number) {
    nzf_result it = NZF_RESULT;
    nzf_peer at = peer(number);
    begin_exchange();
    if (AT(client_heap, nzf_client_result(&client, &it, bytes, sizeof bytes)) == NZF_DONE) return 0;
    return learnt_by(&at).what == NZF_RESULT_MADE;
}

static void device_worst(void) {
    uint8_t path[264], payload[512], code;
    memset(payload, 'p', sizeof payload);
    now += 1000000;
    nzf_device_free(&device);
    nzf_client_free(&client);
    device_heap = (heap){0, 0};
    new_device("/xxxxxxxxxxxxxxxxxxxxxxxxxxxxxxxx:GET+PUT+POST+DELETE+SUB");
    most_row("a device, with its own context", &device_heap);
    for (unsigned at = 0; at < 1024; at++) {
        must(put(path, long_path(path, at), 60, payload, sizeof payload, &code) == NZF_DONE && code == 0x41, "device_put");
    }
    most_row("with 1,024 resources of 512 bytes, at the longest paths", &device_heap);
    for (paths_of_holder = 200; paths_of_holder > 0; paths_of_holder--) {
        int fits = new_holder(1) && holder_posts(1);
        nzf_client_free(&client);
        if (fits) break;
    }
    /* Each holder has two contexts: one under which it asked, and one of its last post. Its eight newest posts are known. Its client isn't held. */
    size_t before = device_heap.held;
    for (unsigned number = 1; number < 64; number++) {
        must(new_holder((uint8_t)number) && holder_posts(number), "a holder");
        nzf_peer at = peer(number);
        begin_ask(1, path, long_path(path, number), (const uint8_t *)"", 0);
        must(learnt_by(&at).code == 0x45, "a GET");
        for (unsigned more = 0; more < 8; more++) must(holder_posts(number), "another post");
        nzf_client_free(&client);
    }
    printf("    (a token's scope has %u paths; each token id takes %zu bytes)\n", paths_of_holder + 1, (device_heap.held - before) / 63);
    most_row("with 64 token ids, two contexts and eight known posts each", &device_heap);
    /* Answers for repeats: each as long as an answer is. */
    must(new_holder(63) && holder_posts(63), "a holder");
    for (unsigned number = 0; number < 64; number++) {
        nzf_peer at = peer(63);
        begin_ask(1, path, long_path(path, number), (const uint8_t *)"", 0);
        must(learnt_by(&at).code == 0x45, "a GET");
    }
    begin_ask(3, path, long_path(path, 3), payload, sizeof payload);
    nzf_peer at = peer(63);
    must(learnt_by(&at).code == 0x44, "a PUT");
    nzf_client_free(&client);
    most_row("with 64 answers for repeats; then a PUT of 512 bytes", &device_heap);
    must(put(path, long_path(path, 5), 60, payload, sizeof payload, &code) == NZF_DONE, "device_put");
    most_row("and a write of its own of 512 bytes", &device_heap);
    must(new_holder(62) && holder_posts(62), "one more post");
    nzf_client_free(&client);
    most_row("and one more post", &device_heap);
    nzf_device_free(&device);
}

/* A client with the longest token, secret, salt, id context and host, which heard 64 requests that it refuses, and asks for as much as fits. */
static void client_worst(void) {
    static uint8_t payload[DATAGRAM];
    uint8_t secret[64], context[64], host[255], path[264];
    now += 1000000;
    new_device("/xxxxxxxxxxxxxxxxxxxxxxxxxxxxxxxx:GET+PUT+POST+DELETE+SUB");
    memset(payload, 'p', sizeof payload);
    uint8_t code;
    must(put(path, long_path(path, 1), 60, payload, 512, &code) == NZF_DONE, "device_put");
    memset(secret, 9, sizeof secret);
    memset(context, 9, sizeof context);
    memset(host, 'h', sizeof host);
    nzf_bytes its_secret = nzf_bytes_of(secret, sizeof secret), its_context = nzf_bytes_of(context, sizeof context);
    /* The longest scope with which the post fits beside the longest host. */
    unsigned paths = 200;
    for (;; paths--) {
        must(paths > 0, "a client's token");
        scope_of(paths);
        if (mint(9, its_secret, its_context, scope) != NZF_DONE) continue;
        nzf_client_free(&client);
        client_heap = (heap){0, 0};
        must(client_behind(PROXY_AT, nzf_bytes_of(host, sizeof host), its_secret, its_context) == NZF_DONE, "client_new");
        begin_exchange();
        nzf_result it = NZF_RESULT;
        if (AT(client_heap, nzf_client_result(&client, &it, bytes, sizeof bytes)) != NZF_DONE) break;
    }
    most_row("a client with the longest token, host and secret, whose post is open", &client_heap);
    must(AT(client_heap, nzf_client_next(&client, &to, bytes, sizeof bytes, &length)) == NZF_DONE, "client_next");
    /* The device is next to it: the options for the proxy are taken out by one. */
    nzf_proxy door = {0};
    nzf_draw it = draw();
    must(nzf_proxy_new(&door) == NZF_DONE && nzf_proxy_add_target(&door, host, sizeof host, 5683, &DEVICE_AT) == NZF_DONE, "proxy_new");
    nzf_peer at = peer(1);
    static uint8_t went[DATAGRAM];
    size_t went_length;
    must(nzf_proxy_on_datagram(&door, now, &at, bytes, length, &it) == NZF_DONE, "proxy_on_datagram");
    do must(nzf_proxy_next(&door, &to, went, sizeof went, &went_length) == NZF_DONE, "proxy_next");
    while (!is_peer(&to, &DEVICE_AT));
    must(AT(device_heap, nzf_device_on_datagram(&device, now, &PROXY_AT, went, went_length, &it)) == NZF_DONE, "device_on_datagram");
    must(AT(device_heap, nzf_device_next(&device, &to, went, sizeof went, &went_length)) == NZF_DONE, "device_next");
    must(nzf_proxy_on_datagram(&door, now, &DEVICE_AT, went, went_length, &it) == NZF_DONE, "proxy_on_datagram");
    do must(nzf_proxy_next(&door, &to, went, sizeof went, &went_length) == NZF_DONE, "proxy_next");
    while (!is_peer(&to, &at));
    nzf_proxy_free(&door);
    must(AT(client_heap, nzf_client_on_datagram(&client, now, &PROXY_AT, went, went_length)) == NZF_DONE, "client_on_datagram");
    uint64_t number;
    must(AT(client_heap, nzf_client_context(&client, &number)) == NZF_DONE, "an exchange");
    while (AT(client_heap, nzf_client_next(&client, &to, bytes, sizeof bytes, &length)) == NZF_DONE) continue;
    /* Requests with a critical option that nobody knows, which it refuses: it keeps what it answered. */
    for (unsigned i = 0; i < 64; i++) {
        uint8_t request[] = {0x48, 1, 0, (uint8_t)i, 1, 2, 3, 4, 5, 6, 7, 8, 0xd0, 0xfc};
        nzf_peer from = peer(i);
        must(AT(client_heap, nzf_client_on_datagram(&client, now, &from, request, sizeof request)) == NZF_DONE, "client_on_datagram");
    }
    most_row("with a context, and 64 answers for repeats", &client_heap);
    size_t most = sizeof payload;
    nzf_request asked = NZF_REQUEST;
    asked.method = NZF_METHOD_PUT;
    asked.options.format = 60;
    asked.options.accept = 60;
    asked.options.if_none_match = 1;
    asked.path = nzf_bytes_of(path, long_path(path, 1));
    for (;; most--) {
        nzf_result result = NZF_RESULT;
        asked.payload = nzf_bytes_of(payload, most);
        must(AT(client_heap, nzf_client_ask(&client, now, &asked, &it)) == NZF_DONE, "client_ask");
        if (AT(client_heap, nzf_client_result(&client, &result, bytes, sizeof bytes)) != NZF_DONE) break;
    }
    most_row("and a request as long as fits, which is open", &client_heap);
    nzf_client_free(&client);
    nzf_device_free(&device);
}

/* A request of a client that is as long as its forwarded message may be, and what the target answers: as long as a datagram may be. */
static int32_t long_request(unsigned from, uint8_t kind) {
    nzf_peer at = peer(from);
    nzf_draw it = draw();
    memset(bytes, 'p', sizeof bytes);
    memcpy(bytes, (const uint8_t[]){(uint8_t)(kind | 8), 3, (uint8_t)(++next_id >> 8), (uint8_t)next_id, 1, 2, 3, 4, 5, 6, 7, 8, 0x34, 'd', 'o', 'o', 'r', 0x81, 'e', 0xd4, 15, 'c', 'o', 'a', 'p', 0xff}, 26);
    return AT(proxy_heap, nzf_proxy_on_datagram(&proxy, now, &at, bytes, DATAGRAM, &it));
}

/* Whether it is forwarded, and what the target answers goes to the client, which doesn't acknowledge it. */
static int long_answer(void) {
    nzf_draw it = draw();
    uint8_t answer[DATAGRAM];
    int forwarded = 0;
    memset(answer, 'a', sizeof answer);
    while (AT(proxy_heap, nzf_proxy_next(&proxy, &to, bytes, sizeof bytes, &length)) == NZF_DONE) {
        if (!is_peer(&to, &DEVICE_AT)) continue;
        forwarded = 1;
        memcpy(answer, bytes, 12);
        answer[0] = 0x68;
        answer[1] = 0x45;
        answer[12] = 0xff;
    }
    if (!forwarded) return 0;
    must(AT(proxy_heap, nzf_proxy_on_datagram(&proxy, now, &DEVICE_AT, answer, DATAGRAM, &it)) == NZF_DONE, "proxy_on_datagram");
    while (AT(proxy_heap, nzf_proxy_next(&proxy, &to, bytes, sizeof bytes, &length)) == NZF_DONE) continue;
    return 1;
}

static void proxy_worst(void) {
    now += 1000000;
    nzf_proxy_free(&proxy);
    proxy_heap = (heap){0, 0};
    must(AT(proxy_heap, nzf_proxy_new(&proxy)) == NZF_DONE && AT(proxy_heap, nzf_proxy_add_target(&proxy, TEXT("door"), 5683, &DEVICE_AT)) == NZF_DONE, "proxy_new");
    nzf_draw it = draw();
    must(AT(proxy_heap, nzf_proxy_on_tick(&proxy, now, &it)) == NZF_DONE, "proxy_on_tick");
    most_row("a proxy of one target", &proxy_heap);
    /* Answers that their clients don't acknowledge: 17 to each of 63 clients. */
    unsigned answers = 0;
    for (unsigned turn = 0; turn < 17; turn++) {
        for (unsigned from = 0; from < 63; from++) {
            must(long_request(from, CON) == NZF_DONE, "proxy_on_datagram");
            if (long_answer()) answers++;
        }
    }
    printf("    (%u answers were forwarded)\n", answers);
    most_row("with answers to 63 clients, which aren't acknowledged", &proxy_heap);
    for (unsigned from = 0; from < EXCHANGES; from++) {
        must(long_request(100 + from, from < 17 ? CON : NON) == NZF_DONE, "proxy_on_datagram");
        while (AT(proxy_heap, nzf_proxy_next(&proxy, &to, bytes, sizeof bytes, &length)) == NZF_DONE) continue;
    }
    most_row("and 64 exchanges, 17 of them confirmable", &proxy_heap);
    for (uint64_t end = now + 400000; now < end;) {
        it = draw();
        now += TICK;
        must(AT(proxy_heap, nzf_proxy_on_tick(&proxy, now, &it)) == NZF_DONE, "proxy_on_tick");
        while (AT(proxy_heap, nzf_proxy_next(&proxy, &to, bytes, sizeof bytes, &length)) == NZF_DONE) continue;
    }
    most_row("400 seconds later, and at the most in between", &proxy_heap);
    nzf_proxy_free(&proxy);
}

/* What each node may hold at the most, as docs/LIBRARY.md has it: this run comes to within a fiftieth of it, and doesn't pass it. */
enum { DEVICE_LIMIT = 1800000, CLIENT_LIMIT = 33800, PROXY_LIMIT = 1500000 };

static void within(const char *who, const heap *of, size_t limit) {
    int holds = of->most <= limit && of->most >= limit - limit / 50;
    printf("%-72s %9zu %9zu%s\n", who, of->most, limit, holds ? "" : " doesn't hold");
    if (!holds) failed = 1;
}

int main(void) {
    setvbuf(stdout, NULL, _IOLBF, 0);
    now = UINT64_C(1700000000000);
    new_device("/e:GET+PUT");
    uint8_t code;
    must(put(TEXT("/e"), -1, TEXT("hi"), &code) == NZF_DONE, "device_put");
    printf("Nodes whose heap is held to what they have and k bytes more, for k from 0 to %d by %d, through %d seconds of ticks\n", MOST, STEP, WAIT / 1000);
    tried("client: a post that nobody answers", client_posts, client_ends, client_again);
    tried("client: a request that nobody answers", client_asks, client_ends, client_again);
    tried("client: a request that is acknowledged, and not answered", client_acknowledged, client_ends, client_again);
    tried("proxy: 16 confirmable requests for a target that nobody reaches", proxy_waits, proxy_ends, proxy_again);
    tried("device: a write of its own that was lost", device_lost, device_ends, device_again);
    printf("\n%-72s %9s %9s\n", "Bytes of heap: what is held, and was at the most", "held", "at most");
    device_worst();
    /* What comes after it is of other devices. */
    heap full_device = device_heap;
    client_worst();
    proxy_worst();
    printf("\n%-72s %9s %9s\n", "The most that a node was brought to, and may hold", "at most", "limit");
    within("a device", &full_device, DEVICE_LIMIT);
    within("a client", &client_heap, CLIENT_LIMIT);
    within("a proxy", &proxy_heap, PROXY_LIMIT);
    puts(failed ? "wanting: something doesn't hold" : "wanting: all holds");
    return failed;
}
