/* Nodes over one array (c/heap.c with NZF_POOL), by the first word:

     alone     a device alone: 100,000 calls find room, among them its own writes, GETs and random datagrams
     client    a device and a client: 100,000 calls find room. The key is there once. Once the client is freed and its context has ended no byte of its
               secret is left, and once the device is freed none of the key
     revoked   a device in the array, and a holder elsewhere whose token grants PUT and SUB: 1,100 PUTs fill the array, and the device revokes the
               holder all the same, who is refused from then on */
#define rattle_alloc pool_alloc
#define rattle_realloc pool_realloc
#define rattle_dealloc pool_dealloc
#include "../c/heap.c"
#undef rattle_alloc
#undef rattle_realloc
#undef rattle_dealloc

#include <nozzlefern.h>

#include <stdio.h>
#include <stdlib.h>

/* ---- blocks are in the array, but for those of the holder elsewhere */

static bool is_holder;

tried rattle_alloc(size_t size, size_t align);
tried rattle_realloc(void *block, size_t kept, size_t size, size_t align);
void rattle_dealloc(void *block);

static bool is_pooled(const void *block) {
    const unsigned char *at = block;
    return at >= pool.bytes && at < pool.bytes + sizeof pool.bytes;
}

static tried given(void *block) {
    tried it = {block != NULL, block};
    return it;
}

tried rattle_alloc(size_t size, size_t align) { return is_holder ? given(malloc(size + 1)) : pool_alloc(size, align); }

tried rattle_realloc(void *block, size_t kept, size_t size, size_t align) {
    return is_pooled(block) ? pool_realloc(block, kept, size, align) : given(realloc(block, size + 1));
}

void rattle_dealloc(void *block) {
    if (is_pooled(block)) pool_dealloc(block);
    else free(block);
}

/* ---- what the three share */

static uint64_t drawn(void) {
    static uint64_t random_state = 88172645463325252u;
    random_state ^= random_state << 13;
    random_state ^= random_state >> 7;
    random_state ^= random_state << 17;
    return random_state;
}

static nzf_draw draw(void) {
    nzf_draw it;
    for (size_t at = 0; at < sizeof it.bytes; at++) it.bytes[at] = (uint8_t)drawn();
    return it;
}

static nzf_draws two_draws(void) {
    nzf_draws it = {draw(), draw()};
    return it;
}

static int failed(const char *what, long number) {
    fprintf(stderr, "heap: %s: %ld\n", what, number);
    return 1;
}

static const nzf_peer HOLDER = NZF_IPV4(127, 0, 0, 1, 5700), DOOR = NZF_IPV4(127, 0, 0, 1, 5683);

/* ---- a device alone */

static int alone(void) {
    nzf_device device = {0};
    nzf_device_settings settings = NZF_DEVICE_SETTINGS;
    nzf_resource value = NZF_RESOURCE;
    nzf_draw first = draw();
    nzf_draws both = {draw(), draw()};
    nzf_peer to;
    uint8_t bytes[NZF_DATAGRAM_MAX], text[32], code;
    uint8_t get[] = {0x40, 1, 0, 0, 0xb1, 'e'};
    size_t length;
    uint64_t now = 1000;
    settings.audience = nzf_text("door");
    settings.unprotected = nzf_text("/e:GET");
    settings.own = nzf_text("/e:PUT+DELETE");
    value.path = nzf_text("/e");
    if (nzf_device_new(&device, &settings, &first) != NZF_DONE) return failed("new", 0);
    if (nzf_device_open(&device, now, &both, &code) != NZF_DONE) return failed("open", 0);
    for (long round = 0; round < 100000; round++, now += 500) {
        nzf_draw it = draw();
        int32_t did = NZF_DONE;
        both.own = draw();
        both.server = draw();
        for (size_t at = 0; at < sizeof text; at++) text[at] = (uint8_t)drawn();
        switch (drawn() % 4) {
        case 0:
            value.payload = nzf_bytes_of(text, drawn() % sizeof text);
            did = nzf_device_put(&device, now, &value, &both, &code);
            break;
        case 1:
            get[2] = (uint8_t)drawn();
            get[3] = (uint8_t)drawn();
            did = nzf_device_on_datagram(&device, now, &HOLDER, get, sizeof get, &it);
            break;
        case 2:
            text[0] = 0x40;
            did = nzf_device_on_datagram(&device, now, &HOLDER, text, sizeof text, &it);
            break;
        default: did = nzf_device_on_tick(&device, now, &it); break;
        }
        if (did != NZF_DONE) return failed("an answer in round", round);
        while (nzf_device_next(&device, &to, bytes, sizeof bytes, &length) == NZF_DONE) continue;
    }
    size_t most = nzf_heap_most();
    nzf_device_free(&device);
    if (nzf_heap_used() != 0) return failed("bytes are still in use", (long)nzf_heap_used());
    printf("heap: 100,000 calls of a device in one array of %d bytes, at most %zu in use\n", NZF_POOL, most);
    return 0;
}

/* ---- a device and a client */

/* How often these bytes stand in the array. */
static size_t found(const void *bytes, size_t length) {
    size_t count = 0;
    for (size_t at = 0; at + length <= sizeof pool.bytes; at++) count += memcmp(pool.bytes + at, bytes, length) == 0;
    return count;
}

static int with_client(void) {
    const nzf_key key = {{0xa0, 0xa1, 0xa2, 0xa3, 0xa4, 0xa5, 0xa6, 0xa7, 0xb0, 0xb1, 0xb2, 0xb3, 0xb4, 0xb5, 0xb6, 0xb7}};
    const uint8_t secret[16] = {0xc0, 0xc1, 0xc2, 0xc3, 0xc4, 0xc5, 0xc6, 0xc7, 0xd0, 0xd1, 0xd2, 0xd3, 0xd4, 0xd5, 0xd6, 0xd7};
    nzf_device device = {0};
    nzf_client client = {0};
    uint8_t token[512], bytes[1152], code;
    size_t length;
    nzf_peer to;
    nzf_draw first = draw();
    nzf_draws both = {draw(), draw()};
    nzf_device_settings settings = NZF_DEVICE_SETTINGS;
    nzf_resource hello = NZF_RESOURCE;
    nzf_claims claims = NZF_CLAIMS;
    nzf_client_settings granted = NZF_CLIENT_SETTINGS;
    nzf_request get = NZF_REQUEST, put = NZF_REQUEST;

    settings.key = claims.key = key;
    settings.audience = claims.audience = nzf_text("door");
    settings.unprotected = nzf_text("/e:GET");
    settings.own = nzf_text("/e:PUT");
    hello.path = get.path = put.path = nzf_text("/e");
    hello.payload = nzf_text("hello");
    claims.iv.bytes[0] = 1;
    claims.id = nzf_text("1");
    claims.secret = granted.secret = nzf_bytes_of(secret, sizeof secret);
    claims.scope = nzf_text("/e:GET+PUT");
    granted.next_hop = DOOR;
    put.method = NZF_METHOD_PUT;
    put.payload = nzf_text("open");

    if (nzf_device_new(&device, &settings, &first) != NZF_DONE) return failed("new", 0);
    if (nzf_device_open(&device, 1000, &both, &code) != NZF_DONE) return failed("open", 0);
    both.own = draw();
    both.server = draw();
    if (nzf_device_put(&device, 1000, &hello, &both, &code) != NZF_DONE) return failed("put", 0);
    if (nzf_token_mint(&claims, token, sizeof token, &length) != NZF_DONE) return failed("mint", 0);
    granted.token = nzf_bytes_of(token, length);
    if (nzf_client_new(&client, &granted) != NZF_DONE) return failed("client", 0);

    uint64_t now = 2000;
    size_t most = 0;
    for (long round = 0; round < 100000; round++, now += 50) {
        nzf_draw it = draw();
        uint8_t noise[64];
        for (size_t at = 0; at < sizeof noise; at++) noise[at] = (uint8_t)drawn();
        int32_t did = 0;
        switch (drawn() % 4) {
            case 0: did = nzf_client_exchange(&client, now, &it); break;
            case 1: did = nzf_client_ask(&client, now, &get, &it); break;
            case 2: did = nzf_client_ask(&client, now, &put, &it); break;
            default: noise[0] = 0x40; did = nzf_device_on_datagram(&device, now, &HOLDER, noise, sizeof noise, &it); break;
        }
        if (did == NZF_NO_MEMORY) return failed("no memory in round", round);
        while (nzf_client_next(&client, &to, bytes, sizeof bytes, &length) == NZF_DONE) {
            it = draw();
            if (nzf_device_on_datagram(&device, now, &HOLDER, bytes, length, &it) != NZF_DONE) return failed("no memory in round", round);
        }
        while (nzf_device_next(&device, &to, bytes, sizeof bytes, &length) == NZF_DONE) {
            if (nzf_client_on_datagram(&client, now, &DOOR, bytes, length) != NZF_DONE) return failed("no memory in round", round);
        }
        it = draw();
        if (nzf_device_on_tick(&device, now, &it) != NZF_DONE || nzf_client_on_tick(&client, now) != NZF_DONE) return failed("a tick in round", round);
        if (nzf_heap_used() > most) most = nzf_heap_used();
    }
    if (found(secret, sizeof secret) == 0) return failed("the secrets aren't looked for where they are", 0);
    if (found(key.bytes, sizeof key.bytes) != 1) return failed("the key isn't there once", (long)found(key.bytes, sizeof key.bytes));
    /* The holder goes, and its context at the device ends: nothing is left of its secret, though the device lives on. */
    nzf_client_free(&client);
    if (nzf_device_restart(&device) != NZF_DONE) return failed("restart", 0);
    for (size_t half = 0; half <= 8; half += 8) {
        if (found(secret + half, 8) != 0) return failed("a secret of a context that ended is still there", 0);
    }
    nzf_device_free(&device);
    if (nzf_heap_used() != 0) return failed("bytes are still in use", (long)nzf_heap_used());
    for (size_t half = 0; half <= 8; half += 8) {
        if (found(key.bytes + half, 8) != 0) return failed("the key is still there", 0);
        if (found(secret + half, 8) != 0) return failed("a secret is still there", 0);
    }
    printf("heap: 100,000 calls of a device and a client in one array of %d bytes, at most %zu in use; no secret is left\n", NZF_POOL, most);
    return 0;
}

/* ---- a holder who fills the array */

enum { REQUESTS = 1100, SECOND = 1000 };

static const nzf_key KEY = {{1, 2, 3, 4}};
static const uint8_t ID = 2;

static nzf_device door;
static nzf_client holder;
static uint64_t now;

static int begins(void) {
    nzf_device_settings settings = NZF_DEVICE_SETTINGS;
    nzf_draw first = draw();
    nzf_draws both = two_draws();
    uint8_t code;
    settings.key = KEY;
    settings.audience = nzf_text("door");
    settings.own = nzf_text("/gone:PUT+DELETE+SUB");
    settings.revoked = nzf_text("/gone");
    int32_t number = nzf_device_new(&door, &settings, &first);
    return number == NZF_DONE ? nzf_device_open(&door, now, &both, &code) : number;
}

static int is_granted(void) {
    uint8_t token[512];
    nzf_claims claims = NZF_CLAIMS;
    nzf_client_settings granted = NZF_CLIENT_SETTINGS;
    size_t length;
    claims.key = KEY;
    claims.iv.bytes[0] = ID;
    claims.audience = nzf_text("door");
    claims.id = nzf_bytes_of(&ID, 1);
    claims.secret = granted.secret = nzf_text("a secret");
    claims.scope = nzf_text("/x:PUT+SUB");
    granted.next_hop = DOOR;
    int32_t number = nzf_token_mint(&claims, token, sizeof token, &length);
    granted.token = nzf_bytes_of(token, length);
    return number == NZF_DONE ? nzf_client_new(&holder, &granted) : number;
}

/* What the holder sends comes to the device, and what that answers to the holder; again after a while, where there was no memory for it. What the holder
 * learns: 1 of a context, else a code, or 0. */
static int comes(void) {
    nzf_peer to;
    nzf_result result = NZF_RESULT;
    uint8_t bytes[NZF_DATAGRAM_MAX], payload[NZF_DATAGRAM_MAX];
    size_t length;
    for (int second = 0; second < 200; second++, now += SECOND) {
        is_holder = true;
        bool is_sent = nzf_client_next(&holder, &to, bytes, sizeof bytes, &length) == NZF_DONE;
        is_holder = false;
        nzf_draw it = draw();
        if (is_sent && nzf_device_on_datagram(&door, now, &HOLDER, bytes, length, &it) == NZF_DONE
            && nzf_device_next(&door, &to, bytes, sizeof bytes, &length) == NZF_DONE) {
            is_holder = true;
            if (nzf_client_on_datagram(&holder, now, &DOOR, bytes, length) != NZF_DONE) return 0;
        }
        is_holder = true;
        int32_t learnt = nzf_client_result(&holder, &result, payload, sizeof payload);
        if (learnt != NZF_DONE && nzf_client_on_tick(&holder, now + SECOND) != NZF_DONE) return 0;
        is_holder = false;
        it = draw();
        if (nzf_device_on_tick(&door, now, &it) != NZF_DONE) return 0;
        if (learnt == NZF_DONE) return result.what == NZF_RESULT_MADE ? 1 : result.code;
    }
    return 0;
}

static int posts(void) {
    nzf_draw it = draw();
    is_holder = true;
    int32_t number = nzf_client_exchange(&holder, now, &it);
    is_holder = false;
    return number == NZF_DONE ? comes() : 0;
}

static int puts_at(int number, size_t size) {
    static const char zeros[NZF_PAYLOAD_MAX] = {0};
    char path[16];
    nzf_request put = NZF_REQUEST;
    nzf_draw it = draw();
    snprintf(path, sizeof path, "/x/%d", number);
    put.method = NZF_METHOD_PUT;
    put.path = nzf_text(path);
    put.payload = nzf_bytes_of(zeros, size);
    is_holder = true;
    int32_t asked = nzf_client_ask(&holder, now, &put, &it);
    is_holder = false;
    return asked == NZF_DONE ? comes() : 0;
}

static int is_filled(size_t size) {
    long stored = 0;
    uint8_t code = 0;
    if (begins() != NZF_DONE) return failed("no device", 0);
    is_holder = true;
    int32_t granted = is_granted();
    is_holder = false;
    if (granted != NZF_DONE) return failed("no holder", granted);
    if (posts() != 1) return failed("no context", 0);
    for (int number = 0; number < REQUESTS; number++) stored += puts_at(number, size) == 0x41;
    if (stored == 0 || stored == REQUESTS) return failed("resources", stored);
    nzf_draws both = two_draws();
    int32_t revoked = nzf_device_revoke(&door, now, &ID, 1, &both, &code);
    if (revoked != NZF_DONE) return failed("revoke", revoked * 1000 + code);
    int then = puts_at(0, size);
    if (then != 0x81) return failed("the holder is answered", then);
    if (posts() == 1) return failed("the holder has a context", then);
    printf("heap: %ld resources of %zu bytes fill one array of %d; the holder is revoked, and refused\n", stored, size, NZF_POOL);
    is_holder = true;
    nzf_client_free(&holder);
    is_holder = false;
    nzf_device_free(&door);
    return nzf_heap_used() == 0 ? 0 : failed("bytes are still in use", (long)nzf_heap_used());
}

static int revoked(void) {
    static const size_t SIZES[] = {0, 1, 16, 100, 512};
    now = 1700000000000u;
    for (size_t at = 0; at < sizeof SIZES / sizeof SIZES[0]; at++)
        if (is_filled(SIZES[at]) != 0) return 1;
    return 0;
}

int main(int count, char **words) {
    if (count == 2 && strcmp(words[1], "alone") == 0) return alone();
    if (count == 2 && strcmp(words[1], "client") == 0) return with_client();
    if (count == 2 && strcmp(words[1], "revoked") == 0) return revoked();
    fprintf(stderr, "heap: say alone, client or revoked\n");
    return 2;
}
