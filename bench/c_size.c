/* What nodes need of heap and stack behind nozzlefern.h: one device, one client and one proxy, by value. */
#include "measured.h"

#include <nozzlefern.h>

enum { DATAGRAM = 1152, HOLDERS = 64 };

static const nzf_key KEY = {{1}};
static const nzf_peer DEVICE_AT = NZF_IPV4(127, 0, 0, 1, 5683), PROXY_AT = NZF_IPV4(127, 0, 0, 1, 5690);
static const uint64_t NOW = UINT64_C(1700000000000);

static nzf_device device, revoking;
static nzf_client client;
static nzf_proxy proxy;
static uint8_t bytes[DATAGRAM], token[512];
static nzf_size length, token_length;
static uint8_t holder;
static nzf_peer to, client_at = NZF_IPV4(127, 0, 0, 1, 5700);

static void must(int holds, const char *what) {
    if (holds) return;
    fprintf(stderr, "c_size: %s did not do what it was to do\n", what);
    exit(1);
}

static nzf_draw draw(void) {
    static uint64_t count;
    nzf_draw it = {{0}};
    count++;
    for (size_t at = 0; at < sizeof it.bytes; at++) it.bytes[at] = (uint8_t)((count >> (at % 4 * 8)) ^ at);
    return it;
}

static void device_new(void) {
    nzf_device_settings its = NZF_DEVICE_SETTINGS;
    nzf_draw it = draw();
    its.key = KEY;
    its.audience = nzf_text("door");
    its.unprotected = nzf_text("/lock/actual:GET");
    its.own = nzf_text("/lock/actual:PUT,/log:POST");
    must(nzf_device_new(&device, &its, &it) == NZF_DONE, "device_new");
}

static void device_open(void) {
    nzf_draws it = {draw(), draw()};
    uint8_t code;
    must(nzf_device_open(&device, NOW, &it, &code) == NZF_DONE, "device_open");
}

static nzf_resource shut_at(const char *path) {
    nzf_resource it = NZF_RESOURCE;
    it.path = nzf_text(path);
    it.format = 0;
    it.payload = nzf_text("shut");
    return it;
}

static void device_put(void) {
    nzf_draws it = {draw(), draw()};
    nzf_resource shut = shut_at("/lock/actual");
    uint8_t code;
    must(nzf_device_put(&device, NOW, &shut, &it, &code) == NZF_DONE, "device_put");
}

static void device_append(void) {
    nzf_draws it = {draw(), draw()};
    nzf_resource shut = shut_at("/log");
    uint8_t code;
    must(nzf_device_append(&device, NOW, &shut, &it, &code) == NZF_DONE, "device_append");
}

/* A device that begins with a resource, and revokes. */
static void revoking_new(void) {
    nzf_device_settings its = NZF_DEVICE_SETTINGS;
    nzf_resource first = shut_at("/lock/actual");
    nzf_draw it = draw();
    its.key = KEY;
    its.audience = nzf_text("door");
    its.own = nzf_text("/lock/actual:PUT,/revoked:PUT+DELETE+SUB");
    its.revoked = nzf_text("/revoked");
    must(nzf_device_new_with(&revoking, &its, &first, 1, &it) == NZF_DONE, "device_new_with");
}

static void revoking_open(void) {
    nzf_draws it = {draw(), draw()};
    uint8_t code;
    must(nzf_device_open(&revoking, NOW, &it, &code) == NZF_DONE, "device_open");
}

static void device_revoke(void) {
    nzf_draws it = {draw(), draw()};
    uint8_t code;
    must(nzf_device_revoke(&revoking, NOW, "lost", 4, &it, &code) == NZF_DONE, "device_revoke");
}

static void device_allow(void) {
    nzf_draws it = {draw(), draw()};
    uint8_t code;
    must(nzf_device_allow(&revoking, NOW, "lost", 4, &it, &code) == NZF_DONE, "device_allow");
}

static int kept(void *context, const void *path, nzf_size path_length, const void *value, nzf_size count, int32_t format) {
    (void)context, (void)path, (void)path_length, (void)value, (void)count, (void)format;
    return 0;
}

static void device_keep(void) { must(nzf_device_keep(&device, kept, NULL) == NZF_DONE, "device_keep"); }

static void device_heard(void) {
    nzf_draw it = draw();
    must(nzf_device_on_datagram(&device, NOW, &client_at, bytes, length, &it) == NZF_DONE, "device_on_datagram");
}

static void device_answer(void) { must(nzf_device_next(&device, &to, bytes, sizeof bytes, &length) == NZF_DONE, "device_next"); }

static void device_told(void) {
    nzf_served it = NZF_SERVED;
    uint8_t all[NZF_PATH_MAX + DATAGRAM + NZF_CONTEXT_MAX];
    must(nzf_device_served(&device, &it, all, sizeof all) == NZF_DONE, "device_served");
}

static void device_tick(void) {
    nzf_draw it = draw();
    must(nzf_device_on_tick(&device, NOW, &it) == NZF_DONE, "device_on_tick");
}

static void device_open_get(void) {
    static const uint8_t GET[] = {0x40, 1, 0x77, 0x77, 0xb4, 'l', 'o', 'c', 'k', 6, 'a', 'c', 't', 'u', 'a', 'l'};
    memcpy(bytes, GET, sizeof GET);
    length = sizeof GET;
    device_heard();
}

static void mint(void) {
    nzf_claims it = NZF_CLAIMS;
    it.key = KEY;
    it.iv.bytes[0] = holder;
    it.audience = nzf_text("door");
    it.id = nzf_bytes_of(&holder, 1);
    it.secret = nzf_bytes_of(&holder, 1);
    it.scope = nzf_text("/lock/wanted:GET+PUT");
    must(nzf_token_mint(&it, token, sizeof token, &token_length) == NZF_DONE, "token_mint");
}

static void client_new(void) {
    nzf_client_settings it = NZF_CLIENT_SETTINGS;
    it.next_hop = DEVICE_AT;
    it.token = nzf_bytes_of(token, token_length);
    it.secret = nzf_bytes_of(&holder, 1);
    must(nzf_client_new(&client, &it) == NZF_DONE, "client_new");
}

static void client_taken(void) { must(nzf_client_next(&client, &to, bytes, sizeof bytes, &length) == NZF_DONE, "client_next"); }

static void client_exchange(void) {
    nzf_draw it = draw();
    must(nzf_client_exchange(&client, NOW, &it) == NZF_DONE, "client_exchange");
}

static void client_ask(void) {
    nzf_draw it = draw();
    nzf_request asked = NZF_REQUEST;
    asked.method = NZF_METHOD_PUT;
    asked.options.format = 0;
    asked.path = nzf_text("/lock/wanted");
    asked.payload = nzf_text("open");
    must(nzf_client_ask(&client, NOW, &asked, &it) == NZF_DONE, "client_ask");
}

static void client_heard(void) { must(nzf_client_on_datagram(&client, NOW, &DEVICE_AT, bytes, length) == NZF_DONE, "client_on_datagram"); }

static void proxy_new(void) {
    must(nzf_proxy_new(&proxy) == NZF_DONE && nzf_proxy_add_target(&proxy, "door", 4, 5683, &DEVICE_AT) == NZF_DONE, "proxy_new");
}

static void proxy_heard(void) {
    static const uint8_t GET[] = {0x40, 1, 0, 1, 0x34, 'd', 'o', 'o', 'r', 0x81, 'e', 0xd4, 15, 'c', 'o', 'a', 'p'};
    nzf_draw it = draw();
    must(nzf_proxy_on_datagram(&proxy, NOW, &client_at, GET, sizeof GET, &it) == NZF_DONE, "proxy_on_datagram");
}

/* The holder's token is posted, and its context is made at both ends. */
static void post(void) {
    client_exchange();
    client_taken();
    device_heard();
    device_answer();
    client_heard();
}

static void many_contexts(void) {
    size_t before = live;
    for (holder = 3; holder < 3 + HOLDERS - 3; holder++) {
        mint();
        client_new();
        client_at.port++;
        post();
        nzf_client_free(&client);
    }
    printf("%-52s %8lu\n", "for each security context and what is heard of it", (unsigned long)((live - before) / (HOLDERS - 3)));
}

int main(void) {
    (void)PROXY_AT;
    printf("%-52s %8s %8s %8s\n", "", "held", "at most", "stack");
    row("nzf_device_new", device_new);
    row("nzf_device_open", device_open);
    row("nzf_device_put, /lock/actual, 4 bytes", device_put);
    row("nzf_device_append, /log, 4 bytes", device_append);
    row("nzf_device_new_with, a resource; it revokes", revoking_new);
    revoking_open();
    row("nzf_device_revoke", device_revoke);
    row("nzf_device_allow", device_allow);
    nzf_device_free(&revoking);
    row("nzf_device_on_datagram, a GET without protection", device_open_get);
    row("nzf_device_on_tick", device_tick);
    holder = 1;
    row("nzf_token_mint", mint);
    row("nzf_client_new", client_new);
    row("nzf_client_exchange", client_exchange);
    client_taken();
    row("nzf_device_on_datagram, the post of a token", device_heard);
    device_answer();
    row("nzf_client_on_datagram, the answer to that", client_heard);
    row("nzf_client_ask, a PUT", client_ask);
    client_taken();
    row("nzf_device_on_datagram, a protected PUT", device_heard);
    row("nzf_device_served", device_told);
    row("nzf_device_keep", device_keep);
    device_answer();
    row("nzf_client_on_datagram, a protected answer", client_heard);
    nzf_client_free(&client);
    row("nzf_proxy_new, with a target", proxy_new);
    row("nzf_proxy_on_datagram, a request", proxy_heard);
    many_contexts();
    nzf_device_free(&device);
    nzf_proxy_free(&proxy);
    must(live == 0, "free");
    return 0;
}
