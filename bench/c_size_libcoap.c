/* A server of two resources made with libcoap, without OSCORE, tokens and a say of its own: its size, and with -DMEASURED what it needs of heap and stack. */
#ifdef MEASURED
#include "measured.h"
#endif

#include <coap3/coap.h>

#include <arpa/inet.h>
#include <netinet/in.h>
#include <stdio.h>
#include <stdlib.h>
#include <string.h>
#include <sys/socket.h>
#include <unistd.h>

static coap_context_t *context;
static uint8_t value[512] = "shut";
static size_t value_length = 4;

static void on_get(coap_resource_t *resource, coap_session_t *session, const coap_pdu_t *request, const coap_string_t *query, coap_pdu_t *response) {
    (void)resource, (void)session, (void)request, (void)query;
    coap_pdu_set_code(response, COAP_RESPONSE_CODE_CONTENT);
    coap_add_data(response, value_length, value);
}

static void on_put(coap_resource_t *resource, coap_session_t *session, const coap_pdu_t *request, const coap_string_t *query, coap_pdu_t *response) {
    const uint8_t *bytes;
    size_t length;
    (void)resource, (void)session, (void)query;
    if (coap_get_data(request, &length, &bytes) && length <= sizeof value) {
        memcpy(value, bytes, length);
        value_length = length;
    }
    coap_pdu_set_code(response, COAP_RESPONSE_CODE_CHANGED);
}

static void add(const char *path) {
    coap_resource_t *it = coap_resource_init(coap_make_str_const(path), 0);
    coap_register_request_handler(it, COAP_REQUEST_GET, on_get);
    coap_register_request_handler(it, COAP_REQUEST_PUT, on_put);
    coap_add_resource(context, it);
}

static void begin(void) {
    coap_address_t here;
    coap_address_init(&here);
    here.addr.sin.sin_family = AF_INET;
    here.addr.sin.sin_port = htons(25683);
    here.addr.sin.sin_addr.s_addr = htonl(INADDR_LOOPBACK);
    here.size = sizeof here.addr.sin;
    coap_startup();
    context = coap_new_context(NULL);
    if (!context || !coap_new_endpoint(context, &here, COAP_PROTO_UDP)) {
        fprintf(stderr, "c_size: libcoap has no endpoint\n");
        exit(1);
    }
    add("lock/actual");
    add("log");
}

static void step(void) { coap_io_process(context, COAP_IO_NO_WAIT); }

#ifdef MEASURED
static int stranger;
static uint16_t id;

static void ask(void) {
    uint8_t get[] = {0x40, 1, 0, 0, 0xb4, 'l', 'o', 'c', 'k', 6, 'a', 'c', 't', 'u', 'a', 'l'};
    struct sockaddr_in there = {0};
    id++;
    get[2] = (uint8_t)(id >> 8);
    get[3] = (uint8_t)id;
    there.sin_family = AF_INET;
    there.sin_port = htons(25683);
    there.sin_addr.s_addr = htonl(INADDR_LOOPBACK);
    if (sendto(stranger, get, sizeof get, 0, (struct sockaddr *)&there, sizeof there) < 0) exit(1);
}

static void answered(void) {
    uint8_t bytes[64];
    if (recv(stranger, bytes, sizeof bytes, 0) < 6 || bytes[1] != 0x45) {
        fprintf(stderr, "c_size: libcoap's server gave no 2.05\n");
        exit(1);
    }
}

int main(void) {
    stranger = socket(AF_INET, SOCK_DGRAM, 0);
    row("libcoap: context, endpoint, two resources", begin);
    ask();
    row("libcoap: coap_io_process, a GET", step);
    answered();
    size_t before = live;
    for (int round = 0; round < 1000; round++) {
        ask();
        step();
        answered();
    }
    printf("%-52s %8zu\n", "libcoap: what 1,000 GETs more leave", live - before);
    coap_free_context(context);
    coap_cleanup();
    return 0;
}
#else
int main(void) {
    begin();
    for (;;) step();
}
#endif
