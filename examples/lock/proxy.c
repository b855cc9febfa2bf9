/* A forward proxy on a network. It has no keys: what is protected passes it as it is.
 *
 *   proxy PORT SECONDS HOST:PORT=ADDRESS:PORT ..
 *
 * Requests for each HOST and PORT go to that ADDRESS and PORT. An address of IPv6 is in brackets. */
#define _POSIX_C_SOURCE 200809L
#include "udp.h"

#include <unistd.h>

static nzf_proxy proxy;
static int udp;

static void send_all(void) {
    nzf_peer to;
    uint8_t bytes[NZF_DATAGRAM_MAX];
    nzf_size length;
    while (nzf_proxy_next(&proxy, &to, bytes, sizeof bytes, &length) == NZF_DONE) send_to(udp, &to, bytes, length);
}

/* What a step left is sent where it was done. After NZF_NO_MEMORY a datagram is lost, and whoever sent it repeats it. */
static void act_on(const char *what, int32_t number) {
    if (number == NZF_DONE || number == NZF_LOST) send_all();
    if (number != NZF_DONE) fprintf(stderr, "proxy: %s: %s\n", what, nzf_outcome_text(number));
}

static void add_target(const char *text) {
    const char *equals = strchr(text, '=');
    nzf_size length;
    char name[300];
    if (equals == NULL || equals - text >= (int)sizeof name) fail(text, "say HOST:PORT=ADDRESS:PORT");
    memcpy(name, text, (size_t)(equals - text));
    name[equals - text] = '\0';
    nzf_peer to = peer_of(equals + 1);
    uint16_t port = host_and_port(name, &length);
    if (nzf_proxy_add_target(&proxy, name, length, port, &to) != NZF_DONE) fail(text, "this is no target");
}

int main(int count, char **words) {
    if (count < 4) fail("proxy", "say proxy PORT SECONDS HOST:PORT=ADDRESS:PORT ..");
    if (nzf_proxy_new(&proxy) != NZF_DONE || nzf_proxy_set_outstanding(&proxy, 16) != NZF_DONE) fail("proxy", "there is no memory");
    for (int at = 3; at < count; at++) add_target(words[at]);
    udp = socket_on((uint16_t)atoi(words[1]));
    printf("listening on port %s\n", words[1]);
    fflush(stdout);
    uint64_t end = now() + (uint64_t)atoi(words[2]) * SECOND, tick = now() + SECOND;
    while (now() < end) {
        uint8_t bytes[NZF_DATAGRAM_MAX + 1];
        nzf_size length;
        nzf_peer from;
        nzf_draw it = draw();
        if (receive(udp, tick, bytes, &length, &from)) {
            act_on("datagram", nzf_proxy_on_datagram(&proxy, now(), &from, bytes, length, &it));
            it = draw();
        }
        if (now() >= tick) {
            act_on("tick", nzf_proxy_on_tick(&proxy, now(), &it));
            tick = now() + SECOND;
        }
    }
    nzf_proxy_free(&proxy);
    close(udp);
    return 0;
}
