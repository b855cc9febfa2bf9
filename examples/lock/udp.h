/* What a node needs of its system on a network: a UDP socket over IPv6 and IPv4, a clock, a generator. client.c and proxy.c share it; the lock has its own,
 * so that lock.c can be read alone. Where the system refuses, the program ends. */
#ifndef UDP_H
#define UDP_H

#include <nozzlefern.h>

#include "moment.h"

#include <arpa/inet.h>
#include <errno.h>
#include <netinet/in.h>
#include <poll.h>
#include <stdio.h>
#include <stdlib.h>
#include <string.h>
#include <sys/random.h>
#include <sys/socket.h>

enum { SECOND = 1000 };

static inline void fail(const char *what, const char *why) {
    fprintf(stderr, "%s: %s\n", what, why);
    exit(1);
}

static inline uint64_t now(void) {
    uint64_t moment = 0;
    if (!read_moment(&moment)) fail("clock_gettime", strerror(errno));
    return moment;
}

/* Fills these bytes so that nobody can guess them. */
static inline void fill(void *bytes, size_t length) {
    uint8_t *at = (uint8_t *)bytes;
    while (length > 0) {
        ssize_t more = getrandom(at, length, 0);
        if (more < 0 && errno != EINTR) fail("getrandom", strerror(errno));
        if (more > 0) {
            at += more;
            length -= (size_t)more;
        }
    }
}

static inline nzf_draw draw(void) {
    nzf_draw it;
    fill(it.bytes, sizeof it.bytes);
    return it;
}

/* A socket on this port of all addresses; 0 is any port. An address of IPv4 is ::ffff:a.b.c.d there, as it is in an nzf_peer. */
static inline int socket_on(uint16_t port) {
    struct sockaddr_in6 here;
    int off = 0, udp = socket(AF_INET6, SOCK_DGRAM, 0);
    memset(&here, 0, sizeof here);
    here.sin6_family = AF_INET6;
    here.sin6_port = htons(port);
    if (udp < 0) fail("socket", strerror(errno));
    if (setsockopt(udp, IPPROTO_IPV6, IPV6_V6ONLY, &off, sizeof off) != 0) fail("IPV6_V6ONLY", strerror(errno));
    if (bind(udp, (struct sockaddr *)&here, sizeof here) != 0) fail("bind", strerror(errno));
    return udp;
}

/* What can't be sent is lost, as on the way. */
static inline void send_to(int udp, const nzf_peer *to, const uint8_t *bytes, size_t length) {
    struct sockaddr_in6 there;
    memset(&there, 0, sizeof there);
    there.sin6_family = AF_INET6;
    there.sin6_port = htons(to->port);
    there.sin6_scope_id = to->scope;
    memcpy(&there.sin6_addr, to->bytes, sizeof to->bytes);
    if (sendto(udp, bytes, length, 0, (struct sockaddr *)&there, sizeof there) < 0) fprintf(stderr, "sendto: %s\n", strerror(errno));
}

/* Waits at most until then for a datagram: whether one came, its bytes, and from where. The room is one byte more than a datagram may have, so that a
 * longer one isn't taken for one that fits. */
static inline int receive(int udp, uint64_t until, uint8_t bytes[NZF_DATAGRAM_MAX + 1], nzf_size *length, nzf_peer *from) {
    struct sockaddr_in6 there;
    socklen_t size = sizeof there;
    struct pollfd it = {udp, POLLIN, 0};
    uint64_t at = now();
    ssize_t came;
    if (poll(&it, 1, until > at ? (int)(until - at) : 0) <= 0) return 0;
    came = recvfrom(udp, bytes, NZF_DATAGRAM_MAX + 1, MSG_DONTWAIT, (struct sockaddr *)&there, &size);
    if (came < 0) return 0;
    *length = (nzf_size)came;
    *from = nzf_ipv6(there.sin6_addr.s6_addr, there.sin6_scope_id, ntohs(there.sin6_port));
    return 1;
}

/* HOST:PORT, as 127.0.0.1:5683: the host as it is written, its length, and the port. */
static inline uint16_t host_and_port(const char *text, nzf_size *host_length) {
    const char *colon = strrchr(text, ':');
    char *end;
    if (colon == NULL || colon == text) fail(text, "say HOST:PORT");
    *host_length = (nzf_size)(colon - text);
    unsigned long port = strtoul(colon + 1, &end, 10);
    if (*end != '\0' || port < 1 || port > UINT16_MAX) fail(text, "its port is none");
    return (uint16_t)port;
}

/* [ADDRESS] or [ADDRESS%ZONE], without its first bracket; the zone is a number. */
static inline nzf_peer ipv6_of(char *host, uint16_t port) {
    uint8_t bytes[16];
    char *zone = strchr(host, '%'), *end = strchr(host, ']');
    unsigned long scope = 0;
    if (zone != NULL) {
        *zone = '\0';
        scope = strtoul(zone + 1, &end, 10);
    }
    if (end == NULL || strcmp(end, "]") != 0 || scope > UINT32_MAX) fail(host, "say [ADDRESS]:PORT or [ADDRESS%ZONE]:PORT");
    *end = '\0';
    if (inet_pton(AF_INET6, host, bytes) != 1) fail(host, "this is no address of IPv6");
    return nzf_ipv6(bytes, (uint32_t)scope, port);
}

/* An address and a port, as 127.0.0.1:5683, [::1]:5683 or [fe80::1%2]:5683. */
static inline nzf_peer peer_of(const char *text) {
    uint8_t four[4];
    char host[64] = "";
    nzf_size length;
    uint16_t port = host_and_port(text, &length);
    if (length < sizeof host) memcpy(host, text, length);
    if (host[0] == '[') return ipv6_of(host + 1, port);
    if (inet_pton(AF_INET, host, four) != 1) fail(text, "say an address and a port, as 127.0.0.1:5683 or [::1]:5683");
    return nzf_ipv4(four[0], four[1], four[2], four[3], port);
}

#endif
