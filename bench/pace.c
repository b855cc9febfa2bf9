/* Clients of one proxy that ask through it for one resource of one server, one request after the other each:

     pace PORT TO SECONDS CLIENTS confirmable|non-confirmable

   PORT is the proxy's. So many clients, each at a port of its own, GET coap://127.0.0.1:TO/e for so many seconds, by confirmable messages, which they
   send again until they are acknowledged (RFC 7252 section 4.2), or by messages that aren't. Confirmable answers are acknowledged. It prints how many
   were answered in a second, and how many requests were refused, by another code or a Reset, and lost. */
#define _GNU_SOURCE
#include <arpa/inet.h>
#include <errno.h>
#include <poll.h>
#include <stdint.h>
#include <stdio.h>
#include <stdlib.h>
#include <string.h>
#include <sys/socket.h>
#include <time.h>
#include <unistd.h>

enum { MOST_CLIENTS = 16, ROOM = 1500 };

/* In milliseconds, and how often a message goes out again (RFC 7252 section 4.8). A request that isn't answered for so long is lost, and the client asks the
   next time: a confirmable one once no copy of it is on its way (MAX_TRANSMIT_WAIT). */
enum { ACK_TIMEOUT = 2000, MAX_RETRANSMIT = 4, CON_PATIENCE = 93000, NON_PATIENCE = 5000 };

/* Types of message, and the code 2.05. */
enum { CON, NON, ACK, RST, CONTENT = 0x45 };

#define NEVER UINT64_MAX

/* A client and its open request: when it asked, when the request goes out again, and after how long the next time. */
typedef struct {
    int socket;
    uint16_t id;
    uint32_t token;
    uint8_t request[ROOM];
    size_t length;
    uint64_t asked_at, due, timeout;
    int repeats;
} client;

/* What became of requests. */
typedef struct {
    uint64_t answered, refused, lost;
} counts;

static const char *host = "127.0.0.1", *path = "e";
static uint16_t port, to;
static int kind;
static counts of;

static uint64_t milliseconds(void) {
    struct timespec now;
    clock_gettime(CLOCK_MONOTONIC, &now);
    return (uint64_t)now.tv_sec * 1000 + (uint64_t)now.tv_nsec / 1000000;
}

static void fail(const char *what) {
    perror(what);
    exit(2);
}

static client connected(int number) {
    struct sockaddr_in address = {.sin_family = AF_INET, .sin_port = htons(port), .sin_addr.s_addr = htonl(INADDR_LOOPBACK)};
    client it = {.socket = socket(AF_INET, SOCK_DGRAM | SOCK_NONBLOCK, 0), .id = (uint16_t)(4096 * number)};
    if (it.socket < 0 || connect(it.socket, (struct sockaddr *)&address, sizeof address) != 0) fail("pace: a socket");
    return it;
}

static void transmit(const client *it, const uint8_t *bytes, size_t length) {
    /* A datagram that there is no room for is lost like one on its way. */
    if (send(it->socket, bytes, length, 0) < 0 && errno != EAGAIN && errno != ENOBUFS) fail("pace: a datagram");
}

/* An option whose delta is below 13 and whose value is below 13 bytes. */
static size_t option(uint8_t *at, unsigned delta, const void *value, size_t length) {
    at[0] = (uint8_t)(delta << 4 | length);
    memcpy(at + 1, value, length);
    return 1 + length;
}

/* The next request: a GET by Uri-Host, Uri-Port, Uri-Path and Proxy-Scheme. */
static void ask(client *it) {
    uint8_t *bytes = it->request, port_of[] = {(uint8_t)(to >> 8), (uint8_t)to}, header[] = {(uint8_t)(0x44 | kind << 4), 1, 0, 0};
    it->id++;
    it->token++;
    header[2] = (uint8_t)(it->id >> 8);
    header[3] = (uint8_t)it->id;
    memcpy(bytes, header, 4);
    memcpy(bytes + 4, &it->token, 4);
    size_t length = 8;
    length += option(bytes + length, 3, host, strlen(host));
    length += option(bytes + length, 7 - 3, port_of, 2);
    length += option(bytes + length, 11 - 7, path, strlen(path));
    /* The delta of Proxy-Scheme, 39 - 11, has a byte of its own. */
    bytes[length++] = 0xd4;
    bytes[length++] = 39 - 11 - 13;
    memcpy(bytes + length, "coap", 4);
    it->length = length + 4;
    it->asked_at = milliseconds();
    it->timeout = (uint64_t)(ACK_TIMEOUT + rand() % (ACK_TIMEOUT / 2 + 1));
    it->due = kind == CON ? it->asked_at + it->timeout : NEVER;
    it->repeats = 0;
    transmit(it, it->request, it->length);
}

/* What is due of a client's open request. */
static void tick(client *it, uint64_t now) {
    if (now - it->asked_at >= (uint64_t)(kind == CON ? CON_PATIENCE : NON_PATIENCE)) {
        of.lost++;
        ask(it);
    } else if (now >= it->due) {
        it->repeats++;
        it->timeout *= 2;
        it->due = it->repeats < MAX_RETRANSMIT ? now + it->timeout : NEVER;
        transmit(it, it->request, it->length);
    }
}

/* One datagram for this client. Where it ends the client's request, the next one follows. */
static void hear(client *it, const uint8_t *bytes, size_t length) {
    if (length < 4 || bytes[0] >> 6 != 1) return;
    int type = bytes[0] >> 4 & 3;
    size_t token = bytes[0] & 15;
    int is_of_message = type >= ACK && bytes[2] == it->request[2] && bytes[3] == it->request[3];
    if (is_of_message) it->due = NEVER;
    if (bytes[1] == 0) {
        if (!is_of_message || type != RST) return;
        of.refused++;
    } else {
        uint8_t acknowledgement[] = {0x40 | ACK << 4, 0, bytes[2], bytes[3]};
        if (type == CON) transmit(it, acknowledgement, sizeof acknowledgement);
        if (token != 4 || length < 8 || memcmp(bytes + 4, &it->token, 4) != 0) return;
        if (bytes[1] == CONTENT) {
            of.answered++;
        } else {
            of.refused++;
        }
    }
    ask(it);
}

/* So many clients, for so many milliseconds: how many it were. */
static uint64_t paced(int count, uint64_t most) {
    client clients[MOST_CLIENTS];
    struct pollfd ears[MOST_CLIENTS];
    for (int i = 0; i < count; i++) {
        clients[i] = connected(i);
        ears[i] = (struct pollfd){clients[i].socket, POLLIN, 0};
    }
    uint64_t start = milliseconds(), now = start;
    for (int i = 0; i < count; i++) ask(&clients[i]);
    while (now - start < most) {
        if (poll(ears, (nfds_t)count, 20) < 0) fail("pace: poll");
        for (int i = 0; i < count; i++) {
            uint8_t bytes[ROOM];
            ssize_t length;
            while (ears[i].revents && (length = recv(clients[i].socket, bytes, sizeof bytes, 0)) >= 0) hear(&clients[i], bytes, (size_t)length);
        }
        now = milliseconds();
        for (int i = 0; i < count; i++) tick(&clients[i], now);
    }
    return now - start;
}

int main(int words, char **word) {
    int count = words == 6 ? atoi(word[4]) : 0;
    double seconds = words == 6 ? atof(word[3]) : 0;
    if (count < 1 || count > MOST_CLIENTS || seconds <= 0) {
        fprintf(stderr, "pace: say a proxy's port, a server's, how many seconds, how many clients up to %d, and confirmable or non-confirmable\n", MOST_CLIENTS);
        return 2;
    }
    port = (uint16_t)atoi(word[1]);
    to = (uint16_t)atoi(word[2]);
    kind = strcmp(word[5], "confirmable") == 0 ? CON : NON;
    double taken = (double)paced(count, (uint64_t)(1000 * seconds)) / 1000;
    printf("%.1f answers a second, %llu refused, %llu lost\n", (double)of.answered / taken, (unsigned long long)of.refused, (unsigned long long)of.lost);
    return 0;
}
