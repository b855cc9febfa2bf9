/* A lock on a network: the program that a door's maker writes round the library. It has a UDP socket, a clock and a generator; the library has none.
 *
 *   lock [--port N] [--seconds N]
 *
 * Holders of a token PUT `open` or `shut` at /lock/wanted. The lock moves its bolt, tells how it stands at /lock/actual, and writes each move to /log. */
#ifndef LOCK_BOARD
#define _POSIX_C_SOURCE 200809L
#endif
#include "lock_settings.h"

#include <errno.h>
#include <stdio.h>
#include <stdlib.h>
#include <string.h>

enum { SECOND = 1000, CREATED = 0x41, DELETED = 0x42, CHANGED = 0x44, TOO_LARGE = 0x8d };

static const char WANTED[] = "/lock/wanted", ACTUAL[] = "/lock/actual", LOG[] = "/log";

static nzf_device device;

/* How the bolt stands, whether /lock/actual says so by now, and the newest line, where /log hasn't got it yet. And whether a request was served of which the
 * lock wasn't told: then it looks at /lock/wanted. */
static int is_open, is_told, is_missed;
static char line[96];

/* What the lock does at its own server. Where memory was wanting on the way it is left open: a tick goes on with it, and tells what came of it. */
typedef enum { NONE, OPEN, PUT, APPEND, REMOVE } doing;
static const char *const DOING[] = {"nothing", "open", "put /lock/actual", "append to /log", "remove /log"};
static doing left_open;
static int has_moved; /* since then */

/* When the lock's own context was opened: it ends, as each does. */
static uint64_t opened;

/* ---- what is the maker's: errors, moments, draws, datagrams. LOCK_BOARD names a file that has these for a board without a system (m4/board.h). */

static void fail(const char *what, const char *why) {
    fprintf(stderr, "lock: %s: %s\n", what, why);
    exit(1);
}

/* A line where the library answered another number than NZF_DONE, or another code than was hoped for. */
static void complain(const char *what, int32_t number, uint8_t code) {
    fprintf(stderr, "lock: %s: %s, code %d.%02d\n", what, nzf_outcome_text(number), code >> 5, code & 31);
}

#ifdef LOCK_BOARD
#include LOCK_BOARD
#else

#include "moment.h"

#include <arpa/inet.h>
#include <netinet/in.h>
#include <poll.h>
#include <sys/random.h>
#include <sys/socket.h>
#include <unistd.h>

static int udp = -1;

static uint64_t now(void) {
    uint64_t moment = 0;
    if (!read_moment(&moment)) fail("clock_gettime", strerror(errno));
    return moment;
}

/* 32 bytes that nobody can guess. Without them the lock stops: it must not go on with bytes that came before. */
static nzf_draw draw(void) {
    nzf_draw it;
    size_t filled = 0;
    while (filled < sizeof it.bytes) {
        ssize_t more = getrandom(it.bytes + filled, sizeof it.bytes - filled, 0);
        if (more < 0 && errno != EINTR) fail("getrandom", strerror(errno));
        if (more > 0) filled += (size_t)more;
    }
    return it;
}

/* On each address, of IPv6 and of IPv4: one of IPv4 is ::ffff:a.b.c.d there, as it is in an nzf_peer. */
static void listen_on(uint16_t port) {
    struct sockaddr_in6 here = {0};
    int off = 0;
    here.sin6_family = AF_INET6;
    here.sin6_port = htons(port);
    udp = socket(AF_INET6, SOCK_DGRAM, 0);
    if (udp < 0) fail("socket", strerror(errno));
    if (setsockopt(udp, IPPROTO_IPV6, IPV6_V6ONLY, &off, sizeof off) != 0) fail("IPV6_V6ONLY", strerror(errno));
    if (bind(udp, (struct sockaddr *)&here, sizeof here) != 0) fail("bind", strerror(errno));
}

/* What can't be sent is lost, as on the way: the client asks again. */
static void send_one(const nzf_peer *to, const uint8_t *bytes, nzf_size length) {
    struct sockaddr_in6 there = {0};
    there.sin6_family = AF_INET6;
    there.sin6_port = htons(to->port);
    there.sin6_scope_id = to->scope;
    memcpy(&there.sin6_addr, to->bytes, sizeof to->bytes);
    if (sendto(udp, bytes, length, 0, (struct sockaddr *)&there, sizeof there) < 0) fprintf(stderr, "lock: sendto: %s\n", strerror(errno));
}

/* Waits for a datagram, so many milliseconds at most: 1 where there may be one. */
static int wait_for_one(uint64_t most) {
    struct pollfd it = {udp, POLLIN, 0};
    int ready = poll(&it, 1, (int)most);
    if (ready < 0 && errno != EINTR) fail("poll", strerror(errno));
    return ready;
}

/* A datagram that came: 1, its bytes, its length and whom it comes from; or 0. */
static int take_one(uint8_t *bytes, size_t room, nzf_size *length, nzf_peer *from) {
    struct sockaddr_in6 there;
    socklen_t size = sizeof there;
    ssize_t came = recvfrom(udp, bytes, room, MSG_DONTWAIT, (struct sockaddr *)&there, &size);
    if (came < 0) {
        if (errno != EAGAIN && errno != EINTR) fprintf(stderr, "lock: recvfrom: %s\n", strerror(errno));
        return 0;
    }
    *from = nzf_ipv6(there.sin6_addr.s6_addr, there.sin6_scope_id, ntohs(there.sin6_port));
    *length = (nzf_size)came;
    return 1;
}

#endif

static nzf_draws two_draws(void) {
    nzf_draws it = {draw(), draw()};
    return it;
}

static void send_all(void) {
    nzf_peer to;
    uint8_t bytes[NZF_DATAGRAM_MAX];
    nzf_size length;
    int32_t number;
    while ((number = nzf_device_next(&device, &to, bytes, sizeof bytes, &length)) == NZF_DONE) send_one(&to, bytes, length);
    if (number != NZF_NOTHING) complain("next", number, 0);
}

/* ---- the bolt, and what the lock says of itself */

static int open_context(void) {
    nzf_draws draws = two_draws();
    uint8_t code = 0;
    int32_t number = nzf_device_open(&device, now(), &draws, &code);
    if (number == NZF_DONE) opened = now();
    if (number == NZF_LOST) left_open = OPEN;
    if (number != NZF_DONE) complain(DOING[OPEN], number, code);
    return number == NZF_DONE;
}

/* Opens a new context before the lock's own ends. */
static void renew(void) {
    if (left_open == NONE && now() - opened >= LOCK_CONTEXT_SECONDS * UINT64_C(1000) / 2) open_context();
}

/* A text (Content-Format 0) for a path. */
static nzf_resource text_at(const char *path, const char *text) {
    nzf_resource it = NZF_RESOURCE;
    it.path = nzf_text(path);
    it.format = 0;
    it.payload = nzf_text(text);
    return it;
}

static int32_t put_actual(uint8_t *code) {
    nzf_draws draws = two_draws();
    nzf_resource it = text_at(ACTUAL, is_open ? "open" : "shut");
    return nzf_device_put(&device, now(), &it, &draws, code);
}

static int32_t append_line(uint8_t *code) {
    nzf_draws draws = two_draws();
    nzf_resource it = text_at(LOG, line);
    return nzf_device_append(&device, now(), &it, &draws, code);
}

static int32_t remove_log(uint8_t *code) {
    nzf_draws draws = two_draws();
    return nzf_device_remove(&device, now(), LOG, strlen(LOG), &draws, code);
}

/* Whether it is done. Where the context is gone or used up, a new one is opened, and the write is made at the next call. */
static int is_done(doing what, int32_t number, uint8_t code) {
    if (number == NZF_DONE && (what == OPEN || code == CREATED || code == CHANGED || code == DELETED)) return 1;
    complain(DOING[what], number, number == NZF_DONE || number == NZF_UNVERIFIED ? code : 0);
    if (number == NZF_LOST) {
        left_open = what;
        has_moved = 0;
    }
    if (number == NZF_NO_CONTEXT || number == NZF_EXHAUSTED || number == NZF_UNVERIFIED) open_context();
    return 0;
}

static void write_line(void) {
    uint8_t code = 0;
    int32_t number = append_line(&code);
    if (number == NZF_DONE && code == TOO_LARGE) {
        number = remove_log(&code);
        if (!is_done(REMOVE, number, code)) return;
        number = append_line(&code);
    }
    if (is_done(APPEND, number, code)) line[0] = '\0';
}

/* Tells what isn't told yet; what can't be told now is told after a later datagram or tick. Where the log is full a new one begins. */
static void tell(void) {
    if (left_open == NONE && !is_told) {
        uint8_t code = 0;
        int32_t number = put_actual(&code);
        is_told = is_done(PUT, number, code);
    }
    if (left_open == NONE && line[0] != '\0') write_line();
}

/* What came of what was left open. It says nothing of how the bolt stands where that has moved since. */
static void act_on_learnt(void) {
    uint8_t code = 0;
    int32_t number = nzf_device_learnt(&device, &code);
    if (number == NZF_NOTHING) return;
    doing what = left_open;
    left_open = NONE;
    if (what == OPEN && number == NZF_DONE) opened = now();
    if (!is_done(what, number, code) || has_moved) return;
    if (what == PUT) is_told = 1;
    if (what == APPEND) line[0] = '\0';
}

/* Moves the bolt, for a holder whose token has this id context. What isn't printable ASCII in it shows as `?`. */
static void move(int to_open, const uint8_t *holder, size_t length) {
    char name[65] = {0};
    for (size_t at = 0; at < length && at < sizeof name - 1; at++) name[at] = holder[at] > 0x20 && holder[at] < 0x7f ? (char)holder[at] : '?';
    is_open = to_open;
    is_told = 0;
    has_moved = 1;
    snprintf(line, sizeof line, "%s by %s\n", to_open ? "open" : "shut", name[0] == '\0' ? "someone" : name);
    printf("bolt: %s", line);
    fflush(stdout);
}

static int is_text(const uint8_t *bytes, size_t length, const char *text) { return length == strlen(text) && memcmp(bytes, text, length) == 0; }

/* ---- one step */

/* A PUT of /lock/wanted that was done moves the bolt: the library has judged by then that its holder may, and that it is no repeat. */
static void act_on_served(void) {
    nzf_served it = NZF_SERVED;
    uint8_t bytes[NZF_PATH_MAX + NZF_DATAGRAM_MAX + NZF_CONTEXT_MAX];
    int32_t number = nzf_device_served(&device, &it, bytes, sizeof bytes);
    if (number == NZF_NOTHING) return;
    if (number != NZF_DONE) {
        complain("served", number, 0);
        is_missed = 1;
        return;
    }
    const uint8_t *payload = bytes + it.path_length, *holder = payload + it.payload_length;
    int is_put = it.method == NZF_METHOD_PUT && (it.code == CREATED || it.code == CHANGED);
    if (!is_put || !is_text(bytes, it.path_length, WANTED)) return;
    if (is_text(payload, it.payload_length, "open")) move(1, holder, it.context_length);
    if (is_text(payload, it.payload_length, "shut")) move(0, holder, it.context_length);
}

/* The bolt goes where /lock/wanted says. Where there is no memory to look, it is looked at after a later datagram or tick. */
static void catch_up(void) {
    nzf_value it = NZF_VALUE;
    uint8_t bytes[NZF_PAYLOAD_MAX];
    if (!is_missed) return;
    int32_t number = nzf_device_get(&device, WANTED, strlen(WANTED), bytes, sizeof bytes, &it);
    is_missed = number == NZF_NO_MEMORY;
    if (number != NZF_DONE) return;
    if (is_text(bytes, it.length, "open") && !is_open) move(1, bytes, 0);
    if (is_text(bytes, it.length, "shut") && is_open) move(0, bytes, 0);
}

static void act_on_refused(void) {
    nzf_refused it = NZF_REFUSAL;
    int32_t number = nzf_device_refused(&device, &it);
    if (number == NZF_NOTHING) return;
    if (number != NZF_DONE) complain("refused", number, 0);
    else printf("refused: %d.%02d, reason %d\n", it.code >> 5, it.code & 31, it.reason);
    fflush(stdout);
}

/* After a call that was done, though some of what it sends may be lost: what its step left is acted on, and sent, before the lock writes for itself, which
 * is a step of its own. A lock that keeps its resources over a reboot calls nzf_device_keep before it sends, and after each write of its own. After any other
 * number the last step is still there, and was acted on by then: to act on it again would move the bolt twice. */
static void act_on(const char *what, int32_t number) {
    if (number == NZF_DONE || number == NZF_LOST) {
        act_on_served();
        act_on_refused();
        send_all();
        act_on_learnt();
    }
    if (number != NZF_DONE) complain(what, number, 0);
    catch_up();
    tell();
}

static void tick(void) {
    nzf_draw it = draw();
    act_on("tick", nzf_device_on_tick(&device, now(), &it));
    renew();
}

static void receive(void) {
    nzf_peer from;
    nzf_size length;
    uint8_t bytes[NZF_DATAGRAM_MAX + 1]; /* one more, so that a longer datagram isn't taken for one that fits */
    if (!take_one(bytes, sizeof bytes, &length, &from)) return;
    nzf_draw it = draw();
    act_on("datagram", nzf_device_on_datagram(&device, now(), &from, bytes, length, &it));
}

/* ---- the whole */

static void begin(void) {
    nzf_device_settings settings = NZF_DEVICE_SETTINGS;
    nzf_draw it = draw();
    settings.key = LOCK_KEY;
    settings.audience = nzf_text(LOCK_AUDIENCE);
    settings.unprotected = nzf_text(LOCK_OPEN);
    settings.own = nzf_text(LOCK_OWN);
    settings.context_seconds = LOCK_CONTEXT_SECONDS;
    int32_t number = nzf_device_new(&device, &settings, &it);
    if (number != NZF_DONE) {
        complain("new", number, 0);
        exit(1);
    }
    if (!open_context() && left_open == NONE) exit(1);
    tell();
}

/* Until this moment: a datagram that came, and a tick each second, also while datagrams come. */
static void run(uint64_t end) {
    uint64_t next = now() + SECOND;
    for (uint64_t moment = now(); moment < end; moment = now()) {
        int ready = wait_for_one(next > moment ? next - moment : 0);
        if (ready > 0) receive();
        if (ready == 0 || now() >= next) {
            tick();
            next = now() + SECOND;
        }
    }
}

static uint64_t number_of(const char *text, uint64_t most) {
    char *end;
    errno = 0;
    unsigned long long it = strtoull(text, &end, 10);
    if (text[0] < '0' || text[0] > '9' || *end != '\0' || errno != 0 || it > most) fail(text, "this is no number that fits here");
    return it;
}

int main(int count, char **words) {
    uint64_t port = 5683, seconds = UINT32_MAX;
    for (int at = 1; at < count; at += 2) {
        if (at + 1 < count && strcmp(words[at], "--port") == 0) port = number_of(words[at + 1], UINT16_MAX);
        else if (at + 1 < count && strcmp(words[at], "--seconds") == 0) seconds = number_of(words[at + 1], UINT32_MAX);
        else fail(words[at], "say lock [--port N] [--seconds N]");
    }
    listen_on((uint16_t)port);
    begin();
    printf("listening on port %d\n", (int)port);
    fflush(stdout);
    run(now() + seconds * SECOND);
    nzf_device_free(&device);
    return 0;
}
