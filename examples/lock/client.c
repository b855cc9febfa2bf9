/* A holder of a token of the lock, on a network: one request, and its answer.
 *
 *   client ADDRESS:PORT|ADDRESS:PORT=HOST:PORT SCOPE GET|PUT PATH [TEXT]
 *
 * The request goes to the lock at ADDRESS and PORT, or to a proxy there, which knows the lock as HOST and PORT. An address of IPv6 is in brackets. As on a
 * test bench, where the lock's key is known, the client mints its own token, for this scope: lock_settings.h has the key. It prints the answer, as
 * `2.05 open`. */
#define _POSIX_C_SOURCE 200809L
#include "lock_settings.h"
#include "udp.h"

#include <unistd.h>

static nzf_client client;
static int udp;

static void send_all(void) {
    nzf_peer to;
    uint8_t bytes[NZF_DATAGRAM_MAX];
    nzf_size length;
    while (nzf_client_next(&client, &to, bytes, sizeof bytes, &length) == NZF_DONE) send_to(udp, &to, bytes, length);
}

/* Plays until the client learns how what it began went on. Nothing takes longer than 247 seconds. */
static nzf_result result(uint8_t payload[NZF_DATAGRAM_MAX]) {
    nzf_result it = NZF_RESULT;
    int32_t number;
    send_all();
    while ((number = nzf_client_result(&client, &it, payload, NZF_DATAGRAM_MAX)) == NZF_NOTHING) {
        uint8_t bytes[NZF_DATAGRAM_MAX + 1];
        nzf_size length;
        nzf_peer from;
        uint64_t due;
        uint64_t until = nzf_client_next_deadline(&client, &due) == NZF_DONE && due < now() + SECOND ? due : now() + SECOND;
        number = receive(udp, until, bytes, &length, &from) ? nzf_client_on_datagram(&client, now(), &from, bytes, length)
                                                            : nzf_client_on_tick(&client, now());
        if (number == NZF_DONE) send_all();
        else fprintf(stderr, "client: %s\n", nzf_outcome_text(number));
    }
    if (number != NZF_DONE) fail("client", "what it learnt can't be read");
    return it;
}

static void make(const char *hop, const char *scope) {
    static const char *const NAME = "client";
    const char *equals = strchr(hop, '=');
    uint8_t secret[16], token[NZF_DATAGRAM_MAX];
    char next[64] = "";
    nzf_size length = 0, host_length = 0, hop_length = equals == NULL ? strlen(hop) : (nzf_size)(equals - hop);
    nzf_claims claims = NZF_CLAIMS;
    nzf_client_settings settings = NZF_CLIENT_SETTINGS;
    fill(secret, sizeof secret);

    claims.key = LOCK_KEY;
    fill(claims.iv.bytes, sizeof claims.iv.bytes);
    claims.has_context = 1;
    claims.expires = now() / 1000 + 3600;
    claims.audience = nzf_text(LOCK_AUDIENCE);
    claims.id = nzf_bytes_of(secret, 8);
    claims.secret = nzf_bytes_of(secret, sizeof secret);
    claims.context = nzf_text(NAME);
    claims.scope = nzf_text(scope);
    int32_t number = nzf_token_mint(&claims, token, sizeof token, &length);
    if (number != NZF_DONE) fail(scope, nzf_outcome_text(number));

    if (hop_length < sizeof next) memcpy(next, hop, hop_length);
    settings.next_hop = peer_of(next);
    if (equals != NULL) {
        settings.port = host_and_port(equals + 1, &host_length);
        settings.host = nzf_bytes_of(equals + 1, host_length);
    }
    settings.has_context = 1;
    settings.token = nzf_bytes_of(token, length);
    settings.secret = claims.secret;
    settings.context = claims.context;
    number = nzf_client_new(&client, &settings);
    if (number != NZF_DONE) fail("client", nzf_outcome_text(number));
}

int main(int count, char **words) {
    uint8_t payload[NZF_DATAGRAM_MAX];
    if (count < 5) fail("client", "say client ADDRESS:PORT|ADDRESS:PORT=HOST:PORT SCOPE GET|PUT PATH [TEXT]");
    udp = socket_on(0);
    make(words[1], words[2]);

    nzf_draw it = draw();
    if (nzf_client_exchange(&client, now(), &it) != NZF_DONE) fail("client", "its token isn't posted");
    nzf_result told = result(payload);
    if (told.what != NZF_RESULT_MADE) fail("client", "it has no security context");

    nzf_request request = NZF_REQUEST;
    if (strcmp(words[3], "PUT") == 0) request.method = NZF_METHOD_PUT;
    request.path = nzf_text(words[4]);
    if (count > 5) request.payload = nzf_text(words[5]);
    it = draw();
    int32_t number = nzf_client_ask(&client, now(), &request, &it);
    if (number != NZF_DONE) fail(words[4], nzf_outcome_text(number));
    told = result(payload);
    if (told.what == NZF_RESULT_ANSWER) printf("%d.%02d %.*s\n", told.code >> 5, told.code & 31, (int)told.length, (const char *)payload);
    else printf("no answer: %d, code %d\n", told.what, told.code);
    nzf_client_free(&client);
    close(udp);
    return told.what == NZF_RESULT_ANSWER ? 0 : 1;
}
