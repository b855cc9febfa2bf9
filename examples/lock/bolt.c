/* The lock where there is no memory left once a request is served, and where it isn't told what was: its bolt goes where it is wanted all the same. And its
 * own context, which it opens before that ends. It is linked with -Wl,--wrap=malloc,--wrap=nzf_device_served; the status is 1 where something doesn't hold. */
#define main lock_main
#include "lock.c"
#undef main

void *__real_malloc(size_t size);
void *__wrap_malloc(size_t size);

/* How many blocks are refused, from the next one on. */
static size_t refused;

void *__wrap_malloc(size_t size) {
    if (refused == 0) return __real_malloc(size);
    refused--;
    return NULL;
}

int32_t __real_nzf_device_served(const nzf_device *of, nzf_served *served, void *bytes, nzf_size room);
int32_t __wrap_nzf_device_served(const nzf_device *of, nzf_served *served, void *bytes, nzf_size room);

/* Whether the lock is told nothing. */
static int is_mute;

int32_t __wrap_nzf_device_served(const nzf_device *of, nzf_served *served, void *bytes, nzf_size room) {
    return is_mute ? NZF_TOO_SHORT : __real_nzf_device_served(of, served, bytes, room);
}

static int broken;

static void claim_at(int holds, const char *what, int line_number) {
    if (holds) return;
    broken = 1;
    fprintf(stderr, "bolt:%d: doesn't hold: %s\n", line_number, what);
}

#define CLAIM(holds) claim_at(holds, #holds, __LINE__)

/* ---- a holder, who has the right to move the bolt */

static const nzf_peer HERE = NZF_IPV4(127, 0, 0, 1, 9), DOOR = NZF_IPV4(127, 0, 0, 1, 5683);

static nzf_client holder;

static int is_granted(void) {
    uint8_t token[512];
    nzf_size length;
    nzf_claims claims = NZF_CLAIMS;
    nzf_client_settings it = NZF_CLIENT_SETTINGS;
    claims.key = LOCK_KEY;
    claims.iv.bytes[0] = 1;
    claims.audience = nzf_text(LOCK_AUDIENCE);
    claims.id = nzf_text("1");
    claims.secret = it.secret = nzf_text("a secret");
    claims.scope = nzf_text("/lock/wanted:PUT");
    it.next_hop = DOOR;
    if (nzf_token_mint(&claims, token, sizeof token, &length) != NZF_DONE) return 0;
    it.token = nzf_bytes_of(token, length);
    return nzf_client_new(&holder, &it) == NZF_DONE;
}

/* What the holder sends comes to the lock. */
static int32_t arrives(void) {
    nzf_peer to;
    uint8_t bytes[NZF_DATAGRAM_MAX];
    nzf_size length;
    nzf_draw it = draw();
    if (nzf_client_next(&holder, &to, bytes, sizeof bytes, &length) != NZF_DONE) return NZF_NOTHING;
    return nzf_device_on_datagram(&device, now(), &HERE, bytes, length, &it);
}

/* What the lock answers comes to the holder. */
static int is_answered(void) {
    nzf_peer to;
    uint8_t bytes[NZF_DATAGRAM_MAX];
    nzf_size length;
    return nzf_device_next(&device, &to, bytes, sizeof bytes, &length) == NZF_DONE
        && nzf_client_on_datagram(&holder, now(), &DOOR, bytes, length) == NZF_DONE;
}

static int posts(void) {
    nzf_draw it = draw();
    return nzf_client_exchange(&holder, now(), &it) == NZF_DONE && arrives() == NZF_DONE && is_answered();
}

/* The holder wants the bolt there, and the lock obeys that while this number of blocks is refused. */
static int wants(const char *where, size_t without) {
    nzf_draw it = draw();
    nzf_request put = NZF_REQUEST;
    put.method = NZF_METHOD_PUT;
    put.path = nzf_text(WANTED);
    put.payload = nzf_text(where);
    if (nzf_client_ask(&holder, now(), &put, &it) != NZF_DONE) return 0;
    int32_t number = arrives();
    if (number != NZF_DONE || !is_answered()) return 0;
    refused = without;
    act_on("datagram", number);
    refused = 0;
    return 1;
}

int main(void) {
    listen_on(0);
    begin();
    CLAIM(is_granted() && posts());
    CLAIM(wants("open", 0) && is_open && is_told);
    CLAIM(wants("shut", 1) && !is_open);
    CLAIM(wants("open", SIZE_MAX) && is_open);
    tick();
    CLAIM(is_open && is_told);
    CLAIM(wants("shut", SIZE_MAX) && !is_open);
    tick();
    CLAIM(!is_open && is_told);

    is_mute = 1;
    CLAIM(wants("open", 0) && is_open && is_told && !is_missed);
    CLAIM(wants("shut", SIZE_MAX) && is_open && is_missed);
    is_mute = 0;
    tick();
    CLAIM(!is_open && is_told && !is_missed);

    uint64_t before = opened;
    tick();
    CLAIM(opened == before);
    opened = before - LOCK_CONTEXT_SECONDS * UINT64_C(1000) / 2;
    tick();
    CLAIM(opened >= before);
    nzf_client_free(&holder);
    nzf_device_free(&device);
    close(udp);
    if (!broken) printf("bolt: it goes where it is wanted, also without memory once that is served\n");
    return broken;
}
