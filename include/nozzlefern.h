/* Nozzlefern: CoAP nodes that are protected by OSCORE (RFC 7252, RFC 8613, RFC 9203). A device is a resource server that writes to itself, too; a
 * client asks it, and a forward proxy passes requests on. Each is a value held by a handle. There is no socket, no clock, no generator and no thread
 * here: the caller hands in what came, when it came and random bytes, and sends what comes out.
 *
 * Calls. Each answers a number of nzf_outcome: NZF_DONE, or why not. NZF_LOST, NZF_UNVERIFIED and NZF_REFUSED say that something was done. After any
 * other number than these and NZF_DONE the node is as it was before the call, but for `keep`. NZF_BAD_ARGUMENT says that an argument is out of its range,
 * whatever memory there is: a call with such an argument never answers NZF_NO_MEMORY, but where it says so.
 *
 * Steps. What a step leaves is there until the next: the datagrams that are to be sent, and what was served, changed, refused or learnt. So take the
 * datagrams by `next` before another step. A device's own calls (`open`, `put` and the like) leave nothing of the step before them, once
 * something was begun. A call that is refused leaves the last step as it was: look at what was served, refused or learnt only after NZF_DONE, and
 * after a tick's NZF_LOST.
 *
 * Keeping. A device whose owner calls `keep` after each step hands out nothing of a step before what it changed is kept, and makes no other: until then
 * `next` and each call that makes a step answer NZF_NOT_KEPT, and all stays. Where it couldn't be kept they answer so for good; what only looks goes on.
 *
 * Structs. The larger ones begin with `size`, which the caller sets, to the sizeof, and no call changes. Begin with the initializer that is named after the
 * struct (NZF_DEVICE_SETTINGS for nzf_device_settings; NZF_REFUSAL for nzf_refused), and set what differs. A struct that a call fills may also have the
 * size that it would have without the members below "may be left out": these are then neither read nor written. Another size is NZF_BAD_ARGUMENT, of a
 * struct that is filled also where a handle holds nothing. Plain values have no size: peers, keys, IVs, draws, bytes, ids, ETags, options and handles.
 *
 * Pointers. None may be null, also where a length is 0 (hand in "" then; the initializers do). What they point to is not kept after the call. What is
 * written to must not overlap with anything else that is handed in.
 *
 * Handles. A handle is all zero bytes where it holds nothing: `nzf_device door = {0};`. `new` puts a node there, in the place of one that it
 * held; `free` frees it, and does nothing where none is held. A handle must not be copied, and be used by one call at a time, by the thread
 * that made its node. A call on a handle that holds nothing answers NZF_NOTHING, and leaves a `code` as it was. A call that takes the handle as const
 * leaves its node as it was.
 *
 * Heap. Nodes are on the heap: by malloc and free of the program, or in one array (c/heap.c). What a call takes of it is said with the call; one that
 * says nothing takes none. Each block is cleared before it is given back, so after `free` no key, secret or payload is left in it.
 *
 * Stack. A call takes less than 48 KiB of it, whatever comes (bench/run stack), beside what malloc takes; one of a library for Cortex-M that is as small as
 * clang makes it (scripts/library --small) less than 56.
 *
 * Times are milliseconds since 1970, below 2^63, and do not fall from call to call. Draws are 32 bytes of a generator that nobody can guess,
 * new for each: what is promised of keys and nonces rests on their not coming twice.
 *
 * Texts are bytes with a length, without a zero after them. A path is 1 to 8 segments with a `/` before each, of 1 to 32 bytes of UTF-8. A
 * scope is a list of paths with methods, as "/log:GET+POST,/t:GET+SUB"; a last +SUB lets the methods count below the path, too. */
#ifndef NZF_H
#define NZF_H

#include <stddef.h>
#include <stdint.h>
#include <string.h>

#ifdef __cplusplus
extern "C" {
#endif

/* What compilers know that have GNU's attributes: no pointer may be null, and an answer is to be looked at. */
#if defined(__GNUC__) || defined(__clang__)
#define NZF_POINTERS __attribute__((nonnull))
#define NZF_CALL __attribute__((nonnull, warn_unused_result))
#define NZF_ANSWER __attribute__((warn_unused_result))
#else
#define NZF_POINTERS
#define NZF_CALL
#define NZF_ANSWER
#endif

/* a function that a program makes for itself */
#define NZF_INLINE static inline

/* ---- the version: 10000 times the major number, 100 times the minor one, and the patch */

#define NZF_VERSION 100

/* The version of the library that is linked. */
uint32_t nzf_version(void);

/* ---- the ABI, which the name of the shared library counts: libnozzlefern.so.1. Within one number a struct grows only at its end, and only where it has a
 * size; calls and numbers keep what they mean. So a program that was built with an older header of this number runs with a newer library. */

#define NZF_ABI 1

/* ---- how wide an address is for the library: a header of another library is refused; and a size, as each call takes it. The library for 32 bits has sizes of
 * 64 bits, too: then nzf_size is uint64_t. */

#define NZF_BITS 64

#if UINTPTR_MAX >> (NZF_BITS - 1) != 1
#error "nozzlefern.h is for another width of addresses: take the header of the library that is linked"
#endif

typedef size_t nzf_size;

/* ---- what calls answer */

typedef enum nzf_outcome {
    NZF_DONE = 0,          /* it is done */
    NZF_TOO_SHORT = 2,     /* a buffer is too short; nothing is lost, and the call can be made again with a longer one */
    NZF_NO_MEMORY = 9,     /* there was no memory */
    NZF_TOO_LONG = 14,     /* it would be longer than a datagram may be, or than a token */
    NZF_BUSY = 17,         /* something is open already */
    NZF_EXHAUSTED = 18,    /* the context's numbers are used up */
    NZF_NO_CONTEXT = 22,   /* there is no security context */
    NZF_BAD_SCOPE = 24,    /* the text is no scope */
    NZF_NOTHING = 33,      /* there is none: no node, no datagram, nothing served, nothing learnt, no resource, no deadline */
    NZF_BAD_ARGUMENT = 34, /* an argument is out of its range: a size, a time, a path, a method, a format, a length */
    NZF_LOST = 35,         /* there was no memory on the way: what is open stays so, and a later tick goes on with it */
    NZF_UNVERIFIED = 36,   /* what was begun ended by an unprotected answer, whose code is told, or by none in time: the code is 0 then */
    NZF_NOT_NOW = 37,      /* the proxy has heard something already */
    NZF_REFUSED = 39,      /* what was asked was answered, and refused: the code is told */
    NZF_NOT_KEPT = 40      /* what the last step changed isn't kept, or not yet: nothing of it is sent, and no other step is made */
} nzf_outcome;

/* An outcome in English, without a full stop; of another number that it is none. The text is the library's and stays. */
const char *nzf_outcome_text(int32_t outcome);

/* ---- limits, in bytes */

enum {
    NZF_DATAGRAM_MAX = 1152, /* a datagram */
    NZF_SEGMENT_MAX = 32,    /* a segment of a path */
    NZF_PATH_MAX = 264,      /* a path: 8 segments, and a / before each */
    NZF_PAYLOAD_MAX = 512,   /* the payload of a resource */
    NZF_ID_MAX = 64,         /* the id of a token */
    NZF_SECRET_MAX = 64,     /* a secret; it has at least 1 */
    NZF_SALT_MAX = 64,       /* a salt */
    NZF_CONTEXT_MAX = 64,    /* an id context */
    NZF_HOST_MAX = 255       /* a host; it has at least 1 */
};

/* ---- numbers that go in */

typedef enum nzf_method { NZF_METHOD_GET = 1, NZF_METHOD_POST = 2, NZF_METHOD_PUT = 3, NZF_METHOD_DELETE = 4 } nzf_method;

/* The AES-CCM of a context (RFC 9053 section 4.2), by the length of its tag: 16 or 8 bytes. */
typedef enum nzf_algorithm { NZF_ALGORITHM_CCM_8 = 10, NZF_ALGORITHM_CCM_16 = 30 } nzf_algorithm;

/* no Content-Format, no Accept */
#define NZF_NO_FORMAT (-1)

/* ---- what goes in */

/* Whom a datagram comes from or goes to. Make one by nzf_ipv4 or nzf_ipv6. Port and scope are in this machine's byte order. */
typedef struct nzf_peer {
    uint16_t port;
    uint32_t scope;    /* of an address that counts on one link alone: the number of its zone, as sin6_scope_id; else 0 */
    uint8_t bytes[16]; /* the address, as in6_addr has it; one of IPv4 is ::ffff:a.b.c.d */
} nzf_peer;

#define NZF_PEER {0, 0, {0}}

/* a.b.c.d:port, as an initializer */
#define NZF_IPV4(a, b, c, d, port) {(port), 0, {0, 0, 0, 0, 0, 0, 0, 0, 0, 0, 0xff, 0xff, (a), (b), (c), (d)}}

/* and as a value */
NZF_INLINE nzf_peer nzf_ipv4(uint8_t a, uint8_t b, uint8_t c, uint8_t d, uint16_t port) {
    nzf_peer it;
    memset(&it, 0, sizeof it);
    it.port = port;
    it.bytes[10] = it.bytes[11] = 0xff;
    it.bytes[12] = a;
    it.bytes[13] = b;
    it.bytes[14] = c;
    it.bytes[15] = d;
    return it;
}

/* [bytes%scope]:port; these bytes may be an address of IPv4 as well */
NZF_INLINE nzf_peer nzf_ipv6(const uint8_t bytes[16], uint32_t scope, uint16_t port) {
    nzf_peer it;
    memset(&it, 0, sizeof it);
    it.port = port;
    it.scope = scope;
    memcpy(it.bytes, bytes, 16);
    return it;
}

/* whether it is a peer of IPv4: 1 or 0 */
NZF_INLINE int nzf_is_ipv4(const nzf_peer *peer) {
    return peer->scope == 0 && memcmp(peer->bytes, "\0\0\0\0\0\0\0\0\0\0\xff\xff", 12) == 0;
}

/* the four bytes of a peer of IPv4 */
NZF_INLINE void nzf_ipv4_of(const nzf_peer *peer, uint8_t four[4]) { memcpy(four, peer->bytes + 12, 4); }

typedef struct nzf_key { uint8_t bytes[16]; } nzf_key;
typedef struct nzf_iv { uint8_t bytes[13]; } nzf_iv;
typedef struct nzf_draw { uint8_t bytes[32]; } nzf_draw;

/* two draws: the device's own, and its server's */
typedef struct nzf_draws { nzf_draw own; nzf_draw server; } nzf_draws;

/* the id of a token: its first `length` bytes; the others are 0 */
typedef struct nzf_id { uint8_t length; uint8_t bytes[64]; } nzf_id;

#define NZF_ID {0, {0}}

/* an ETag of 8 bytes, or none, of length 0; then all are 0 */
typedef struct nzf_etag { uint8_t length; uint8_t bytes[8]; } nzf_etag;

#define NZF_ETAG {0, {0}}

/* bytes, and how many they are */
typedef struct nzf_bytes { const void *bytes; size_t length; } nzf_bytes;

#define NZF_NO_BYTES {"", 0}

/* these bytes */
NZF_INLINE nzf_bytes nzf_bytes_of(const void *bytes, size_t length) {
    nzf_bytes it;
    it.bytes = bytes;
    it.length = length;
    return it;
}

/* the bytes of a C string, without its zero */
NZF_INLINE nzf_bytes nzf_text(const char *text) { return nzf_bytes_of(text, strlen(text)); }

/* what a device is made of */
typedef struct nzf_device_settings {
    size_t size;              /* of this struct */
    nzf_key key;              /* the key of the tokens that its server takes */
    nzf_key old_key;          /* the former key, at a change of key */
    uint8_t has_old_key;      /* 1: the former key is there; else 0 */
    uint32_t context_seconds; /* a context counts for so many seconds after the post that made it; 0 is no limit */
    nzf_bytes audience;       /* the name that its tokens are for, in UTF-8 */
    nzf_bytes unprotected;    /* the scope of what anyone may GET without protection; no bytes for nothing */
    nzf_bytes own;            /* the scope of what the device itself may do */
    nzf_bytes revoked;        /* the revocation path, of at most 4 segments; no bytes for none */
    uint8_t no_subtrees;      /* 1: a token whose scope has +SUB is refused; else 0. RFC 9237 has FETCH for that bit */
} nzf_device_settings;

#define NZF_DEVICE_SETTINGS {sizeof(nzf_device_settings), {{0}}, {{0}}, 0, 0, NZF_NO_BYTES, NZF_NO_BYTES, NZF_NO_BYTES, NZF_NO_BYTES, 0}

/* a value for a path */
typedef struct nzf_resource {
    size_t size;       /* of this struct */
    int32_t format;    /* the Content-Format, 0 to 65535, or NZF_NO_FORMAT */
    nzf_bytes path;
    nzf_bytes payload; /* at most NZF_PAYLOAD_MAX bytes are taken */
} nzf_resource;

#define NZF_RESOURCE {sizeof(nzf_resource), NZF_NO_FORMAT, NZF_NO_BYTES, NZF_NO_BYTES}

/* what a client was granted, and the way to its server */
typedef struct nzf_client_settings {
    size_t size;         /* of this struct */
    nzf_peer next_hop;   /* to whom it sends: the server itself where `host` has no bytes, else a proxy that knows the server by host and port */
    uint16_t port;       /* the server's, where `next_hop` is a proxy */
    uint8_t has_context; /* 1: the token has an id context; else 0 */
    uint8_t algorithm;   /* of its contexts: nzf_algorithm */
    nzf_bytes host;      /* the server's, where `next_hop` is a proxy: 1 to NZF_HOST_MAX bytes */
    nzf_bytes token;
    nzf_bytes secret;    /* the token's: 1 to NZF_SECRET_MAX bytes */
    nzf_bytes salt;      /* the token's: 0 to NZF_SALT_MAX bytes */
    nzf_bytes context;   /* the token's id context: 0 to NZF_CONTEXT_MAX bytes */
} nzf_client_settings;

#define NZF_CLIENT_SETTINGS \
    {sizeof(nzf_client_settings), NZF_PEER, 0, 0, NZF_ALGORITHM_CCM_8, NZF_NO_BYTES, NZF_NO_BYTES, NZF_NO_BYTES, NZF_NO_BYTES, NZF_NO_BYTES}

/* the options of a request, beside its path */
typedef struct nzf_options {
    int32_t format;          /* Content-Format, 0 to 65535, or NZF_NO_FORMAT */
    int32_t accept;          /* Accept, or NZF_NO_FORMAT */
    uint8_t if_none_match;   /* 1: If-None-Match is there; else 0 */
    uint8_t if_match;        /* 1: If-Match is there once, with the bytes below; else 0 */
    uint8_t if_match_length; /* 0 to 8; 0 is any value */
    uint8_t if_match_bytes[8];
} nzf_options;

#define NZF_OPTIONS {NZF_NO_FORMAT, NZF_NO_FORMAT, 0, 0, 0, {0}}

/* what a client asks */
typedef struct nzf_request {
    size_t size;         /* of this struct */
    uint8_t method;      /* nzf_method */
    nzf_bytes path;
    nzf_bytes payload;
    nzf_options options;
} nzf_request;

#define NZF_REQUEST {sizeof(nzf_request), NZF_METHOD_GET, NZF_NO_BYTES, NZF_NO_BYTES, NZF_OPTIONS}

/* what a token claims, and under what it is sealed */
typedef struct nzf_claims {
    size_t size;         /* of this struct */
    nzf_key key;         /* the server's */
    nzf_iv iv;           /* under a key an IV is used for one token alone */
    uint8_t has_context; /* 1: the id context is there; else 0 */
    uint8_t algorithm;   /* of its contexts: nzf_algorithm */
    uint64_t not_before; /* the second from which on it counts; 0: always */
    uint64_t expires;    /* the second from which on it doesn't; 0: it does for ever */
    nzf_bytes audience;  /* whom it is for, in UTF-8 */
    nzf_bytes id;        /* 0 to NZF_ID_MAX bytes */
    nzf_bytes secret;    /* 1 to NZF_SECRET_MAX bytes */
    nzf_bytes context;   /* 0 to NZF_CONTEXT_MAX bytes */
    nzf_bytes scope;
} nzf_claims;

#define NZF_CLAIMS \
    {sizeof(nzf_claims), {{0}}, {{0}}, 0, NZF_ALGORITHM_CCM_8, 0, 0, NZF_NO_BYTES, NZF_NO_BYTES, NZF_NO_BYTES, NZF_NO_BYTES, NZF_NO_BYTES}

/* ---- what comes out */

/* what is at a path */
typedef struct nzf_value {
    size_t size;    /* of this struct */
    int32_t format; /* the Content-Format, or NZF_NO_FORMAT */
    size_t length;  /* of the payload, 0 to NZF_PAYLOAD_MAX */
    /* may be left out */
    nzf_etag etag;  /* as a GET is answered with it */
} nzf_value;

#define NZF_VALUE {sizeof(nzf_value), NZF_NO_FORMAT, 0, NZF_ETAG}

/* a protected request that was served */
typedef struct nzf_served {
    size_t size;         /* of this struct */
    uint8_t method;      /* nzf_method; 0 where what opened is no such request */
    uint8_t code;        /* what it was answered: class * 32 + detail, as 0x44 for 2.04 */
    uint8_t kid;         /* the client's sender ID, which the server gave it */
    uint8_t has_context; /* 1 where its context has an id context, else 0 */
    uint64_t number;     /* the request's Partial IV */
    size_t path_length;  /* 0 where it has no path */
    size_t payload_length;
    size_t context_length; /* of the id context of its token */
    /* may be left out */
    nzf_id token;        /* of the token that made its context, as `revoke` takes it */
    nzf_etag etag;       /* of the answer */
} nzf_served;

#define NZF_SERVED {sizeof(nzf_served), 0, 0, 0, 0, 0, 0, 0, 0, NZF_ID, NZF_ETAG}

/* Why a request was refused, or a client's post came to nothing. */
typedef enum nzf_reason {
    NZF_REASON_NONE = 0,               /* the code tells it */
    NZF_REASON_NOT_GENUINE = 3,        /* of a protected request: it opens to no text */
    NZF_REASON_DATAGRAM_TOO_LONG = 14, /* of a client: its datagram would be too long */
    NZF_REASON_BUSY = 17,              /* of a client: something is open already */
    NZF_REASON_EXHAUSTED = 18,         /* of a client: its context's numbers are used up */
    NZF_REASON_EQUAL_IDS = 20,         /* of an answer to a post: both ends would have one ID */
    NZF_REASON_MALFORMED = 21,         /* of a protected request: its protection cannot be read */
    NZF_REASON_NO_CONTEXT = 22,        /* of a protected request: it names no live context; of a client: it has none */
    NZF_REASON_REPLAY = 23,            /* of a protected request: its number is not fresh; of a post: it came before, and its context is gone */
    NZF_REASON_BAD_SCOPE = 24,         /* of a post: the scope of its token cannot be read */
    NZF_REASON_TOKEN_NOT_GENUINE = 25, /* of a post: its token opens under neither key */
    NZF_REASON_EXPIRED = 26,           /* of a post: its token has expired */
    NZF_REASON_NOT_YET = 27,           /* of a post: its token is not valid yet */
    NZF_REASON_AUDIENCE = 28,          /* of a post: its token is for another audience */
    NZF_REASON_BAD_CLAIMS = 29,        /* of a post: another claim of its token cannot be read */
    NZF_REASON_FIELDS = 30,            /* of a post, or of the answer to one: it is no whole map with the fields of an exchange */
    NZF_REASON_FULL = 31,              /* of a post: 63 others have a live context, and a place is kept for the device's own */
    NZF_REASON_REVOKED = 38            /* of a post: its token is revoked */
} nzf_reason;

/* a request that was refused */
typedef struct nzf_refused {
    size_t size;       /* of this struct */
    nzf_peer from;
    uint8_t code;      /* what it was answered */
    uint8_t reason;    /* nzf_reason */
    /* may be left out */
    uint8_t has_token; /* 1: it is a post whose token opened, and has an id; else 0 */
    nzf_id token;      /* that id, as `revoke` takes it */
} nzf_refused;

#define NZF_REFUSAL {sizeof(nzf_refused), NZF_PEER, 0, 0, 0, NZF_ID}

/* what a step of a device changed */
typedef struct nzf_change {
    size_t size;        /* of this struct */
    uint8_t is_there;   /* 1 where something is at the path now; 0 where it was deleted */
    uint8_t waits;      /* 1 where that waits to be kept; else 0 */
    int32_t format;     /* the Content-Format, or NZF_NO_FORMAT */
    size_t path_length;
    size_t payload_length; /* 0 to NZF_PAYLOAD_MAX */
} nzf_change;

#define NZF_CHANGE {sizeof(nzf_change), 0, 0, NZF_NO_FORMAT, 0, 0}

/* What keeps a resource for the device's owner: `value` is what is at the path from now on, and null where that was deleted. 0 says that it is kept, so
 * that it is found after the power was cut; another number that it couldn't be. It may not call the device. */
typedef int (*nzf_keep)(void *context, const void *path, size_t path_length, const void *value, size_t length, int32_t format);

/* how something that a client began went on */
typedef enum nzf_result_kind {
    NZF_RESULT_MADE = 1,      /* the exchange made a security context */
    NZF_RESULT_ANSWER = 2,    /* the request was answered, and the answer opened: code, format, payload */
    NZF_RESULT_ENDED = 3,     /* it ended by an unprotected answer of this code, or by a Reset, as code 0; nobody can tell whether it was served */
    NZF_RESULT_TIMED_OUT = 4, /* no answer came in time */
    NZF_RESULT_REFUSED = 5    /* it was not begun, or the answer to the post was no exchange, for the nzf_reason in `code` */
} nzf_result_kind;

typedef struct nzf_result {
    size_t size;    /* of this struct */
    uint8_t what;   /* nzf_result_kind */
    uint8_t code;   /* of an answer, or of what ended it, where a Reset has 0; the nzf_reason of a refusal; 0 of what was made or timed out */
    int32_t format; /* of an answer: its Content-Format, or NZF_NO_FORMAT */
    size_t length;  /* of an answer's payload */
    /* may be left out */
    nzf_etag etag;  /* of an answer */
} nzf_result;

#define NZF_RESULT {sizeof(nzf_result), 0, 0, NZF_NO_FORMAT, 0, NZF_ETAG}

typedef struct nzf_device { void *held; } nzf_device;
typedef struct nzf_client { void *held; } nzf_client;
typedef struct nzf_proxy { void *held; } nzf_proxy;

/* ---- a device */

/* Makes a device without resources. Its server takes tokens that are sealed under `key`; one that does not open under it is opened under the former
 * key, where there is one. The device's own token, of the id "device", which no other token may have, is minted here: its secret and its IV are taken
 * from the draw. A context counts until its token ends, and for at most `context_seconds`, the device's own too: then it needs `open` again. Of the 64
 * ids that may have a context at once, one place is kept for the device's own. A resource below the revocation path revokes the tokens of one id, as
 * `revoke` says. Heap: some 50 KiB, for as long as it is held; with a revocation path 2 KiB more, which are kept in hand for `revoke`.
 * NZF_BAD_SCOPE where `own` is no scope, or has +SUB with `no_subtrees`, or `unprotected` is neither a scope nor empty. NZF_TOO_LONG where `own` and
 * `audience` are so long that the post of the device's token, which `open` sends, fits no datagram: together they may have some 900 bytes.
 * NZF_BAD_ARGUMENT: the size, an audience that is no UTF-8, a flag that is neither 0 nor 1, a revocation path that is none or has more than 4 segments.
 * Also NZF_NO_MEMORY, whatever the scopes are. */
int32_t nzf_device_new(nzf_device *device, const nzf_device_settings *settings, const nzf_draw *draw) NZF_CALL;

/* The same with these resources, as those that were kept of a device that is gone: they are there from the start, and none of them is a change. Of two for
 * a path the later counts. NZF_BAD_ARGUMENT also where one of them isn't a value for a path, has a payload of more than NZF_PAYLOAD_MAX bytes, or there are
 * more than 1,024 paths; or NZF_NO_MEMORY in its place. With a count of 0 it is `new`; hand in a pointer all the same. Heap: what is stored, too. */
int32_t nzf_device_new_with(nzf_device *device, const nzf_device_settings *settings, const nzf_resource *first, size_t count, const nzf_draw *draw) NZF_CALL;

/* Gives the device a security context with its server, which `put`, `append`, `remove`, `revoke` and `allow` need; also after `restart`.
 * NZF_UNVERIFIED with the code where the server refuses it; else `code` is 0. Also NZF_BUSY, NZF_LOST, NZF_BAD_ARGUMENT, NZF_NO_MEMORY. Heap: while
 * the context lives, some 2 KiB. */
int32_t nzf_device_open(nzf_device *device, uint64_t now, const nzf_draws *draws, uint8_t *code) NZF_CALL;

/* The device writes, appends to, or removes a resource of its own server, as a holder of its token: what is promised of holders holds of it.
 * `code` is the answer's, as 0x41 (2.01 Created) or 0x44 (2.04 Changed), where NZF_DONE or NZF_UNVERIFIED is answered, and else 0.
 * Also NZF_TOO_LONG, NZF_BUSY, NZF_EXHAUSTED, NZF_NO_CONTEXT, NZF_LOST, NZF_BAD_ARGUMENT, NZF_NO_MEMORY. After NZF_LOST a tick goes on, and what
 * it learnt is told by `learnt`. Heap: what is stored. */
int32_t nzf_device_put(nzf_device *device, uint64_t now, const nzf_resource *resource, const nzf_draws *draws, uint8_t *code) NZF_CALL;
int32_t nzf_device_append(nzf_device *device, uint64_t now, const nzf_resource *resource, const nzf_draws *draws, uint8_t *code) NZF_CALL;
int32_t nzf_device_remove(nzf_device *device, uint64_t now, const void *path, size_t path_length, const nzf_draws *draws, uint8_t *code) NZF_CALL;

/* `revoke` puts an empty value at the path for this id: the revocation path, and the hexadecimal digits of the id, 32 in a segment. While it is there
 * no post of a token of this id makes a context, and no request under its contexts is served. `allow` removes what is at that path. NZF_DONE says that
 * it is so now: after `revoke` the tokens are revoked, and after `allow` they aren't, also where nothing was there (4.04). NZF_REFUSED says that it
 * isn't, and `code` why: 4.03 or 4.05 where `own` doesn't grant PUT and DELETE there, 5.00 and 5.03 where memory or room ran out. After NZF_LOST call
 * again, once `learnt` has told. NZF_BAD_ARGUMENT where the device has no revocation path, or the id is too long for it; one of at most NZF_ID_MAX bytes
 * never is. To tell that of a longer one takes memory. Otherwise as `put`. Heap: what is stored. The 2 KiB that the device keeps in hand are given back
 * for the call, and taken again after it, or at a later tick: so who fills the heap with resources can be revoked. */
int32_t nzf_device_revoke(nzf_device *device, uint64_t now, const void *id, size_t id_length, const nzf_draws *draws, uint8_t *code) NZF_CALL;
int32_t nzf_device_allow(nzf_device *device, uint64_t now, const void *id, size_t id_length, const nzf_draws *draws, uint8_t *code) NZF_CALL;

/* What is at a path, with its ETag: NZF_NOTHING where nothing is, NZF_TOO_SHORT where `room` is less than value->length, NZF_BAD_ARGUMENT where the text
 * is no path, and for the size. Also NZF_NO_MEMORY. Heap: the path, for the call. */
int32_t nzf_device_get(const nzf_device *device, const void *path, size_t path_length, void *payload, size_t room, nzf_value *value) NZF_CALL;

/* These bytes came from there as one datagram. Any bytes answer NZF_DONE, unless memory is out or the time is bad. What is to be sent is taken by
 * `next`, and what was served or refused is told by `served` and `refused`, until the next call of `on_datagram`, `on_tick`, `open`, `put`, `append`,
 * `remove`, `revoke`, `allow` or `restart`. NZF_BAD_ARGUMENT where `from` has the address 0.0.0.0 of IPv4, which no datagram comes from: the device's own
 * place. Also NZF_NO_MEMORY, where it would answer. Heap: for the step. */
int32_t nzf_device_on_datagram(nzf_device *device, uint64_t now, const nzf_peer *from, const void *bytes, size_t length, const nzf_draw *draw) NZF_CALL;

/* What is due by then is done, whatever memory there is. A tick is due at `next_deadline`, also while datagrams come. One more every few minutes frees what
 * is kept for repeats, which is over after 247 seconds, and takes again what `revoke` gave back. NZF_LOST: all of it is done, but for some of what should
 * have gone out there was no memory: that is lost, as on the way, and a later tick goes on. Also NZF_BAD_ARGUMENT. Heap: for what is sent. */
int32_t nzf_device_on_tick(nzf_device *device, uint64_t now, const nzf_draw *draw) NZF_CALL;

/* What the last step learnt, where it was a tick, of what `open`, `put`, `append`, `remove`, `revoke` or `allow` left open where it answered
 * NZF_LOST: NZF_DONE, or NZF_UNVERIFIED, and the code, as that call would have answered; else NZF_NOTHING: it is open still, or nothing was. Of `revoke`
 * and `allow` NZF_DONE says that it was answered, so call again. It is told as long as what was served is, so ask after each tick. */
int32_t nzf_device_learnt(const nzf_device *device, uint8_t *code) NZF_CALL;

/* The first time at which a tick does anything for the device itself: something of its own is sent again, or ends without an answer. NZF_NOTHING where
 * none would. */
int32_t nzf_device_next_deadline(const nzf_device *device, uint64_t *moment) NZF_CALL;

/* The next datagram of the last step: NZF_DONE with its bytes and to whom they go, each once, in order; NZF_NOTHING once all were taken;
 * NZF_TOO_SHORT where `room` is less than `length`, and the datagram stays to be taken. NZF_DATAGRAM_MAX bytes are always enough. */
int32_t nzf_device_next(nzf_device *device, nzf_peer *to, void *bytes, size_t room, size_t *length) NZF_CALL;

/* The protected request that the last step served. Its path, its payload and its id context are written one after the other, without anything between
 * them, where there is room for all: NZF_PATH_MAX + NZF_DATAGRAM_MAX + NZF_CONTEXT_MAX bytes are always enough. NZF_NOTHING where it served none;
 * NZF_TOO_SHORT where `room` is less than the three lengths together, and all but these bytes is told then, too. NZF_BAD_ARGUMENT for the size. `token` is
 * the id of the token that made the context of the request: `revoke` of served->token.bytes and served->token.length revokes who asked. `etag` is that of
 * the answer. Heap: none. */
int32_t nzf_device_served(const nzf_device *device, nzf_served *served, void *bytes, size_t room) NZF_CALL;

/* The request that the last step refused; NZF_NOTHING where it refused none; NZF_BAD_ARGUMENT for the size. Where it is the post of a token that opened,
 * so that it is genuine, `token` is its id. Of a protected request none is told: nothing proves who sent it. Heap: none. */
int32_t nzf_device_refused(const nzf_device *device, nzf_refused *refused) NZF_CALL;

/* What the last step changed: at most one path, whether the request was another's or the device's own (`put`, `append`, `remove`, `revoke`, `allow`, or a
 * tick that went on with one). The path and the payload that it has now are written one after the other, where there is room for both: NZF_PATH_MAX +
 * NZF_PAYLOAD_MAX bytes are always enough. NZF_NOTHING where it changed nothing; NZF_TOO_SHORT where `room` is less than the two lengths together, and all
 * but these bytes is told then, too. NZF_BAD_ARGUMENT for the size. Heap: none. */
int32_t nzf_device_changed(const nzf_device *device, nzf_change *change, void *bytes, size_t room) NZF_CALL;

/* Keeps what the last step changed, if it changed something that isn't kept yet, by this function, and switches keeping on. So call it after each step,
 * before `next`. NZF_DONE: nothing is left to be kept. NZF_NOT_KEPT: it couldn't be kept, now or before; then free the device, and make it of what is kept.
 * It is `keeps`, `changed` and `kept`, one after the other. `context` is handed on, and may be null. Heap: none. */
int32_t nzf_device_keep(nzf_device *device, nzf_keep keep, void *context) NZF_ANSWER;

/* The same by hand. `keeps` switches keeping on: from now on what a step changes, the last one's too, is kept before anything of the step is sent. `kept`
 * says whether what waits is kept: 1, or 0 where it couldn't be. NZF_NOTHING where nothing waits, NZF_BAD_ARGUMENT where it is neither 1 nor 0. Both:
 * NZF_NOT_KEPT where something couldn't be kept before. Heap: none. */
int32_t nzf_device_keeps(nzf_device *device) NZF_CALL;
int32_t nzf_device_kept(nzf_device *device, uint8_t is_kept) NZF_CALL;

/* Starts again: resources stay, security contexts are gone, and holders post their tokens again. The device does so by `open`. */
int32_t nzf_device_restart(nzf_device *device) NZF_CALL;

void nzf_device_free(nzf_device *device) NZF_POINTERS;

/* ---- a client */

/* Makes a client. NZF_BAD_ARGUMENT: the size, a length, a flag that is neither 0 nor 1, or an algorithm that is none. Also NZF_NO_MEMORY. Heap: some
 * 25 KiB, for as long as it is held. */
int32_t nzf_client_new(nzf_client *client, const nzf_client_settings *settings) NZF_CALL;

/* Posts the token, so that the client has a security context once `result` tells NZF_RESULT_MADE. What is sent is taken by `next`. Where it is not
 * begun, `result` tells NZF_RESULT_REFUSED and why; where something is open, without memory. Also NZF_BAD_ARGUMENT, NZF_NO_MEMORY. Heap: the post,
 * while it is open. */
int32_t nzf_client_exchange(nzf_client *client, uint64_t now, const nzf_draw *draw) NZF_CALL;

/* Asks for this under protection. NZF_BAD_ARGUMENT: the size, the time, the method, the path, a format, a flag, or a value of If-Match of more than 8
 * bytes. Otherwise as `exchange`. Heap: the request, while it is open. */
int32_t nzf_client_ask(nzf_client *client, uint64_t now, const nzf_request *request, const nzf_draw *draw) NZF_CALL;

/* These bytes came from there as one datagram, as for a device. Also NZF_BAD_ARGUMENT, NZF_NO_MEMORY. Heap: for the step. */
int32_t nzf_client_on_datagram(nzf_client *client, uint64_t now, const nzf_peer *from, const void *bytes, size_t length) NZF_CALL;

/* What is due by then is done, whatever memory there is; NZF_LOST as for a device. Also NZF_BAD_ARGUMENT. Heap: for what is sent. */
int32_t nzf_client_on_tick(nzf_client *client, uint64_t now) NZF_CALL;

/* The first time at which a tick sends or ends anything; NZF_NOTHING where none would. More ticks as for a device. */
int32_t nzf_client_next_deadline(const nzf_client *client, uint64_t *moment) NZF_CALL;

/* The next datagram of the last step, as of a device. */
int32_t nzf_client_next(nzf_client *client, nzf_peer *to, void *bytes, size_t room, size_t *length) NZF_CALL;

/* What the client learnt in its last step; NZF_NOTHING where it learnt nothing; NZF_TOO_SHORT where `room` is less than result->length; NZF_BAD_ARGUMENT
 * for the size. `etag` is the ETag of an answer that has one. */
int32_t nzf_client_result(const nzf_client *client, nzf_result *result, void *payload, size_t room) NZF_CALL;

/* The number (Partial IV) that its next request takes; NZF_NOTHING where it has no security context. */
int32_t nzf_client_context(const nzf_client *client, uint64_t *number) NZF_CALL;

/* Starts again: its security context is gone, and so is what is open. */
int32_t nzf_client_restart(nzf_client *client) NZF_CALL;

void nzf_client_free(nzf_client *client) NZF_POINTERS;

/* ---- a forward proxy */

/* Makes a proxy without targets. Also NZF_NO_MEMORY. Heap: some 750 bytes, and from its first datagram or tick on some 137 KiB, for as long as it is
 * held. */
int32_t nzf_proxy_new(nzf_proxy *proxy) NZF_CALL;

/* Requests for this host and port go there. Before its first datagram and tick only, else NZF_NOT_NOW. NZF_BAD_ARGUMENT where the host has not 1 to
 * NZF_HOST_MAX bytes. Also NZF_NO_MEMORY. Heap: the host. */
int32_t nzf_proxy_add_target(nzf_proxy *proxy, const void *host, size_t host_length, uint16_t port, const nzf_peer *to) NZF_CALL;

/* Up to so many of its confirmable messages may be outstanding to a peer, 1 to 16, as long as none to it is lost; one at a time where this isn't said.
 * Before its first datagram and tick only, else NZF_NOT_NOW. NZF_BAD_ARGUMENT for another number. Heap: then some 6 KiB more for each above 1. */
int32_t nzf_proxy_set_outstanding(nzf_proxy *proxy, uint8_t most) NZF_CALL;

/* These bytes came from there as one datagram, as for a device. Also NZF_BAD_ARGUMENT, NZF_NO_MEMORY. Heap: for the step, and for what is forwarded. */
int32_t nzf_proxy_on_datagram(nzf_proxy *proxy, uint64_t now, const nzf_peer *from, const void *bytes, size_t length, const nzf_draw *draw) NZF_CALL;

/* What is due by then is done; once the proxy has heard or ticked, whatever memory there is, and before that NZF_NO_MEMORY without it. NZF_LOST
 * as for a device. Also NZF_BAD_ARGUMENT. Heap: for what is sent. */
int32_t nzf_proxy_on_tick(nzf_proxy *proxy, uint64_t now, const nzf_draw *draw) NZF_CALL;

/* The first time at which a tick sends or ends anything; NZF_NOTHING where none would. More ticks as for a device. */
int32_t nzf_proxy_next_deadline(const nzf_proxy *proxy, uint64_t *moment) NZF_CALL;

/* The next datagram of the last step, as of a device. */
int32_t nzf_proxy_next(nzf_proxy *proxy, nzf_peer *to, void *bytes, size_t room, size_t *length) NZF_CALL;

/* Starts again: it forgets what it heard and what is open, and keeps its targets. */
int32_t nzf_proxy_restart(nzf_proxy *proxy) NZF_CALL;

void nzf_proxy_free(nzf_proxy *proxy) NZF_POINTERS;

/* ---- tokens, for a test bench */

/* Mints the token of these claims, as who has the server's key may. NZF_TOO_SHORT where `room` is less than `length`, which is told in either case.
 * NZF_BAD_ARGUMENT: the size, a length, a flag that is neither 0 nor 1, an algorithm that is none, an audience that is no UTF-8. NZF_TOO_LONG where the
 * claims have more than 65535 bytes. Also NZF_BAD_SCOPE; and NZF_NO_MEMORY, whatever the scope is. Heap: for the call. */
int32_t nzf_token_mint(const nzf_claims *claims, void *token, size_t room, size_t *length) NZF_CALL;

#ifdef __cplusplus
}
#endif

#endif
