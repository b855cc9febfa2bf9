/* Times the functions of osc_bench, and the ciphers of mbedTLS and OpenSSL beside them where these libraries are installed. One
   thread, one process (and one for each choice of instructions that OpenSSL may use), monotonic clock; each row is the best of several
   runs. */
#include <stddef.h>
#include <stdint.h>
#include <stdio.h>
#include <string.h>
#include <sys/resource.h>
#include <sys/wait.h>
#include <time.h>
#include <unistd.h>

#ifdef WITH_MBEDTLS
#include <mbedtls/aes.h>
#include <mbedtls/ccm.h>
#endif

#ifdef WITH_OPENSSL
#include <openssl/evp.h>
#endif

uint64_t osc_bench_parse(const uint8_t *datagram, size_t length);
uint64_t osc_bench_serve(uint16_t resources, uint32_t apart, const uint8_t *datagram, size_t length, uint64_t rounds);
uint64_t osc_bench_repeat(const uint8_t *datagram, size_t length, uint64_t rounds);
uint64_t osc_bench_serve_gets(uint8_t contexts, uint16_t rounds);
uint64_t osc_bench_serve_posts(uint8_t contexts, uint16_t rounds);
uint64_t osc_bench_serve_forged(uint16_t rounds);
uint64_t osc_bench_ask(uint64_t rounds);
uint64_t osc_bench_tick(uint16_t open, uint64_t rounds);
uint64_t osc_bench_deadline(uint16_t open, uint64_t rounds);
uint64_t osc_bench_read_item(const uint8_t *bytes, size_t length, uint64_t rounds);
uint64_t osc_bench_protect(const uint8_t *request, size_t length, uint64_t rounds);
uint64_t osc_bench_unprotect(const uint8_t *request, size_t length, uint64_t rounds);
uint64_t osc_bench_read_token(uint64_t rounds);
uint64_t osc_bench_post(uint8_t others, uint64_t rounds);
uint64_t osc_bench_world(uint64_t requests);
uint8_t osc_bench_encrypt(uint64_t rounds);
uint64_t osc_bench_seal(const uint8_t *text, size_t length, uint8_t *out, size_t room, uint64_t rounds);
uint64_t osc_bench_open(const uint8_t *sealed, size_t length, uint8_t *out, size_t room, uint64_t rounds);

enum { RUNS = 5 };

static double seconds(void) {
    struct timespec now;
    clock_gettime(CLOCK_MONOTONIC, &now);
    return (double)now.tv_sec + 1e-9 * (double)now.tv_nsec;
}

static volatile uint64_t sink;

/* A GET with a token of 4 bytes and an option Uri-Path of 4. */
static const uint8_t GET_R000[] = {0x44, 0x01, 0x00, 0x01, 1, 2, 3, 4, 0xb4, 'r', '0', '0', '0'};
static const uint8_t GET_R999[] = {0x44, 0x01, 0x00, 0x01, 1, 2, 3, 4, 0xb4, 'r', '9', '9', '9'};

/* A POST with If-Match, two segments of Uri-Path, Content-Format, Accept, an option of number 2053, and 64 bytes. */
static const uint8_t POST_MANY[] = {
    0x48, 0x02, 0x12, 0x34, 1, 2, 3, 4, 5, 6, 7, 8,
    0x18, 1, 1, 1, 1, 1, 1, 1, 1, 0xa4, 'a', 'b', 'c', 'd', 0x04, 'e', 'f', 'g', 'h', 0x11, 42, 0x51, 42,
    0xe1, 0x06, 0xe7, 7, 0xff,
    'p', 'p', 'p', 'p', 'p', 'p', 'p', 'p', 'p', 'p', 'p', 'p', 'p', 'p', 'p', 'p',
    'p', 'p', 'p', 'p', 'p', 'p', 'p', 'p', 'p', 'p', 'p', 'p', 'p', 'p', 'p', 'p',
    'p', 'p', 'p', 'p', 'p', 'p', 'p', 'p', 'p', 'p', 'p', 'p', 'p', 'p', 'p', 'p',
    'p', 'p', 'p', 'p', 'p', 'p', 'p', 'p', 'p', 'p', 'p', 'p', 'p', 'p', 'p', 'p'};

static void row(const char *name, uint64_t calls, double best) {
    printf("%-48s %12.0f /s %9.1f ns\n", name, (double)calls / best, 1e9 * best / (double)calls);
}

typedef uint64_t (*rounds_run)(uint64_t rounds);

/* The best time of so many rounds, in seconds. */
static double best_of(rounds_run run, uint64_t rounds) {
    double best = 1e9;
    for (int i = 0; i < RUNS; i++) {
        double start = seconds();
        sink = run(rounds);
        double taken = seconds() - start;
        if (taken < best) best = taken;
    }
    return best;
}

static void timed(const char *name, rounds_run run, uint64_t rounds) { row(name, rounds, best_of(run, rounds)); }

static void parse(const char *name, const uint8_t *datagram, size_t length) {
    enum { CALLS = 2000000 };
    double best = 1e9;
    for (int run = 0; run < RUNS; run++) {
        uint64_t sum = 0;
        double start = seconds();
        for (int i = 0; i < CALLS; i++) sum += osc_bench_parse(datagram, length);
        double taken = seconds() - start;
        if (taken < best) best = taken;
        sink = sum;
    }
    row(name, CALLS, best);
}

/* A note of a confirmable message lives so many milliseconds. */
enum { LIFETIME = 247000 };

static void serve(const char *name, uint16_t resources, uint32_t apart, const uint8_t *datagram, size_t length) {
    enum { CALLS = 200000 };
    double best = 1e9;
    for (int run = 0; run < RUNS; run++) {
        double start = seconds();
        sink = osc_bench_serve(resources, apart, datagram, length, 0);
        double set_up = seconds() - start;
        start = seconds();
        sink = osc_bench_serve(resources, apart, datagram, length, CALLS);
        double taken = seconds() - start - set_up;
        if (taken < best) best = taken;
    }
    row(name, CALLS, best);
}

static void repeat(const char *name, const uint8_t *datagram, size_t length) {
    enum { CALLS = 200000 };
    double best = 1e9;
    for (int run = 0; run < RUNS; run++) {
        double start = seconds();
        sink = osc_bench_repeat(datagram, length, 0);
        double set_up = seconds() - start;
        start = seconds();
        sink = osc_bench_repeat(datagram, length, CALLS);
        double taken = seconds() - start - set_up;
        if (taken < best) best = taken;
    }
    row(name, CALLS, best);
}

/* ---- protected requests: a reply has a header and a token of 4 bytes each, an empty option OSCORE, the marker, and what is sealed
   with a tag of 8 bytes: a code, and for a GET an ETag of 9 bytes, the marker and 64 bytes. A forgery's has the header, the token,
   the marker and "Decryption failed" */

enum { REQUESTS = 4608, CHANGED = 19, CONTENT = 93, REFUSED = 26 };

typedef uint64_t (*protected_run)(uint8_t contexts, uint16_t rounds);

static void serve_protected(const char *name, protected_run run, uint8_t contexts) {
    double set_up = 1e9, whole = 1e9;
    for (int i = 0; i < RUNS; i++) {
        double start = seconds();
        sink = run(contexts, 0);
        double taken = seconds() - start;
        if (taken < set_up) set_up = taken;
        start = seconds();
        sink = run(contexts, REQUESTS);
        taken = seconds() - start;
        if (taken < whole) whole = taken;
    }
    row(name, REQUESTS, whole - set_up);
}

static uint64_t serve_forged(uint8_t contexts, uint16_t rounds) {
    (void)contexts;
    return osc_bench_serve_forged(rounds);
}

static int protected_requests(void) {
    static const uint8_t CONTEXTS[] = {1, 64};
    for (size_t i = 0; i < sizeof CONTEXTS; i++) {
        if (osc_bench_serve_gets(CONTEXTS[i], REQUESTS) != REQUESTS * CONTENT
            || osc_bench_serve_posts(CONTEXTS[i], REQUESTS) != REQUESTS * CHANGED) {
            fprintf(stderr, "bench: a protected request was not served\n");
            return 1;
        }
    }
    if (osc_bench_serve_forged(REQUESTS) != REQUESTS * REFUSED) {
        fprintf(stderr, "bench: a forged request was not refused\n");
        return 1;
    }
    serve_protected("Server::on_datagram, protected GET, 1 context", osc_bench_serve_gets, 1);
    serve_protected("Server::on_datagram, protected GET, 64 contexts", osc_bench_serve_gets, 64);
    serve_protected("Server::on_datagram, protected POST, 1 context", osc_bench_serve_posts, 1);
    serve_protected("Server::on_datagram, protected POST, 64 contexts", osc_bench_serve_posts, 64);
    serve_protected("Server::on_datagram, a forged request, 1 context", serve_forged, 1);
    return 0;
}

/* ---- a client's requests: a header of 4 bytes, a token of 8, an option OSCORE of 4, the marker, and what is sealed with a tag of 8
   bytes: a code, an option of 4 bytes, the marker and 64 bytes */

enum { ASKS = 20000, ASKED = 95 };

/* What so many rounds take, without the set-up that a call with none has. */
static void beside_set_up(const char *name, rounds_run run, uint64_t rounds) {
    double set_up = best_of(run, 0);
    row(name, rounds, best_of(run, rounds) - set_up);
}

static int asks(void) {
    /* From 256 on a number takes a byte more. */
    if (osc_bench_ask(256) != 256 * ASKED || osc_bench_ask(257) != 257 * ASKED + 1) {
        fprintf(stderr, "bench: a request was not asked\n");
        return 1;
    }
    beside_set_up("Client::ask, 64 bytes", osc_bench_ask, ASKS);
    return 0;
}

/* ---- ticks at which nothing is due; each message would be sent again after two seconds */

enum { OPEN = 1000, TICKS = 2000, TIMEOUT = 2000 };

static uint64_t tick(uint64_t rounds) { return osc_bench_tick(OPEN, rounds); }

static uint64_t deadline(uint64_t rounds) { return osc_bench_deadline(OPEN, rounds); }

static int ticks(void) {
    if (tick(1) != 2 * OPEN || deadline(2) != 2 * TIMEOUT) {
        fprintf(stderr, "bench: messages were not open or have another deadline\n");
        return 1;
    }
    beside_set_up("Endpoint::on_tick, 1,000 open messages", tick, TICKS);
    beside_set_up("Endpoint::next_deadline, 1,000 open messages", deadline, TICKS);
    return 0;
}

/* ---- CBOR */

/* The claims of a token: audience, confirmation with input material, scope; 13 items. */
static const uint8_t CLAIMS[] = {
    0xa3, 0x03, 0x61, 's', 0x08, 0xa1, 0x04, 0xa2, 0x00, 0x41, 1, 0x02, 0x50, 0, 0, 0, 0, 0, 0, 0, 0, 0, 0, 0, 0, 0, 0, 0, 1,
    0x09, 0x48, 0x81, 0x82, 0x64, '/', 'l', 'o', 'g', 0x03};

static void items(const char *name, const uint8_t *bytes, size_t length, uint64_t count, uint64_t rounds) {
    double best = 1e9;
    for (int run = 0; run < RUNS; run++) {
        double start = seconds();
        sink = osc_bench_read_item(bytes, length, rounds);
        double taken = seconds() - start;
        if (taken < best) best = taken;
    }
    printf("%-48s %12.0f /s %9.1f ns\n", name, (double)(rounds * count) / best, 1e9 * best / (double)(rounds * count));
}

static int cbor(void) {
    static uint8_t numbers[1003] = {0x99, 0x03, 0xe8};
    if (osc_bench_read_item(CLAIMS, sizeof CLAIMS, 1) != sizeof CLAIMS
        || osc_bench_read_item(numbers, sizeof numbers, 1) != sizeof numbers) {
        fprintf(stderr, "bench: an item was not read\n");
        return 1;
    }
    items("osc_cbor::read, items of a token's claims", CLAIMS, sizeof CLAIMS, 13, 200000);
    items("osc_cbor::read, items of an array of 1,000", numbers, sizeof numbers, 1001, 5000);
    return 0;
}

/* ---- OSCORE: a PUT with a token of 4 bytes, a segment of Uri-Path and 64 bytes, under IDs of one byte */

static const uint8_t PUT_64[] = {
    0x44, 0x03, 0x00, 0x01, 1, 2, 3, 4, 0xb3, 'l', 'o', 'g', 0xff,
    'p', 'p', 'p', 'p', 'p', 'p', 'p', 'p', 'p', 'p', 'p', 'p', 'p', 'p', 'p', 'p',
    'p', 'p', 'p', 'p', 'p', 'p', 'p', 'p', 'p', 'p', 'p', 'p', 'p', 'p', 'p', 'p',
    'p', 'p', 'p', 'p', 'p', 'p', 'p', 'p', 'p', 'p', 'p', 'p', 'p', 'p', 'p', 'p',
    'p', 'p', 'p', 'p', 'p', 'p', 'p', 'p', 'p', 'p', 'p', 'p', 'p', 'p', 'p', 'p'};

static uint64_t protect(uint64_t rounds) { return osc_bench_protect(PUT_64, sizeof PUT_64, rounds); }

static uint64_t unprotect(uint64_t rounds) { return osc_bench_unprotect(PUT_64, sizeof PUT_64, rounds); }

static int oscore(void) {
    if (protect(1) == 0 || unprotect(1) != 70) {
        fprintf(stderr, "bench: a request was not protected or not opened\n");
        return 1;
    }
    timed("draft_request and seal_request, 64 bytes", protect, 20000);
    timed("open_request, 64 bytes", unprotect, 20000);
    return 0;
}

/* ---- tokens: 73 bytes, with a date, and GET, POST and DELETE on one path */

static uint64_t post_alone(uint64_t rounds) { return osc_bench_post(0, rounds); }

static uint64_t post_beside_62(uint64_t rounds) { return osc_bench_post(62, rounds); }

static int tokens(void) {
    if (osc_bench_read_token(1) != 1 || post_beside_62(1) != 1) {
        fprintf(stderr, "bench: a token was not read or made no context\n");
        return 1;
    }
    timed("osc_token::read", osc_bench_read_token, 20000);
    timed("ServerDesk::post, 1 token id in the table", post_alone, 5000);
    timed("ServerDesk::post, 63 token ids in the table", post_beside_62, 5000);
    return 0;
}

/* ---- a world: an exchange of each of four clients and then requests in turn, with a quiet round of two deliveries behind each;
   requests for some 5,000 events, and for twice as many */

enum { FEW = 1663, MANY = 3329 };

static uint64_t events_of(uint64_t requests) { return 3 * (4 + requests); }

/* What the kernel counts as a child's largest resident set when it ran a world of so many requests, in bytes; 0 where the child
   failed. */
static uint64_t resident(uint64_t requests) {
    fflush(stdout);
    pid_t child = fork();
    if (child < 0) return 0;
    if (child == 0) _exit(osc_bench_world(requests) != events_of(requests));
    int status;
    struct rusage usage;
    if (wait4(child, &status, 0, &usage) != child || status != 0) return 0;
    return 1024 * (uint64_t)usage.ru_maxrss;
}

static int worlds(void) {
    uint64_t none = resident(0), few = resident(FEW), many = resident(MANY);
    if (none == 0 || few < none || many < few || osc_bench_world(FEW) != events_of(FEW) || osc_bench_world(MANY) != events_of(MANY)) {
        fprintf(stderr, "bench: a world's requests were not answered\n");
        return 1;
    }
    double set_up = best_of(osc_bench_world, 0), first = best_of(osc_bench_world, FEW), both = best_of(osc_bench_world, MANY);
    row("World, 4 clients, the first 4,989 events", 3 * FEW, first - set_up);
    row("World, 4 clients, the next 4,998 events", 3 * (MANY - FEW), both - first);
    printf("%-48s %12.0f bytes\n", "the same, resident for each of the first", (double)(few - none) / (3 * FEW));
    printf("%-48s %12.0f bytes\n", "the same, resident for each of the next", (double)(many - few) / (3 * (MANY - FEW)));
    return 0;
}

/* ---- ciphers: the same key, nonce, 8 bytes of associated data and tag of 8 bytes on both sides */

typedef uint64_t (*cipher_run)(const uint8_t *in, size_t length, uint8_t *out, size_t room, uint64_t rounds);

enum { LENGTH_COUNT = 4 };
static const size_t LENGTHS[LENGTH_COUNT] = {16, 64, 256, 1024};

/* What a call takes, in ns, where `in` has `length` bytes for so many bytes of text. */
static double cipher_ns(cipher_run run, const uint8_t *in, size_t length, size_t text) {
    enum { BYTES = 4 << 20 };
    uint64_t rounds = BYTES / (text + 64);
    uint8_t out[1040];
    double best = 1e9;
    for (int i = 0; i < RUNS; i++) {
        double start = seconds();
        sink = run(in, length, out, sizeof out, rounds);
        double taken = seconds() - start;
        if (taken < best) best = taken;
    }
    return 1e9 * best / (double)rounds;
}

static void cipher_row(const char *name, size_t text, double ns) {
    char title[64];
    snprintf(title, sizeof title, "%s, %zu bytes", name, text);
    printf("%-44s %12.0f /s %9.1f ns %9.1f MiB/s", title, 1e9 / ns, ns, 1e9 * (double)text / ns / 1048576.0);
}

#if defined WITH_MBEDTLS || defined WITH_OPENSSL
static const uint8_t KEY[16] = {7, 7, 7, 7, 7, 7, 7, 7, 7, 7, 7, 7, 7, 7, 7, 7};
static const uint8_t NONCE[13] = {5, 5, 5, 5, 5, 5, 5, 5, 5, 5, 5, 5, 5};
static const uint8_t AAD[8] = {3, 3, 3, 3, 3, 3, 3, 3};
#endif

#ifdef WITH_MBEDTLS
static uint64_t mbedtls_encrypt(uint64_t rounds) {
    mbedtls_aes_context aes;
    mbedtls_aes_init(&aes);
    mbedtls_aes_setkey_enc(&aes, KEY, 128);
    uint8_t block[16] = {0};
    for (uint64_t i = 0; i < rounds; i++) mbedtls_aes_crypt_ecb(&aes, MBEDTLS_AES_ENCRYPT, block, block);
    mbedtls_aes_free(&aes);
    return block[0];
}

static mbedtls_ccm_context keyed(void) {
    mbedtls_ccm_context ccm;
    mbedtls_ccm_init(&ccm);
    mbedtls_ccm_setkey(&ccm, MBEDTLS_CIPHER_ID_AES, KEY, 128);
    return ccm;
}

static uint64_t mbedtls_seal(const uint8_t *text, size_t length, uint8_t *out, size_t room, uint64_t rounds) {
    (void)room;
    mbedtls_ccm_context ccm = keyed();
    uint64_t sum = 0;
    for (uint64_t i = 0; i < rounds; i++)
        sum += mbedtls_ccm_encrypt_and_tag(&ccm, length, NONCE, 13, AAD, 8, text, out, out + length, 8) == 0;
    mbedtls_ccm_free(&ccm);
    return sum;
}

static uint64_t mbedtls_open(const uint8_t *sealed, size_t length, uint8_t *out, size_t room, uint64_t rounds) {
    (void)room;
    mbedtls_ccm_context ccm = keyed();
    uint64_t sum = 0;
    for (uint64_t i = 0; i < rounds; i++)
        sum += mbedtls_ccm_auth_decrypt(&ccm, length - 8, NONCE, 13, AAD, 8, sealed, out, sealed + length - 8, 8) == 0;
    mbedtls_ccm_free(&ccm);
    return sum;
}
#endif

#ifdef WITH_OPENSSL
/* What OpenSSL takes for a block, and for sealing and opening each length, in ns. OpenSSL reads which instructions it may use when it is
   loaded, so a child process of this program takes the figures. */
enum { FIGURES = 1 + 2 * LENGTH_COUNT };
static double openssl_plain[FIGURES], openssl_vectors[FIGURES], openssl_all[FIGURES];

static EVP_CIPHER_CTX *openssl_keyed(int seals) {
    EVP_CIPHER_CTX *ctx = EVP_CIPHER_CTX_new();
    EVP_CipherInit_ex(ctx, EVP_aes_128_ccm(), NULL, NULL, NULL, seals);
    EVP_CIPHER_CTX_ctrl(ctx, EVP_CTRL_AEAD_SET_IVLEN, 13, NULL);
    EVP_CIPHER_CTX_ctrl(ctx, EVP_CTRL_AEAD_SET_TAG, 8, NULL);
    EVP_CipherInit_ex(ctx, NULL, NULL, KEY, NULL, seals);
    return ctx;
}

static uint64_t openssl_seal(const uint8_t *text, size_t length, uint8_t *out, size_t room, uint64_t rounds) {
    (void)room;
    EVP_CIPHER_CTX *ctx = openssl_keyed(1);
    uint64_t sum = 0;
    for (uint64_t i = 0; i < rounds; i++) {
        int made = 0;
        EVP_CipherInit_ex(ctx, NULL, NULL, NULL, NONCE, 1);
        EVP_EncryptUpdate(ctx, NULL, &made, NULL, (int)length);
        EVP_EncryptUpdate(ctx, NULL, &made, AAD, 8);
        EVP_EncryptUpdate(ctx, out, &made, text, (int)length);
        EVP_EncryptFinal_ex(ctx, out + made, &made);
        sum += EVP_CIPHER_CTX_ctrl(ctx, EVP_CTRL_AEAD_GET_TAG, 8, out + length) == 1;
    }
    EVP_CIPHER_CTX_free(ctx);
    return sum;
}

static uint64_t openssl_open(const uint8_t *sealed, size_t length, uint8_t *out, size_t room, uint64_t rounds) {
    (void)room;
    EVP_CIPHER_CTX *ctx = openssl_keyed(0);
    uint64_t sum = 0;
    for (uint64_t i = 0; i < rounds; i++) {
        int made = 0;
        EVP_CIPHER_CTX_ctrl(ctx, EVP_CTRL_AEAD_SET_TAG, 8, (void *)(sealed + length - 8));
        EVP_CipherInit_ex(ctx, NULL, NULL, NULL, NONCE, 0);
        EVP_DecryptUpdate(ctx, NULL, &made, NULL, (int)length - 8);
        EVP_DecryptUpdate(ctx, NULL, &made, AAD, 8);
        sum += EVP_DecryptUpdate(ctx, out, &made, sealed, (int)length - 8) == 1;
    }
    EVP_CIPHER_CTX_free(ctx);
    return sum;
}

static const uint8_t IV[16];

/* Encrypts so many blocks, each with what came out last in it. */
static uint64_t openssl_encrypt(uint64_t rounds) {
    static uint8_t blocks[16 * 1000];
    EVP_CIPHER_CTX *ctx = EVP_CIPHER_CTX_new();
    EVP_EncryptInit_ex(ctx, EVP_aes_128_cbc(), NULL, KEY, IV);
    for (uint64_t i = 0; i < rounds; i += 1000) {
        int made = 0;
        EVP_EncryptUpdate(ctx, blocks, &made, blocks, sizeof blocks);
    }
    EVP_CIPHER_CTX_free(ctx);
    return blocks[0];
}

/* The child's work: its figures, one a line. */
static int print_openssl(void) {
    printf("%.1f\n", 1e9 * best_of(openssl_encrypt, 200000) / 200000);
    for (size_t i = 0; i < LENGTH_COUNT; i++) {
        uint8_t text[1024], sealed[1040], out[1040];
        memset(text, 'p', sizeof text);
        if (openssl_seal(text, LENGTHS[i], sealed, sizeof sealed, 1) != 1
            || openssl_open(sealed, LENGTHS[i] + 8, out, sizeof out, 1) != 1
            || osc_bench_open(sealed, LENGTHS[i] + 8, out, sizeof out, 1) != LENGTHS[i]) {
            fprintf(stderr, "bench: OpenSSL and this code don't open alike\n");
            return 1;
        }
        printf("%.1f\n%.1f\n", cipher_ns(openssl_seal, text, LENGTHS[i], LENGTHS[i]),
            cipher_ns(openssl_open, sealed, LENGTHS[i] + 8, LENGTHS[i]));
    }
    return 0;
}

/* Takes the figures of a child that may use these instructions; 0 where it gave them all. */
static int read_openssl(const char *program, const char *environment, double figures[FIGURES]) {
    char command[4096];
    if (snprintf(command, sizeof command, "%s '%s' openssl", environment, program) >= (int)sizeof command) return 1;
    FILE *child = popen(command, "r");
    if (child == NULL) return 1;
    int count = 0;
    while (count < FIGURES && fscanf(child, "%lf", &figures[count]) == 1) count++;
    return pclose(child) != 0 || count != FIGURES;
}
#endif

/* Ends a row, with what it takes for one of OpenSSL's ns: without AES and vector instructions, with vector instructions alone, and with
   both. */
static void end_row(size_t figure, double ns) {
#ifdef WITH_OPENSSL
    printf("  %6.2f  %6.2f  %6.2f\n", ns / openssl_plain[figure], ns / openssl_vectors[figure], ns / openssl_all[figure]);
#else
    (void)figure;
    (void)ns;
    printf("\n");
#endif
}

static void block_row(const char *name, rounds_run run) {
    enum { BLOCKS = 200000 };
    double ns = 1e9 * best_of(run, BLOCKS) / BLOCKS;
    printf("%-44s %12.0f /s %9.1f ns                ", name, 1e9 / ns, ns);
    end_row(0, ns);
}

/* A row for sealing and one for opening, of the i-th length. */
static void both_rows(const char *seals, cipher_run seal, const char *opens, cipher_run open, const uint8_t *text, const uint8_t *sealed, size_t i) {
    double ns = cipher_ns(seal, text, LENGTHS[i], LENGTHS[i]);
    cipher_row(seals, LENGTHS[i], ns);
    end_row(1 + 2 * i, ns);
    ns = cipher_ns(open, sealed, LENGTHS[i] + 8, LENGTHS[i]);
    cipher_row(opens, LENGTHS[i], ns);
    end_row(2 + 2 * i, ns);
}

static uint64_t encrypt(uint64_t rounds) { return osc_bench_encrypt(rounds); }

static int ciphers(void) {
#ifdef WITH_OPENSSL
    printf("Ciphers; the last three columns: as many times what OpenSSL takes without AES and vector instructions, with vector instructions "
        "alone, and with both\n");
#endif
    block_row("Aes128::encrypt", encrypt);
#ifdef WITH_MBEDTLS
    block_row("mbedTLS AES-128", mbedtls_encrypt);
#endif
    for (size_t i = 0; i < LENGTH_COUNT; i++) {
        size_t length = LENGTHS[i];
        uint8_t text[1024], sealed[1040], out[1040];
        memset(text, 'p', sizeof text);
        if (osc_bench_seal(text, length, sealed, sizeof sealed, 1) != length + 8
            || osc_bench_open(sealed, length + 8, out, sizeof out, 1) != length) {
            fprintf(stderr, "bench: a text was not sealed or not opened\n");
            return 1;
        }
        both_rows("Ccm<8>::seal", osc_bench_seal, "Ccm<8>::open", osc_bench_open, text, sealed, i);
#ifdef WITH_MBEDTLS
        if (mbedtls_open(sealed, length + 8, out, sizeof out, 1) != 1) {
            fprintf(stderr, "bench: mbedTLS does not open what was sealed\n");
            return 1;
        }
        both_rows("mbedTLS CCM seal", mbedtls_seal, "mbedTLS CCM open", mbedtls_open, text, sealed, i);
#endif
    }
    return 0;
}

int main(int count, char **words) {
#ifdef WITH_OPENSSL
    if (count == 2 && strcmp(words[1], "openssl") == 0) return print_openssl();
    /* The second masks AES-NI and the product of polynomials, which go together. */
    if (read_openssl(words[0], "OPENSSL_ia32cap=0:0", openssl_plain) != 0
        || read_openssl(words[0], "OPENSSL_ia32cap='~0x200000200000000'", openssl_vectors) != 0
        || read_openssl(words[0], "", openssl_all) != 0) {
        fprintf(stderr, "bench: OpenSSL was not timed\n");
        return 1;
    }
#else
    (void)words;
#endif
    if (count != 1) {
        fprintf(stderr, "bench: no such word\n");
        return 2;
    }
    if (osc_bench_serve(1, 1, GET_R000, sizeof GET_R000, 1) == 0 || osc_bench_repeat(GET_R000, sizeof GET_R000, 1) == 0
        || osc_bench_parse(POST_MANY, sizeof POST_MANY) != 6) {
        fprintf(stderr, "bench: a datagram was not served or not read\n");
        return 1;
    }
    parse("MessageRef::parse, GET, 1 option", GET_R000, sizeof GET_R000);
    parse("MessageRef::parse, POST, 6 options, 64 bytes", POST_MANY, sizeof POST_MANY);
    serve("Server::on_datagram, GET, 1 resource", 1, 1, GET_R000, sizeof GET_R000);
    serve("Server::on_datagram, GET, none noted", 1, LIFETIME, GET_R000, sizeof GET_R000);
    serve("Server::on_datagram, GET, 1st of 1,024", 1024, 1, GET_R000, sizeof GET_R000);
    serve("Server::on_datagram, GET, 1,000th of 1,024", 1024, 1, GET_R999, sizeof GET_R999);
    repeat("Server::on_datagram, a repeat", GET_R000, sizeof GET_R000);
    if (protected_requests() != 0 || asks() != 0 || ticks() != 0 || cbor() != 0 || oscore() != 0 || tokens() != 0 || worlds() != 0) return 1;
    return ciphers();
}
