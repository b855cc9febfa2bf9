/* Calls the ciphers of the static library osc_secrets with keys and texts that valgrind holds for undefined, and counts
   what memcheck says: a branch that depends on such a byte, or a place in memory that does. */
#include <stddef.h>
#include <stdint.h>
#include <stdio.h>
#include <string.h>
#include <valgrind/memcheck.h>

void osc_secrets_encrypt(const uint8_t *key, uint8_t *block);
void osc_secrets_encrypt_two(const uint8_t *key, uint8_t *one, uint8_t *other);
uint64_t osc_secrets_seal(const uint8_t *key, const uint8_t *nonce, const uint8_t *aad, uint64_t aad_length, const uint8_t *text,
                        uint64_t text_length, uint8_t *out, uint64_t room);
uint64_t osc_secrets_open(const uint8_t *key, const uint8_t *nonce, const uint8_t *aad, uint64_t aad_length,
                        const uint8_t *sealed, uint64_t sealed_length, uint8_t *out, uint64_t room);
void osc_secrets_hmac(const uint8_t *key, uint64_t key_length, const uint8_t *text, uint64_t text_length, uint8_t *out);
uint8_t osc_secrets_hkdf(const uint8_t *salt, uint64_t salt_length, const uint8_t *ikm, uint64_t ikm_length,
                         const uint8_t *info, uint64_t info_length, uint8_t *out, uint64_t out_length);

enum { MOST = 1400 };

static uint8_t key[16], nonce[13], aad[48], text[MOST], sealed[MOST + 8], opened[MOST], table[256];
static int wrong;

/* Secrets that differ from run to run of a function, but not from run to run of this program. */
static void fill(uint8_t *bytes, size_t length) {
    static uint64_t state = 1;
    for (size_t i = 0; i < length; i++) {
        state = state * 6364136223846793005u + 1442695040888963407u;
        bytes[i] = (uint8_t)(state >> 56);
    }
}

static void secret(const void *bytes, size_t length) { (void)VALGRIND_MAKE_MEM_UNDEFINED(bytes, length); }

static void known(const void *bytes, size_t length) { (void)VALGRIND_MAKE_MEM_DEFINED(bytes, length); }

static unsigned complaints(void) { return (unsigned)VALGRIND_COUNT_ERRORS; }

/* One line of the report: how many uses of secrets there may be, and how many there were. */
static void report(const char *name, unsigned before, unsigned least, unsigned most) {
    unsigned count = complaints() - before;
    int right = least <= count && count <= most;
    printf("%-46s %5u%s\n", name, count, right ? "" : "   not as it must be");
    if (!right) wrong = 1;
}

static void text_of(size_t length, size_t aad_length) {
    char name[64];
    unsigned before;
    size_t count;
    fill(key, 16), fill(nonce, 13), fill(aad, aad_length), fill(text, length);
    uint8_t plain[MOST];
    memcpy(plain, text, length);
    secret(key, 16), secret(text, length);
    snprintf(name, sizeof name, "seal, %zu bytes, associated data of %zu", length, aad_length);
    before = complaints();
    count = osc_secrets_seal(key, nonce, aad, aad_length, text, length, sealed, sizeof sealed);
    report(name, before, 0, 0);
    /* The sealed bytes are what everybody sees; the key stays secret. What is opened is genuine: the verdict is the one
       use of secrets that a reader of the answer sees anyhow. */
    known(sealed, sizeof sealed);
    snprintf(name, sizeof name, "open, %zu bytes, associated data of %zu", length, aad_length);
    before = complaints();
    size_t back = osc_secrets_open(key, nonce, aad, aad_length, sealed, count, opened, sizeof opened);
    report(name, before, 1, 1);
    known(opened, sizeof opened);
    if (count != length + 8 || back != length || memcmp(opened, plain, length) != 0) {
        printf("%s: wrong bytes\n", name);
        wrong = 1;
    }
    sealed[count - 1] ^= 1;
    snprintf(name, sizeof name, "open, %zu bytes, forged", length);
    before = complaints();
    if (osc_secrets_open(key, nonce, aad, aad_length, sealed, count, opened, sizeof opened) != 0 && length != 0) wrong = 1;
    report(name, before, 1, 1);
    known(key, 16), known(text, length);
}

int main(void) {
    unsigned before;
    uint8_t block[16], other[16], out[32], keys[42];
    if (!RUNNING_ON_VALGRIND) {
        puts("this must run under valgrind");
        return 2;
    }
    puts("Uses of secrets as a place in memory or in a branch");
    /* That it can complain: a look-up in a table. */
    fill(table, 256), fill(key, 16);
    secret(key, 16);
    before = complaints();
    volatile uint8_t found = table[key[3]];
    (void)found;
    report("a table read at a secret place, which has one", before, 1, 1);
    fill(key, 16), fill(block, 16), fill(other, 16);
    secret(key, 16), secret(block, 16), secret(other, 16);
    before = complaints();
    osc_secrets_encrypt(key, block);
    report("a key expanded, a block encrypted", before, 0, 0);
    before = complaints();
    osc_secrets_encrypt_two(key, block, other);
    report("a key expanded, two blocks encrypted", before, 0, 0);
    known(key, 16);
    /* No more of them once one went wrong: thousands of complaints take memcheck minutes. */
    static const size_t lengths[] = {64, 0, 1, 15, 16, 17, 100, 1024, 1152, 1153, 1400};
    for (size_t i = 0; i < sizeof lengths / sizeof *lengths && (i == 0 || !wrong); i++) text_of(lengths[i], i % 3 * 20);
    fill(text, 200);
    secret(text, 200);
    before = complaints();
    osc_secrets_hmac(text, 32, text + 100, 100, out);
    report("HMAC, a key of 32 bytes", before, 0, 0);
    before = complaints();
    osc_secrets_hmac(text, 100, text + 100, 100, out);
    report("HMAC, a key of 100 bytes", before, 0, 0);
    before = complaints();
    if (!osc_secrets_hkdf(text, 16, text + 16, 32, aad, 9, keys, sizeof keys)) wrong = 1;
    report("HKDF, 42 bytes", before, 0, 0);
    puts(wrong ? "secrets are used where they mustn't be" : "no more than the verdicts");
    return wrong;
}
