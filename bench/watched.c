/* One cipher under one secret, between two functions that a plugin of qemu sees (watched_plugin.c): what it executes there, and each address that it loads from
 * or stores to, is to be the same for each secret.
 *
 *   watched CALL SECRET      the number of a call from 0 on, and a digit that the secrets are made of
 *
 * The last two calls use a secret as a place and in a branch, so that it is seen whether anything is seen. */
#include <stdint.h>
#include <stdlib.h>
#include <string.h>

void osc_secrets_encrypt(const uint8_t *key, uint8_t *block);
void osc_secrets_encrypt_two(const uint8_t *key, uint8_t *one, uint8_t *other);
uint64_t osc_secrets_seal(const uint8_t *key, const uint8_t *nonce, const uint8_t *aad, uint64_t aad_length, const uint8_t *text,
                          uint64_t text_length, uint8_t *out, uint64_t room);
uint64_t osc_secrets_open(const uint8_t *key, const uint8_t *nonce, const uint8_t *aad, uint64_t aad_length,
                          const uint8_t *sealed, uint64_t sealed_length, uint8_t *out, uint64_t room);
void osc_secrets_hmac(const uint8_t *key, uint64_t key_length, const uint8_t *text, uint64_t text_length, uint8_t *out);
uint8_t osc_secrets_hkdf(const uint8_t *salt, uint64_t salt_length, const uint8_t *ikm, uint64_t ikm_length,
                         const uint8_t *info, uint64_t info_length, uint8_t *out, uint64_t out_length);

void watch_begins(void);
void watch_ends(void);

enum { TEXT = 23, SEALED = TEXT + 8, AAD = 12, LONG = 100 };

static uint8_t key[16], nonce[13], aad[AAD], text[LONG], sealed[SEALED], out[64];
static volatile uint8_t table[256];

/* Secrets, of a digit. */
static void fill(uint8_t *bytes, size_t length, uint64_t *state) {
    for (size_t at = 0; at < length; at++) {
        *state = *state * UINT64_C(6364136223846793005) + UINT64_C(1442695040888963407);
        bytes[at] = (uint8_t)(*state >> 56);
    }
}

/* Where it is watched no interrupt may come in between. */
__attribute__((noinline)) void watch_begins(void) {
#if defined(__ARM_ARCH_PROFILE) && __ARM_ARCH_PROFILE == 'M'
    __asm__ volatile("cpsid i" ::: "memory");
#else
    __asm__ volatile("" ::: "memory");
#endif
}

__attribute__((noinline)) void watch_ends(void) {
#if defined(__ARM_ARCH_PROFILE) && __ARM_ARCH_PROFILE == 'M'
    __asm__ volatile("cpsie i" ::: "memory");
#else
    __asm__ volatile("" ::: "memory");
#endif
}

static uint64_t opened(int forged) {
    osc_secrets_seal(key, nonce, aad, AAD, text, TEXT, sealed, SEALED);
    if (forged) sealed[SEALED - 1] ^= 1;
    watch_begins();
    uint64_t count = osc_secrets_open(key, nonce, aad, AAD, sealed, SEALED, out, sizeof out);
    watch_ends();
    return count;
}

static int is_done(int call) {
    volatile uint8_t seen = 0;
    uint64_t count = 1;
    if (call == 3 || call == 4) return opened(call == 4) == (call == 3 ? TEXT : 0);
    watch_begins();
    switch (call) {
    case 0: osc_secrets_encrypt(key, text); break;
    case 1: osc_secrets_encrypt_two(key, text, text + 16); break;
    case 2: count = osc_secrets_seal(key, nonce, aad, AAD, text, TEXT, sealed, SEALED); break;
    case 5: osc_secrets_hmac(key, sizeof key, text, LONG, out); break;
    case 6: count = osc_secrets_hkdf(nonce, sizeof nonce, key, sizeof key, aad, AAD, out, 42); break;
    case 7: seen = table[key[0]]; break;
    case 8:
        if (key[0] & 1) seen = 1;
        break;
    default: count = 0;
    }
    watch_ends();
    (void)seen;
    return count != 0;
}

int main(int count, char **words) {
    if (count != 3) return 2;
    uint64_t state = (uint64_t)(words[2][0] - '0');
    fill(key, sizeof key, &state);
    fill(text, sizeof text, &state);
    return is_done(words[1][0] - '0') ? 0 : 1;
}
