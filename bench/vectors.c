/* Published vectors through the static library osc_secrets: AES-128, CCM, HMAC-SHA-256, HKDF-SHA-256, and the keys and the ciphertexts of OSCORE's
   examples. A line for each standard; the status is 1 where a value differs. */
#include <stddef.h>
#include <stdint.h>
#include <stdio.h>
#include <string.h>

void osc_secrets_encrypt(const uint8_t *key, uint8_t *block);
void osc_secrets_encrypt_two(const uint8_t *key, uint8_t *one, uint8_t *other);
uint64_t osc_secrets_seal(const uint8_t *key, const uint8_t *nonce, const uint8_t *aad, uint64_t aad_length, const uint8_t *text,
                        uint64_t text_length, uint8_t *out, uint64_t room);
uint64_t osc_secrets_open(const uint8_t *key, const uint8_t *nonce, const uint8_t *aad, uint64_t aad_length,
                        const uint8_t *sealed, uint64_t sealed_length, uint8_t *out, uint64_t room);
void osc_secrets_hmac(const uint8_t *key, uint64_t key_length, const uint8_t *text, uint64_t text_length, uint8_t *out);
uint8_t osc_secrets_hkdf(const uint8_t *salt, uint64_t salt_length, const uint8_t *ikm, uint64_t ikm_length,
                         const uint8_t *info, uint64_t info_length, uint8_t *out, uint64_t out_length);

typedef struct bytes {
    uint8_t at[192];
    size_t length;
} bytes;

/* The bytes of hexadecimal digits. `aa*20` is one byte, twenty times. */
static bytes hex(const char *text) {
    bytes made = {{0}, 0};
    unsigned byte, times;
    int used = 0;
    if (sscanf(text, "%2x*%u%n", &byte, &times, &used) == 2 && text[used] == 0) {
        memset(made.at, (int)byte, times);
        made.length = times;
        return made;
    }
    for (; *text != 0; text += 2) {
        sscanf(text, "%2x", &byte);
        made.at[made.length++] = (uint8_t)byte;
    }
    return made;
}

static int tried, wrong;

static void same(const char *what, const uint8_t *made, const char *wanted) {
    bytes right = hex(wanted);
    tried++;
    if (memcmp(made, right.at, right.length) != 0) {
        printf("%s: not %s\n", what, wanted);
        wrong++;
    }
}

static void told(const char *standard) {
    printf("%s: %d values\n", standard, tried);
    tried = 0;
}

static void aes(void) {
    static const char *const row[][3] = {
        {"2b7e151628aed2a6abf7158809cf4f3c", "3243f6a8885a308d313198a2e0370734", "3925841d02dc09fbdc118597196a0b32"},
        {"000102030405060708090a0b0c0d0e0f", "00112233445566778899aabbccddeeff", "69c4e0d86a7b0430d8cdb78070b4c55a"},
        {"2b7e151628aed2a6abf7158809cf4f3c", "6bc1bee22e409f96e93d7e117393172a", "3ad77bb40d7a3660a89ecaf32466ef97"},
        {"2b7e151628aed2a6abf7158809cf4f3c", "ae2d8a571e03ac9c9eb76fac45af8e51", "f5d3d58503b9699de785895a96fdbaaf"},
        {"2b7e151628aed2a6abf7158809cf4f3c", "30c81c46a35ce411e5fbc1191a0a52ef", "43b1cd7f598ece23881b00e3ed030688"},
        {"2b7e151628aed2a6abf7158809cf4f3c", "f69f2445df4f9b17ad2b417be66c3710", "7b0c785e27e8ad3f8223207104725dd4"},
    };
    for (size_t i = 0; i < sizeof row / sizeof *row; i++) {
        bytes key = hex(row[i][0]), block = hex(row[i][1]), one = block, other = block;
        osc_secrets_encrypt(key.at, block.at);
        same("AES", block.at, row[i][2]);
        other.at[0] ^= 1;
        osc_secrets_encrypt_two(key.at, one.at, other.at);
        same("AES, two blocks", one.at, row[i][2]);
    }
    told("FIPS 197, SP 800-38A");
}

/* Seals, opens what is published, and opens it with a bit turned. */
static void sealed(const char *key, const char *nonce, const char *aad, const char *text, const char *wanted) {
    bytes k = hex(key), n = hex(nonce), a = hex(aad), t = hex(text), s = hex(wanted);
    uint8_t out[192] = {0};
    size_t count = osc_secrets_seal(k.at, n.at, a.at, a.length, t.at, t.length, out, sizeof out);
    same("seal", out, wanted);
    memset(out, 0, sizeof out);
    size_t back = osc_secrets_open(k.at, n.at, a.at, a.length, s.at, s.length, out, sizeof out);
    same("open", out, text);
    s.at[s.length - 1] ^= 1;
    tried++;
    if (count != s.length || back != t.length || osc_secrets_open(k.at, n.at, a.at, a.length, s.at, s.length, out, sizeof out) != 0) {
        printf("%s: another length, or a forgery opens\n", wanted);
        wrong++;
    }
}

static void ccm(void) {
    static const char *const row[][4] = {
        {"00000003020100a0a1a2a3a4a5", "0001020304050607", "08090a0b0c0d0e0f101112131415161718191a1b1c1d1e",
         "588c979a61c663d2f066d0c2c0f989806d5f6b61dac38417e8d12cfdf926e0"},
        {"00000004030201a0a1a2a3a4a5", "0001020304050607", "08090a0b0c0d0e0f101112131415161718191a1b1c1d1e1f",
         "72c91a36e135f8cf291ca894085c87e3cc15c439c9e43a3ba091d56e10400916"},
        {"00000005040302a0a1a2a3a4a5", "0001020304050607", "08090a0b0c0d0e0f101112131415161718191a1b1c1d1e1f20",
         "51b1e5f44a197d1da46b0f8e2d282ae871e838bb64da8596574adaa76fbd9fb0c5"},
        {"00000006050403a0a1a2a3a4a5", "000102030405060708090a0b", "0c0d0e0f101112131415161718191a1b1c1d1e",
         "a28c6865939a9a79faaa5c4c2a9d4a91cdac8c96c861b9c9e61ef1"},
        {"00000007060504a0a1a2a3a4a5", "000102030405060708090a0b", "0c0d0e0f101112131415161718191a1b1c1d1e1f",
         "dcf1fb7b5d9e23fb9d4e131253658ad86ebdca3e51e83f077d9c2d93"},
        {"00000008070605a0a1a2a3a4a5", "000102030405060708090a0b", "0c0d0e0f101112131415161718191a1b1c1d1e1f20",
         "6fc1b011f006568b5171a42d953d469b2570a4bd87405a0443ac91cb94"},
    };
    for (size_t i = 0; i < sizeof row / sizeof *row; i++)
        sealed("c0c1c2c3c4c5c6c7c8c9cacbcccdcecf", row[i][0], row[i][1], row[i][2], row[i][3]);
    told("RFC 3610");
}

static void mac(void) {
    static const char *const row[][3] = {
        {"0b*20", "4869205468657265", "b0344c61d8db38535ca8afceaf0bf12b881dc200c9833da726e9376c2e32cff7"},
        {"4a656665", "7768617420646f2079612077616e7420666f72206e6f7468696e673f",
         "5bdcc146bf60754e6a042426089575c75a003f089d2739839dec58b964ec3843"},
        {"aa*20", "dd*50", "773ea91e36800e46854db8ebd09181a72959098b3ef8c122d9635514ced565fe"},
        {"0102030405060708090a0b0c0d0e0f10111213141516171819", "cd*50",
         "82558a389a443c0ea4cc819899f2083a85f0faa3e578f8077a2e3ff46729665b"},
        {"aa*131", "54657374205573696e67204c6172676572205468616e20426c6f636b2d53697a65204b6579202d2048617368204b6579204669727374",
         "60e431591ee0b67f0d8a26aacbf5b77f8e0bc6213728c5140546040f0ee37f54"},
        {"aa*131",
         "5468697320697320612074657374207573696e672061206c6172676572207468616e20626c6f636b2d73697a65206b657920616e642061206c6172676572207468616e"
         "20626c6f636b2d73697a6520646174612e20546865206b6579206e6565647320746f20626520686173686564206265666f7265206265696e6720757365642062792074"
         "686520484d414320616c676f726974686d2e",
         "9b09ffa71b942fcb27635fbcd5b0e944bfdc63644f0713938a7f51535c3a35e2"},
    };
    for (size_t i = 0; i < sizeof row / sizeof *row; i++) {
        bytes key = hex(row[i][0]), text = hex(row[i][1]);
        uint8_t out[32];
        osc_secrets_hmac(key.at, key.length, text.at, text.length, out);
        same("HMAC", out, row[i][2]);
    }
    told("RFC 4231");
}

static void expanded(const char *salt, const char *ikm, const char *info, const char *wanted) {
    bytes s = hex(salt), i = hex(ikm), f = hex(info), w = hex(wanted);
    uint8_t out[192] = {0};
    if (!osc_secrets_hkdf(s.at, s.length, i.at, i.length, f.at, f.length, out, w.length)) wrong++;
    same("HKDF", out, wanted);
}

static void hkdf(void) {
    expanded("000102030405060708090a0b0c", "0b*22", "f0f1f2f3f4f5f6f7f8f9",
             "3cb25f25faacd57a90434f64d0362f2a2d2d0a90cf1a5a4c5db02d56ecc4c5bf34007208d5b887185865");
    expanded("606162636465666768696a6b6c6d6e6f707172737475767778797a7b7c7d7e7f808182838485868788898a8b8c8d8e8f909192939495969798999a9b9c9d9e9f"
             "a0a1a2a3a4a5a6a7a8a9aaabacadaeaf",
             "000102030405060708090a0b0c0d0e0f101112131415161718191a1b1c1d1e1f202122232425262728292a2b2c2d2e2f303132333435363738393a3b3c3d3e3f"
             "404142434445464748494a4b4c4d4e4f",
             "b0b1b2b3b4b5b6b7b8b9babbbcbdbebfc0c1c2c3c4c5c6c7c8c9cacbcccdcecfd0d1d2d3d4d5d6d7d8d9dadbdcdddedfe0e1e2e3e4e5e6e7e8e9eaebecedeeef"
             "f0f1f2f3f4f5f6f7f8f9fafbfcfdfeff",
             "b11e398dc80327a1c8e7f78c596a49344f012eda2d4efad8a050cc4c19afa97c59045a99cac7827271cb41c65e590e09da3275600c2f09b8367793a9aca3db71"
             "cc30c58179ec3e87c14c01d5c1f3434f1d87");
    expanded("", "0b*22", "", "8da4e775a563c18f715f802a063c5a31b8a11f5c5ee1879ec3454e5f3c738d2d9d201395faa4b61a96c8");
    told("RFC 5869");
}

/* Appendix C: what HKDF derives from the secret and the salt, by the CBOR array that RFC 8613 section 3.2.1 gives as info; and what AES-CCM seals, under
   the associated data of section 5.4. */
static void oscore(void) {
    static const char *const secret = "0102030405060708090a0b0c0d0e0f10", *const salt = "9e7ca92223786340";
    static const char *const own = "8368456e63727970743040488501810a40411440", *const second = "8368456e63727970743040498501810a4100411440";
    expanded(salt, secret, "8540f60a634b657910", "f0910ed7295e6ad4b54fc793154302ff");
    expanded(salt, secret, "854101f60a634b657910", "ffb14e093c94c9cac9471648b4f98710");
    expanded(salt, secret, "8540f60a6249560d", "4622d4dd6d944168eefb54987c");
    expanded("", secret, "854100f60a634b657910", "321b26943253c7ffb6003b0b64d74041");
    expanded("", secret, "854101f60a634b657910", "e57b5635815177cd679ab4bcec9d7dda");
    expanded("", secret, "8540f60a6249560d", "be35ae297d2dace910c52e99f9");
    expanded(salt, secret, "85404837cbf3210017a2d30a634b657910", "af2a1300a5e95788b356336eeecd2b92");
    expanded(salt, secret, "8541014837cbf3210017a2d30a634b657910", "e39a0c7c77b43f03b4b39ab9a268699f");
    expanded(salt, secret, "85404837cbf3210017a2d30a6249560d", "2ca58fb85ff1b81c0b7181b85e");
    sealed("f0910ed7295e6ad4b54fc793154302ff", "4622d4dd6d944168eefb549868", own, "01b3747631", "612f1092f1776f1c1668b3825e");
    sealed("321b26943253c7ffb6003b0b64d74041", "bf35ae297d2dace910c52e99ed", second, "01b3747631", "4ed339a5a379b0b8bc731fffb0");
    sealed("af2a1300a5e95788b356336eeecd2b92", "2ca58fb85ff1b81c0b7181b84a", own, "01b3747631", "72cd7273fd331ac45cffbe55c3");
    sealed("ffb14e093c94c9cac9471648b4f98710", "4622d4dd6d944168eefb549868", own, "45ff48656c6c6f20576f726c6421",
           "dbaad1e9a7e7b2a813d3c31524378303cdafae119106");
    sealed("ffb14e093c94c9cac9471648b4f98710", "4722d4dd6d944169eefb54987c", own, "45ff48656c6c6f20576f726c6421",
           "4d4c13669384b67354b2b6175ff4b8658c666a6cf88e");
    told("RFC 8613");
}

int main(void) {
    aes();
    ccm();
    mac();
    hkdf();
    oscore();
    printf("%d values differ\n", wrong);
    return wrong != 0;
}
