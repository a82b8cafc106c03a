/* Compares the crates `hash_c` and `cipher_c` with libcrypto on thousands of inputs, and then measures them beside libcrypto
   and plain C. Status 1 at the first difference. `bench/run` builds it and runs it. */
#include "plain.h"
#include <openssl/crypto.h>
#include <openssl/evp.h>
#include <openssl/hmac.h>
#include <openssl/sha.h>
#include <stdio.h>
#include <stdlib.h>
#include <string.h>
#include <time.h>

/* ---- what the static libraries export */

struct hash_digest { uint8_t bytes[32]; };
struct hash_key { uint32_t inner[8], outer[8]; };
void hash_sha256(const uint8_t *input, size_t length, struct hash_digest *digest);
void hash_prepare(const uint8_t *key, size_t length, struct hash_key *out);
void hash_mac(const struct hash_key *key, const uint8_t *message, size_t length, struct hash_digest *code);
void hash_hmac(const uint8_t *key, size_t key_length, const uint8_t *message, size_t length, struct hash_digest *code);
void cipher_block(const uint8_t key[32], uint32_t counter, const uint8_t nonce[12], uint8_t block[64]);
void cipher_apply_keystream(const uint8_t key[32], uint32_t counter, const uint8_t nonce[12], uint8_t *bytes, size_t length);

/* ---- the same by libcrypto: in one call, and with a context that is kept from call to call */

static EVP_MD_CTX *md;
static EVP_CIPHER_CTX *stream;
static HMAC_CTX *mac;

static void must(int ok) {
    if (!ok) {
        fprintf(stderr, "bench: libcrypto refuses\n");
        exit(1);
    }
}

static void crypto_sha256_kept(const uint8_t *input, size_t length, uint8_t digest[32]) {
    must(EVP_DigestInit_ex(md, NULL, NULL) && EVP_DigestUpdate(md, input, length) && EVP_DigestFinal_ex(md, digest, NULL));
}

static void crypto_sha256(const uint8_t *input, size_t length, uint8_t digest[32]) {
    must(SHA256(input, length, digest) != NULL);
}

static void crypto_hmac(const uint8_t *key, size_t key_length, const uint8_t *message, size_t length, uint8_t code[32]) {
    must(HMAC(EVP_sha256(), key, (int)key_length, message, length, code, NULL) != NULL);
}

static void crypto_hmac_key(const uint8_t *key, size_t length) {
    must(HMAC_Init_ex(mac, key, (int)length, EVP_sha256(), NULL));
}

static void crypto_hmac_kept(const uint8_t *message, size_t length, uint8_t code[32]) {
    must(HMAC_Init_ex(mac, NULL, 0, NULL, NULL) && HMAC_Update(mac, message, length) && HMAC_Final(mac, code, NULL));
}

static void crypto_chacha20_by(EVP_CIPHER_CTX *by, const EVP_CIPHER *cipher, const uint8_t key[32], uint32_t counter, const uint8_t nonce[12], uint8_t *bytes, size_t length) {
    uint8_t iv[16] = {(uint8_t)counter, (uint8_t)(counter >> 8), (uint8_t)(counter >> 16), (uint8_t)(counter >> 24)};
    int done;
    memcpy(iv + 4, nonce, 12);
    must(EVP_EncryptInit_ex(by, cipher, NULL, key, iv) && EVP_EncryptUpdate(by, bytes, &done, bytes, (int)length));
}

static void crypto_chacha20(const uint8_t key[32], uint32_t counter, const uint8_t nonce[12], uint8_t *bytes, size_t length) {
    EVP_CIPHER_CTX *by = EVP_CIPHER_CTX_new();
    crypto_chacha20_by(by, EVP_chacha20(), key, counter, nonce, bytes, length);
    EVP_CIPHER_CTX_free(by);
}

static void crypto_chacha20_kept(const uint8_t key[32], uint32_t counter, const uint8_t nonce[12], uint8_t *bytes, size_t length) {
    crypto_chacha20_by(stream, NULL, key, counter, nonce, bytes, length);
}

static void setup(void) {
    md = EVP_MD_CTX_new(), stream = EVP_CIPHER_CTX_new(), mac = HMAC_CTX_new();
    must(EVP_DigestInit_ex(md, EVP_sha256(), NULL) && EVP_EncryptInit_ex(stream, EVP_chacha20(), NULL, NULL, NULL));
}

/* ---- comparing */

enum { LONGEST = 2100, MIB = 1 << 20 };
static uint8_t input[MIB], work[MIB], other[MIB], key[200], nonce[12];
static struct hash_digest ours;
static uint8_t theirs[64];

static void same(const char *what, size_t length, const uint8_t *a, const uint8_t *b, size_t n) {
    if (memcmp(a, b, n) != 0) {
        printf("DIFFERENT: %s at %zu bytes\n", what, length);
        exit(1);
    }
}

static void compare_sha256(size_t length) {
    crypto_sha256_kept(input, length, theirs);
    hash_sha256(input, length, &ours);
    same("SHA-256", length, ours.bytes, theirs, 32);
    plain_sha256(input, length, ours.bytes);
    same("SHA-256 in plain C", length, ours.bytes, theirs, 32);
}

static void compare_hmac(size_t key_length, size_t length) {
    struct hash_key k;
    struct plain_key p;
    crypto_hmac(key, key_length, input, length, theirs);
    hash_hmac(key, key_length, input, length, &ours);
    same("HMAC", length, ours.bytes, theirs, 32);
    hash_prepare(key, key_length, &k);
    hash_mac(&k, input, length, &ours);
    same("HMAC with a prepared key", length, ours.bytes, theirs, 32);
    plain_prepare(key, key_length, &p);
    plain_mac(&p, input, length, ours.bytes);
    same("HMAC in plain C", length, ours.bytes, theirs, 32);
}

/* libcrypto carries from the counter into the nonce, so it is called again with 0 where ours goes on from 0. */
static void compare_chacha20(uint32_t counter, size_t length) {
    uint64_t room = ((1ULL << 32) - counter) * 64;
    size_t first = length < room ? length : (size_t)room;
    memcpy(work, input, length + 1);
    memcpy(other, input, length + 1);
    crypto_chacha20_kept(key, counter, nonce, other, first);
    crypto_chacha20_kept(key, 0, nonce, other + first, length - first);
    cipher_apply_keystream(key, counter, nonce, work, length);
    same("ChaCha20", length, work, other, length + 1);
    memcpy(work, input, length + 1);
    plain_chacha20(key, counter, nonce, work, length);
    same("ChaCha20 in plain C", length, work, other, length + 1);
}

static void compare_block(uint32_t counter) {
    uint8_t block[64];
    memset(theirs, 0, 64);
    crypto_chacha20_kept(key, counter, nonce, theirs, 64);
    cipher_block(key, counter, nonce, block);
    same("ChaCha20 block", 64, block, theirs, 64);
}

static void fill(uint8_t *bytes, size_t length, uint32_t seed) {
    for (size_t i = 0; i < length; i++)
        seed = seed * 1664525 + 1013904223, bytes[i] = (uint8_t)(seed >> 24);
}

static void compare(void) {
    for (size_t n = 0; n <= LONGEST; n++) {
        fill(input, n + 1, (uint32_t)n), fill(key, sizeof key, (uint32_t)n + 1), fill(nonce, 12, (uint32_t)n + 2);
        compare_sha256(n);
        compare_hmac(n % sizeof key, n);
        compare_chacha20((uint32_t)(n * 2654435761u), n);
        compare_chacha20((uint32_t)-(n % 40), n);
        compare_block((uint32_t)-n);
    }
    fill(input, MIB, 1);
    compare_sha256(MIB);
    compare_hmac(32, MIB);
    compare_chacha20(7, MIB - 1);
    printf("every length to %d bytes, and 1 MiB: all results are libcrypto's\n", LONGEST);
}

/* ---- measuring: the best of many short rounds, each of all four in turn */

static struct hash_key hash_prepared;
static struct plain_key plain_prepared;

static void our_sha256(size_t n) { hash_sha256(input, n, &ours); }
static void c_sha256(size_t n) { plain_sha256(input, n, theirs); }
static void call_sha256(size_t n) { crypto_sha256(input, n, theirs); }
static void kept_sha256(size_t n) { crypto_sha256_kept(input, n, theirs); }

static void our_hmac(size_t n) { hash_hmac(key, 32, input, n, &ours); }
static void c_hmac(size_t n) { plain_prepare(key, 32, &plain_prepared), plain_mac(&plain_prepared, input, n, theirs); }
static void call_hmac(size_t n) { crypto_hmac(key, 32, input, n, theirs); }

static void our_mac(size_t n) { hash_mac(&hash_prepared, input, n, &ours); }
static void c_mac(size_t n) { plain_mac(&plain_prepared, input, n, theirs); }
static void kept_mac(size_t n) { crypto_hmac_kept(input, n, theirs); }

static void our_chacha20(size_t n) { cipher_apply_keystream(key, 1, nonce, work, n); }
static void c_chacha20(size_t n) { plain_chacha20(key, 1, nonce, work, n); }
static void call_chacha20(size_t n) { crypto_chacha20(key, 1, nonce, work, n); }
static void kept_chacha20(size_t n) { crypto_chacha20_kept(key, 1, nonce, work, n); }

struct row { const char *name; size_t bytes; void (*by[4])(size_t); };

static const struct row ROWS[] = {
    {"SHA-256, 64 bytes", 64, {our_sha256, c_sha256, call_sha256, kept_sha256}},
    {"SHA-256, 1,024 bytes", 1024, {our_sha256, c_sha256, call_sha256, kept_sha256}},
    {"SHA-256, 1 MiB", MIB, {our_sha256, c_sha256, call_sha256, kept_sha256}},
    {"HMAC of 69 bytes", 69, {our_hmac, c_hmac, call_hmac, NULL}},
    {"HMAC of 69 bytes, prepared", 69, {our_mac, c_mac, NULL, kept_mac}},
    {"ChaCha20, 64 bytes", 64, {our_chacha20, c_chacha20, call_chacha20, kept_chacha20}},
    {"ChaCha20, 1,024 bytes", 1024, {our_chacha20, c_chacha20, call_chacha20, kept_chacha20}},
};

static double now(void) {
    struct timespec t;
    clock_gettime(CLOCK_MONOTONIC, &t);
    return t.tv_sec * 1e9 + t.tv_nsec;
}

static double once(void (*f)(size_t), size_t bytes, int calls) {
    double start = now();
    for (int i = 0; i < calls; i++)
        f(bytes);
    return (now() - start) / calls;
}

static void measure(const struct row *r) {
    double best[4] = {0};
    int calls = 1 + (int)(500000 / (r->bytes + 100));
    for (int round = 0; round < 60; round++)
        for (int k = 0; k < 4; k++) {
            double ns = r->by[k] ? once(r->by[k], r->bytes, calls) : 0;
            if (round == 0 || ns < best[k])
                best[k] = ns;
        }
    printf("%-27s %9.0f ns", r->name, best[0]);
    for (int k = 1; k < 4; k++)
        r->by[k] ? printf(" %9.0f ns %6.2f", best[k], best[k] / best[0]) : printf(" %12s %6s", "-", "-");
    printf("\n");
    fflush(stdout);
}

int main(void) {
    const char *cap = getenv("OPENSSL_ia32cap");
    setup();
    printf("\n%s, %s%s\n", OpenSSL_version(OPENSSL_VERSION), cap ? "OPENSSL_ia32cap=" : "with its processor extensions", cap ? cap : "");
    compare();
    hash_prepare(key, 32, &hash_prepared), plain_prepare(key, 32, &plain_prepared), crypto_hmac_key(key, 32);
    printf("%-27s %12s %12s %6s %12s %6s %12s %6s\n", "", "ours", "plain C", "ratio", "one call", "ratio", "kept", "ratio");
    for (size_t i = 0; i < sizeof ROWS / sizeof *ROWS; i++)
        measure(&ROWS[i]);
    return 0;
}
