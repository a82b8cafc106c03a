/* Plain C as the documents have it, to measure beside: FIPS 180-4, RFC 2104 and RFC 8439. */
#include <stddef.h>
#include <stdint.h>

struct plain_key { uint32_t inner[8], outer[8]; };

void plain_sha256(const uint8_t *input, size_t length, uint8_t digest[32]);
void plain_prepare(const uint8_t *key, size_t length, struct plain_key *out);
void plain_mac(const struct plain_key *key, const uint8_t *message, size_t length, uint8_t code[32]);
void plain_chacha20(const uint8_t key[32], uint32_t counter, const uint8_t nonce[12], uint8_t *bytes, size_t length);
