// Plain C implementations to compare with.
#ifndef PLAIN_H
#define PLAIN_H
#include <stddef.h>
#include <stdint.h>

void plain_sha256(const uint8_t *message, size_t size, uint8_t out[32]);
void plain_hmac(const uint8_t *key, size_t key_size, const uint8_t *message, size_t size, uint8_t out[32]);
void plain_chacha20(const uint8_t key[32], uint32_t counter, const uint8_t nonce[12], uint8_t *text, size_t size);

#endif
