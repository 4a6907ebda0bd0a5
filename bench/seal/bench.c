// Nanoseconds to seal and open a message, beside the same done with OpenSSL's HMAC and ChaCha20.
#include <openssl/evp.h>
#include <openssl/hmac.h>
#include <stdint.h>
#include <stdio.h>
#include <stdlib.h>
#include <string.h>
#include <time.h>

uint32_t seal_and_open(uint32_t times, size_t size, uint8_t *buffer, size_t buffer_size);

enum { ROUNDS = 40 };
static uint8_t buffer[1100], key[32], client[32], server[32], way[32];
static HMAC_CTX *mac;
static EVP_CIPHER_CTX *cipher;

static double now(void)
{
    struct timespec t;
    clock_gettime(CLOCK_MONOTONIC, &t);
    return t.tv_sec * 1e9 + t.tv_nsec;
}

static void number_bytes(uint64_t n, uint8_t out[8])
{
    for (int i = 0; i < 8; i++)
        out[i] = (uint8_t)(n >> (56 - 8 * i));
}

static void turn(uint64_t n, uint8_t *text, size_t size)
{
    uint8_t head[16] = {0};
    int len;
    number_bytes(n, head + 8);
    if (!EVP_EncryptInit_ex(cipher, NULL, NULL, way, head) || !EVP_EncryptUpdate(cipher, text, &len, text, (int)size))
        abort();
}

static void tag(uint64_t n, const uint8_t *body, size_t size, uint8_t out[32])
{
    static uint8_t first[65];
    uint8_t number[8];
    unsigned len = 32;
    first[0] = 3;
    memcpy(first + 1, client, 32);
    memcpy(first + 33, server, 32);
    number_bytes(n, number);
    if (!HMAC_Init_ex(mac, NULL, 0, NULL, NULL) || !HMAC_Update(mac, first, 65) || !HMAC_Update(mac, number, 8) || !HMAC_Update(mac, body, size) || !HMAC_Final(mac, out, &len))
        abort();
}

static uint32_t with_openssl(uint32_t times, size_t size)
{
    uint8_t t[32];
    for (uint32_t n = 0; n < times; n++) {
        buffer[0] = (uint8_t)(size >> 8);
        buffer[1] = (uint8_t)size;
        turn(n, buffer + 2, size);
        tag(n, buffer, 2 + size, t);
        memcpy(buffer + 2 + size, t, 16);
        tag(n, buffer, 2 + size, t);
        if (CRYPTO_memcmp(buffer + 2 + size, t, 16))
            return n;
        turn(n, buffer + 2, size);
    }
    return times;
}

int main(void)
{
    static const size_t sizes[] = {3, 64, 256, 1024};
    unsigned len = 32;
    uint8_t first[65] = {1};
    memset(key, 1, 32);
    memset(client, 2, 32);
    memset(server, 3, 32);
    memcpy(first + 1, client, 32);
    memcpy(first + 33, server, 32);
    HMAC(EVP_sha256(), key, 32, first, 65, way, &len);
    mac = HMAC_CTX_new();
    cipher = EVP_CIPHER_CTX_new();
    if (!mac || !cipher || !HMAC_Init_ex(mac, key, 32, EVP_sha256(), NULL) || !EVP_EncryptInit_ex(cipher, EVP_chacha20(), NULL, way, NULL))
        return 1;
    for (int i = 0; i < 4; i++) {
        size_t size = sizes[i];
        uint32_t times = (uint32_t)(400000 / (size + 200)) + 1;
        double a = 1e18, b = 1e18;
        for (int r = 0; r < ROUNDS; r++) {
            double start = now();
            if (seal_and_open(times, size, buffer, sizeof buffer) != times)
                return 1;
            double t = (now() - start) / times;
            a = t < a ? t : a;
            start = now();
            if (with_openssl(times, size) != times)
                return 1;
            t = (now() - start) / times;
            b = t < b ? t : b;
        }
        printf("%5zu bytes  ours %7.0f ns  OpenSSL %7.0f ns  ours / OpenSSL %.2f\n", size, a, b, a / b);
    }
    return 0;
}
