// Times the proved code beside plain C and OpenSSL in one run, and prints ratios (above 1: ours is faster).
#include "plain.h"
#include <stdbool.h>
#include <stdio.h>
#include <stdlib.h>
#include <string.h>
#include <time.h>
#ifdef WITH_OPENSSL
#include <openssl/evp.h>
#include <openssl/hmac.h>
#endif

bool crypto_sha256(const uint8_t *message, size_t size, uint8_t *out, size_t out_size);
bool crypto_hmac(const uint8_t *key, size_t key_size, const uint8_t *message, size_t size, uint8_t *out, size_t out_size);
bool crypto_chacha20(const uint8_t key[32], uint32_t counter, const uint8_t nonce[12], uint8_t *text, size_t size);

enum { MAX = 16384, ROUNDS = 60, BYTES = 512 * 1024 };

static uint8_t text[MAX], key[32], nonce[12], digest[32];

typedef void (*Call)(size_t size);

static void ours_sha256(size_t size) { if (!crypto_sha256(text, size, digest, 32)) abort(); }
static void ours_hmac(size_t size) { if (!crypto_hmac(key, 32, text, size, digest, 32)) abort(); }
static void ours_chacha20(size_t size) { if (!crypto_chacha20(key, 1, nonce, text, size)) abort(); }
static void c_sha256(size_t size) { plain_sha256(text, size, digest); }
static void c_hmac(size_t size) { plain_hmac(key, 32, text, size, digest); }
static void c_chacha20(size_t size) { plain_chacha20(key, 1, nonce, text, size); }

#ifdef WITH_OPENSSL
static EVP_MD_CTX *hash;
static EVP_MD *sha256;
static EVP_CIPHER_CTX *cipher;

static void open_sha256(size_t size)
{
    if (!EVP_DigestInit_ex(hash, sha256, NULL) || !EVP_DigestUpdate(hash, text, size) || !EVP_DigestFinal_ex(hash, digest, NULL))
        abort();
}

static void open_hmac(size_t size)
{
    unsigned n = 32;
    if (!HMAC(sha256, key, 32, text, size, digest, &n))
        abort();
}

static void open_chacha20(size_t size)
{
    uint8_t head[16] = {1};
    int n;
    memcpy(head + 4, nonce, 12);
    if (!EVP_EncryptInit_ex(cipher, EVP_chacha20(), NULL, key, head) || !EVP_EncryptUpdate(cipher, text, &n, text, (int)size))
        abort();
}

static void open_all(void)
{
    hash = EVP_MD_CTX_new();
    sha256 = EVP_MD_fetch(NULL, "SHA256", NULL);
    cipher = EVP_CIPHER_CTX_new();
    if (!hash || !sha256 || !cipher)
        abort();
}
#else
#define open_sha256 NULL
#define open_hmac NULL
#define open_chacha20 NULL
static void open_all(void) {}
#endif

static double now(void)
{
    struct timespec t;
    clock_gettime(CLOCK_MONOTONIC, &t);
    return t.tv_sec + t.tv_nsec * 1e-9;
}

static double seconds(Call call, size_t size)
{
    size_t times = BYTES / (size + 64) + 1;
    double start = now();
    for (size_t i = 0; i < times; i++)
        call(size);
    return (now() - start) / times;
}

// The best of many rounds, in which all take turns.
static void compare(const char *name, size_t size, Call ours, Call plain, Call open)
{
    double a = 1e9, b = 1e9, c = 1e9;
    for (int i = 0; i < ROUNDS; i++) {
        double t = seconds(ours, size);
        a = t < a ? t : a;
        t = seconds(plain, size);
        b = t < b ? t : b;
        if (open) {
            t = seconds(open, size);
            c = t < c ? t : c;
        }
    }
    printf("%-9s %6zu bytes  ours %7.1f MB/s  C %7.1f MB/s  ratio to C %5.2f", name, size, size / a * 1e-6, size / b * 1e-6, b / a);
    if (open)
        printf("  ratio to OpenSSL %5.2f", c / a);
    printf("\n");
}

// Ours and plain C give the same bytes at every length up to 1100.
static void agree(void)
{
    uint8_t a[32], b[32], u[1100], v[1100];
    for (size_t n = 0; n <= sizeof u; n++) {
        crypto_sha256(text, n, a, 32);
        plain_sha256(text, n, b);
        if (memcmp(a, b, 32)) { printf("sha256 differs at %zu\n", n); exit(1); }
        crypto_hmac(text, n, text, n, a, 32);
        plain_hmac(text, n, text, n, b);
        if (memcmp(a, b, 32)) { printf("hmac differs at %zu\n", n); exit(1); }
        memcpy(u, text, n);
        memcpy(v, text, n);
        crypto_chacha20(key, (uint32_t)n, nonce, u, n);
        plain_chacha20(key, (uint32_t)n, nonce, v, n);
        if (memcmp(u, v, n)) { printf("chacha20 differs at %zu\n", n); exit(1); }
    }
}

int main(void)
{
    static const size_t sizes[] = {64, 1024, 16384};
    for (int i = 0; i < MAX; i++)
        text[i] = (uint8_t)(7 * i + 3);
    for (int i = 0; i < 32; i++)
        key[i] = (uint8_t)i;
    agree();
    open_all();
    for (int i = 0; i < 3; i++)
        compare("sha256", sizes[i], ours_sha256, c_sha256, open_sha256);
    for (int i = 0; i < 3; i++)
        compare("hmac", sizes[i], ours_hmac, c_hmac, open_hmac);
    for (int i = 0; i < 3; i++)
        compare("chacha20", sizes[i], ours_chacha20, c_chacha20, open_chacha20);
    return 0;
}
