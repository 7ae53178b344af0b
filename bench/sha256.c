/* Measures the proved SHA-256 beside a plain SHA-256 in portable C, on 1 MiB, and compares their digests. */

#include <stddef.h>
#include <stdint.h>
#include <stdio.h>
#include <stdlib.h>
#include <string.h>
#include <time.h>

/* A slice of the proved library is a pointer and then a length. */
void club_register_sha256(const uint8_t *message, size_t len, uint8_t digest[32]);

static const uint32_t round_constants[64] = {
    0x428a2f98, 0x71374491, 0xb5c0fbcf, 0xe9b5dba5, 0x3956c25b, 0x59f111f1, 0x923f82a4, 0xab1c5ed5,
    0xd807aa98, 0x12835b01, 0x243185be, 0x550c7dc3, 0x72be5d74, 0x80deb1fe, 0x9bdc06a7, 0xc19bf174,
    0xe49b69c1, 0xefbe4786, 0x0fc19dc6, 0x240ca1cc, 0x2de92c6f, 0x4a7484aa, 0x5cb0a9dc, 0x76f988da,
    0x983e5152, 0xa831c66d, 0xb00327c8, 0xbf597fc7, 0xc6e00bf3, 0xd5a79147, 0x06ca6351, 0x14292967,
    0x27b70a85, 0x2e1b2138, 0x4d2c6dfc, 0x53380d13, 0x650a7354, 0x766a0abb, 0x81c2c92e, 0x92722c85,
    0xa2bfe8a1, 0xa81a664b, 0xc24b8b70, 0xc76c51a3, 0xd192e819, 0xd6990624, 0xf40e3585, 0x106aa070,
    0x19a4c116, 0x1e376c08, 0x2748774c, 0x34b0bcb5, 0x391c0cb3, 0x4ed8aa4a, 0x5b9cca4f, 0x682e6ff3,
    0x748f82ee, 0x78a5636f, 0x84c87814, 0x8cc70208, 0x90befffa, 0xa4506ceb, 0xbef9a3f7, 0xc67178f2,
};

static uint32_t rotr(uint32_t x, int k) { return x >> k | x << (32 - k); }

static void compress(uint32_t hash[8], const uint8_t block[64])
{
    uint32_t w[64];
    for (int t = 0; t < 16; t++)
        w[t] = (uint32_t)block[4 * t] << 24 | (uint32_t)block[4 * t + 1] << 16
             | (uint32_t)block[4 * t + 2] << 8 | block[4 * t + 3];
    for (int t = 16; t < 64; t++) {
        uint32_t s0 = rotr(w[t - 15], 7) ^ rotr(w[t - 15], 18) ^ w[t - 15] >> 3;
        uint32_t s1 = rotr(w[t - 2], 17) ^ rotr(w[t - 2], 19) ^ w[t - 2] >> 10;
        w[t] = s1 + w[t - 7] + s0 + w[t - 16];
    }
    uint32_t a = hash[0], b = hash[1], c = hash[2], d = hash[3];
    uint32_t e = hash[4], f = hash[5], g = hash[6], h = hash[7];
    for (int t = 0; t < 64; t++) {
        uint32_t s1 = rotr(e, 6) ^ rotr(e, 11) ^ rotr(e, 25);
        uint32_t s0 = rotr(a, 2) ^ rotr(a, 13) ^ rotr(a, 22);
        uint32_t t1 = h + s1 + ((e & f) ^ (~e & g)) + round_constants[t] + w[t];
        uint32_t t2 = s0 + ((a & b) ^ (a & c) ^ (b & c));
        h = g, g = f, f = e, e = d + t1, d = c, c = b, b = a, a = t1 + t2;
    }
    hash[0] += a, hash[1] += b, hash[2] += c, hash[3] += d;
    hash[4] += e, hash[5] += f, hash[6] += g, hash[7] += h;
}

static void portable_sha256(const uint8_t *message, size_t len, uint8_t digest[32])
{
    uint32_t hash[8] = {
        0x6a09e667, 0xbb67ae85, 0x3c6ef372, 0xa54ff53a, 0x510e527f, 0x9b05688c, 0x1f83d9ab, 0x5be0cd19,
    };
    size_t rest = len % 64, tail = rest < 56 ? 64 : 128;
    uint8_t last[128] = {0};
    uint64_t bits = (uint64_t)len * 8;
    for (size_t at = 0; at + 64 <= len; at += 64)
        compress(hash, message + at);
    memcpy(last, message + len - rest, rest);
    last[rest] = 0x80;
    for (int i = 0; i < 8; i++)
        last[tail - 1 - i] = bits >> 8 * i;
    for (size_t at = 0; at < tail; at += 64)
        compress(hash, last + at);
    for (int i = 0; i < 32; i++)
        digest[i] = hash[i / 4] >> (24 - 8 * (i % 4));
}

static double now(void)
{
    struct timespec t;
    clock_gettime(CLOCK_MONOTONIC, &t);
    return t.tv_sec + t.tv_nsec * 1e-9;
}

enum { MIB = 1 << 20, TURNS = 256, TRIES = 5 };

/* The best of some tries, each of `TURNS` hashes of the message. */
static double mib_per_second(void (*hash)(const uint8_t *, size_t, uint8_t *), const uint8_t *message)
{
    uint8_t digest[32];
    double best = 0;
    for (int i = 0; i < TRIES; i++) {
        double start = now();
        for (int j = 0; j < TURNS; j++)
            hash(message, MIB, digest);
        double speed = TURNS / (now() - start);
        if (speed > best)
            best = speed;
    }
    return best;
}

static int same_digest(const uint8_t *message, size_t len)
{
    uint8_t proved[32], portable[32];
    club_register_sha256(message, len, proved);
    portable_sha256(message, len, portable);
    return memcmp(proved, portable, 32) == 0;
}

int main(void)
{
    uint8_t *message = malloc(MIB);
    if (!message)
        return 1;
    for (size_t i = 0; i < MIB; i++)
        message[i] = (uint8_t)(i * 7 + i / 256);
    for (size_t len = 0; len <= 300; len++)
        if (!same_digest(message, len))
            return printf("the digests differ at %zu bytes\n", len), 1;
    if (!same_digest(message, MIB))
        return printf("the digests differ at 1 MiB\n"), 1;
    printf("digests of 0 to 300 bytes and of 1 MiB: equal\n");
    double proved = mib_per_second(club_register_sha256, message);
    double portable = mib_per_second(portable_sha256, message);
    printf("proved:     %6.1f MiB/s\n", proved);
    printf("portable C: %6.1f MiB/s\n", portable);
    printf("proved / portable C: %.2f\n", proved / portable);
    free(message);
    return 0;
}
