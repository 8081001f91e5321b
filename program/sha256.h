/* SHA-256 (FIPS 180-4) of bytes that stand in memory, as 64 hex digits. Tried against sha256sum by tests/cli.sh. */
#ifndef SHA256_H
#define SHA256_H

#include <stddef.h>
#include <stdint.h>
#include <string.h>

enum { SHA256_DIGITS = 64, SHA256_BLOCK = 64 };

static uint32_t sha256_turn(uint32_t word, int places) { return word >> places | word << (32 - places); }

/* One block's sixteen words are drawn out to sixty-four, and each stirs the eight words of the state. */
static void sha256_block(uint32_t state[8], const uint8_t *block) {
    static const uint32_t roots[64] = { /* of the first 64 primes the cube roots' fractions, 32 bits of each */
        0x428a2f98, 0x71374491, 0xb5c0fbcf, 0xe9b5dba5, 0x3956c25b, 0x59f111f1, 0x923f82a4, 0xab1c5ed5,
        0xd807aa98, 0x12835b01, 0x243185be, 0x550c7dc3, 0x72be5d74, 0x80deb1fe, 0x9bdc06a7, 0xc19bf174,
        0xe49b69c1, 0xefbe4786, 0x0fc19dc6, 0x240ca1cc, 0x2de92c6f, 0x4a7484aa, 0x5cb0a9dc, 0x76f988da,
        0x983e5152, 0xa831c66d, 0xb00327c8, 0xbf597fc7, 0xc6e00bf3, 0xd5a79147, 0x06ca6351, 0x14292967,
        0x27b70a85, 0x2e1b2138, 0x4d2c6dfc, 0x53380d13, 0x650a7354, 0x766a0abb, 0x81c2c92e, 0x92722c85,
        0xa2bfe8a1, 0xa81a664b, 0xc24b8b70, 0xc76c51a3, 0xd192e819, 0xd6990624, 0xf40e3585, 0x106aa070,
        0x19a4c116, 0x1e376c08, 0x2748774c, 0x34b0bcb5, 0x391c0cb3, 0x4ed8aa4a, 0x5b9cca4f, 0x682e6ff3,
        0x748f82ee, 0x78a5636f, 0x84c87814, 0x8cc70208, 0x90befffa, 0xa4506ceb, 0xbef9a3f7, 0xc67178f2,
    };
    uint32_t w[64], s[8];
    memcpy(s, state, sizeof s);
    for (int i = 0; i < 64; i++) {
        if (i < 16) {
            const uint8_t *b = block + 4 * i;
            w[i] = (uint32_t)b[0] << 24 | (uint32_t)b[1] << 16 | (uint32_t)b[2] << 8 | b[3];
        } else {
            uint32_t near = w[i - 2], far = w[i - 15];
            w[i] = w[i - 16] + (sha256_turn(far, 7) ^ sha256_turn(far, 18) ^ far >> 3) + w[i - 7] +
                   (sha256_turn(near, 17) ^ sha256_turn(near, 19) ^ near >> 10);
        }
        uint32_t choice = (s[4] & s[5]) ^ (~s[4] & s[6]), majority = (s[0] & s[1]) ^ (s[0] & s[2]) ^ (s[1] & s[2]);
        uint32_t one = s[7] + choice + roots[i] + w[i];
        uint32_t two = (sha256_turn(s[0], 2) ^ sha256_turn(s[0], 13) ^ sha256_turn(s[0], 22)) + majority;
        one += sha256_turn(s[4], 6) ^ sha256_turn(s[4], 11) ^ sha256_turn(s[4], 25);
        memmove(s + 1, s, 7 * sizeof *s);
        s[4] += one;
        s[0] = one + two;
    }
    for (int i = 0; i < 8; i++) state[i] += s[i];
}

/* The bytes, a bit 1, zeros, and the count of bits in the last eight bytes fill whole blocks. */
static void sha256(const uint8_t *bytes, size_t n, uint8_t digits[SHA256_DIGITS]) {
    uint32_t state[8] = { /* of the first eight primes the square roots' fractions */
        0x6a09e667, 0xbb67ae85, 0x3c6ef372, 0xa54ff53a, 0x510e527f, 0x9b05688c, 0x1f83d9ab, 0x5be0cd19,
    };
    uint8_t last[2 * SHA256_BLOCK] = {0};
    size_t whole = n / SHA256_BLOCK * SHA256_BLOCK, left = n - whole;
    size_t end = left + 1 + 8 <= SHA256_BLOCK ? SHA256_BLOCK : 2 * SHA256_BLOCK;
    for (size_t at = 0; at < whole; at += SHA256_BLOCK) sha256_block(state, bytes + at);
    if (left > 0) memcpy(last, bytes + whole, left);
    last[left] = 0x80;
    for (size_t i = 0; i < 8; i++) last[end - 1 - i] = (uint8_t)((uint64_t)n * 8 >> 8 * i);
    for (size_t at = 0; at < end; at += SHA256_BLOCK) sha256_block(state, last + at);
    for (size_t i = 0; i < SHA256_DIGITS; i++) {
        digits[i] = (uint8_t)"0123456789abcdef"[state[i / 8] >> (28 - i % 8 * 4) & 15];
    }
}

#endif
