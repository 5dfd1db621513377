/* SHA-256 by FIPS 180-4, plain. */
#ifndef SHA256_H
#define SHA256_H

#include <stdint.h>
#include <string.h>

enum { DIGEST = 32 };

struct sha { uint32_t state[8]; uint64_t size; uint8_t rest[64]; };

static const uint32_t SHA_ROUNDS[64] = {
  0x428a2f98, 0x71374491, 0xb5c0fbcf, 0xe9b5dba5, 0x3956c25b, 0x59f111f1, 0x923f82a4, 0xab1c5ed5,
  0xd807aa98, 0x12835b01, 0x243185be, 0x550c7dc3, 0x72be5d74, 0x80deb1fe, 0x9bdc06a7, 0xc19bf174,
  0xe49b69c1, 0xefbe4786, 0x0fc19dc6, 0x240ca1cc, 0x2de92c6f, 0x4a7484aa, 0x5cb0a9dc, 0x76f988da,
  0x983e5152, 0xa831c66d, 0xb00327c8, 0xbf597fc7, 0xc6e00bf3, 0xd5a79147, 0x06ca6351, 0x14292967,
  0x27b70a85, 0x2e1b2138, 0x4d2c6dfc, 0x53380d13, 0x650a7354, 0x766a0abb, 0x81c2c92e, 0x92722c85,
  0xa2bfe8a1, 0xa81a664b, 0xc24b8b70, 0xc76c51a3, 0xd192e819, 0xd6990624, 0xf40e3585, 0x106aa070,
  0x19a4c116, 0x1e376c08, 0x2748774c, 0x34b0bcb5, 0x391c0cb3, 0x4ed8aa4a, 0x5b9cca4f, 0x682e6ff3,
  0x748f82ee, 0x78a5636f, 0x84c87814, 0x8cc70208, 0x90befffa, 0xa4506ceb, 0xbef9a3f7, 0xc67178f2,
};

static inline uint32_t sha_turned(uint32_t x, int by) { return x >> by | x << (32 - by); }

static void sha_block(uint32_t *state, const uint8_t *block) {
  uint32_t w[64], a = state[0], b = state[1], c = state[2], d = state[3];
  uint32_t e = state[4], f = state[5], g = state[6], h = state[7];
  for (int i = 0; i < 16; ++i) {
    const uint8_t *at = block + 4 * i;
    w[i] = (uint32_t)at[0] << 24 | (uint32_t)at[1] << 16 | (uint32_t)at[2] << 8 | at[3];
  }
  for (int i = 16; i < 64; ++i) {
    uint32_t early = w[i - 15], late = w[i - 2];
    w[i] = w[i - 16] + w[i - 7] + (sha_turned(early, 7) ^ sha_turned(early, 18) ^ early >> 3)
         + (sha_turned(late, 17) ^ sha_turned(late, 19) ^ late >> 10);
  }
#define SHA_ROUND(a, b, c, d, e, f, g, h, i) \
  h += (sha_turned(e, 6) ^ sha_turned(e, 11) ^ sha_turned(e, 25)) + ((e & f) ^ (~e & g)) + SHA_ROUNDS[i] + w[i]; \
  d += h; \
  h += (sha_turned(a, 2) ^ sha_turned(a, 13) ^ sha_turned(a, 22)) + ((a & b) ^ (a & c) ^ (b & c));
  for (int i = 0; i < 64; i += 8) {
    SHA_ROUND(a, b, c, d, e, f, g, h, i)
    SHA_ROUND(h, a, b, c, d, e, f, g, i + 1)
    SHA_ROUND(g, h, a, b, c, d, e, f, i + 2)
    SHA_ROUND(f, g, h, a, b, c, d, e, i + 3)
    SHA_ROUND(e, f, g, h, a, b, c, d, i + 4)
    SHA_ROUND(d, e, f, g, h, a, b, c, i + 5)
    SHA_ROUND(c, d, e, f, g, h, a, b, i + 6)
    SHA_ROUND(b, c, d, e, f, g, h, a, i + 7)
  }
#undef SHA_ROUND
  state[0] += a, state[1] += b, state[2] += c, state[3] += d;
  state[4] += e, state[5] += f, state[6] += g, state[7] += h;
}

static void sha_start(struct sha *sha) {
  static const uint32_t START[8] = {
    0x6a09e667, 0xbb67ae85, 0x3c6ef372, 0xa54ff53a, 0x510e527f, 0x9b05688c, 0x1f83d9ab, 0x5be0cd19,
  };
  memcpy(sha->state, START, sizeof START);
  sha->size = 0;
}

static void sha_add(struct sha *sha, const void *bytes, size_t size) {
  const uint8_t *at = bytes;
  size_t had = sha->size % 64;
  sha->size += size;
  if (had && had + size >= 64) {
    memcpy(sha->rest + had, at, 64 - had);
    sha_block(sha->state, sha->rest);
    at += 64 - had, size -= 64 - had, had = 0;
  }
  for (; size >= 64; at += 64, size -= 64) sha_block(sha->state, at);
  memcpy(sha->rest + had, at, size);
}

static void sha_end(struct sha *sha, uint8_t *digest) {
  uint64_t bits = sha->size * 8;
  size_t had = sha->size % 64;
  sha->rest[had++] = 0x80;
  if (had > 56) {
    memset(sha->rest + had, 0, 64 - had);
    sha_block(sha->state, sha->rest);
    had = 0;
  }
  memset(sha->rest + had, 0, 56 - had);
  for (int i = 0; i < 8; ++i) sha->rest[56 + i] = bits >> (56 - 8 * i);
  sha_block(sha->state, sha->rest);
  for (int i = 0; i < DIGEST; ++i) digest[i] = sha->state[i / 4] >> (24 - 8 * (i % 4));
}

static void sha_of(const void *bytes, size_t size, uint8_t *digest) {
  struct sha sha;
  sha_start(&sha);
  sha_add(&sha, bytes, size);
  sha_end(&sha, digest);
}

#endif
