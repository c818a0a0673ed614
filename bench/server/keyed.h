/* SHA-512 (FIPS 180-4), HMAC (RFC 2104) and HKDF (RFC 5869) with it, the CDI of a layer, and signatures, in plain C. */
#ifndef KEYED_H
#define KEYED_H

#include <stddef.h>
#include <stdint.h>
#include <string.h>

#define BLOCK 128
#define DIGEST 64
#define CDI 32
#define INPUT 64

static const uint64_t FIRST_STATE[8] = {
  0x6a09e667f3bcc908, 0xbb67ae8584caa73b, 0x3c6ef372fe94f82b, 0xa54ff53a5f1d36f1,
  0x510e527fade682d1, 0x9b05688c2b3e6c1f, 0x1f83d9abfb41bd6b, 0x5be0cd19137e2179,
};

static const uint64_t ROUND_WORDS[80] = {
  0x428a2f98d728ae22, 0x7137449123ef65cd, 0xb5c0fbcfec4d3b2f, 0xe9b5dba58189dbbc, 0x3956c25bf348b538,
  0x59f111f1b605d019, 0x923f82a4af194f9b, 0xab1c5ed5da6d8118, 0xd807aa98a3030242, 0x12835b0145706fbe,
  0x243185be4ee4b28c, 0x550c7dc3d5ffb4e2, 0x72be5d74f27b896f, 0x80deb1fe3b1696b1, 0x9bdc06a725c71235,
  0xc19bf174cf692694, 0xe49b69c19ef14ad2, 0xefbe4786384f25e3, 0x0fc19dc68b8cd5b5, 0x240ca1cc77ac9c65,
  0x2de92c6f592b0275, 0x4a7484aa6ea6e483, 0x5cb0a9dcbd41fbd4, 0x76f988da831153b5, 0x983e5152ee66dfab,
  0xa831c66d2db43210, 0xb00327c898fb213f, 0xbf597fc7beef0ee4, 0xc6e00bf33da88fc2, 0xd5a79147930aa725,
  0x06ca6351e003826f, 0x142929670a0e6e70, 0x27b70a8546d22ffc, 0x2e1b21385c26c926, 0x4d2c6dfc5ac42aed,
  0x53380d139d95b3df, 0x650a73548baf63de, 0x766a0abb3c77b2a8, 0x81c2c92e47edaee6, 0x92722c851482353b,
  0xa2bfe8a14cf10364, 0xa81a664bbc423001, 0xc24b8b70d0f89791, 0xc76c51a30654be30, 0xd192e819d6ef5218,
  0xd69906245565a910, 0xf40e35855771202a, 0x106aa07032bbd1b8, 0x19a4c116b8d2d0c8, 0x1e376c085141ab53,
  0x2748774cdf8eeb99, 0x34b0bcb5e19b48a8, 0x391c0cb3c5c95a63, 0x4ed8aa4ae3418acb, 0x5b9cca4f7763e373,
  0x682e6ff3d6b2b8a3, 0x748f82ee5defb2fc, 0x78a5636f43172f60, 0x84c87814a1f0ab72, 0x8cc702081a6439ec,
  0x90befffa23631e28, 0xa4506cebde82bde9, 0xbef9a3f7b2c67915, 0xc67178f2e372532b, 0xca273eceea26619c,
  0xd186b8c721c0c207, 0xeada7dd6cde0eb1e, 0xf57d4f7fee6ed178, 0x06f067aa72176fba, 0x0a637dc5a2c898a6,
  0x113f9804bef90dae, 0x1b710b35131c471b, 0x28db77f523047d84, 0x32caab7b40c72493, 0x3c9ebe0a15c9bebc,
  0x431d67c49c100d4c, 0x4cc5d4becb3e42b6, 0x597f299cfc657e2a, 0x5fcb6fab3ad6faec, 0x6c44198c4a475817,
};

static inline uint64_t rotated(uint64_t x, unsigned by) { return x >> by | x << (64 - by); }

static inline uint64_t load_big(const uint8_t *bytes) {
  uint64_t word;
  memcpy(&word, bytes, 8);
  return __builtin_bswap64(word);
}

static inline void store_big(uint8_t *bytes, uint64_t word) {
  word = __builtin_bswap64(word);
  memcpy(bytes, &word, 8);
}

/* The standard's functions with nested rotations, which take fewer copies. */
#define BIG_0(x) rotated(x ^ rotated(x ^ rotated(x, 5), 6), 28)
#define BIG_1(x) rotated(x ^ rotated(x ^ rotated(x, 23), 4), 14)
#define SMALL_0(x) (rotated(x ^ rotated(x, 7), 1) ^ x >> 7)
#define SMALL_1(x) (rotated(x ^ rotated(x, 42), 19) ^ x >> 6)

#define AS_IS(w, i) w[i]
#define SPREAD(w, i) (w[i] += SMALL_1(w[(i + 14) & 15]) + w[(i + 9) & 15] + SMALL_0(w[(i + 1) & 15]))

/* One round. `last` is b ^ c, and becomes a ^ b, which the next round takes. */
#define ROUND(a, b, c, d, e, f, g, h, k, word)      \
  do {                                              \
    h += BIG_1(e) + (g ^ (e & (f ^ g))) + k + word; \
    d += h;                                         \
    uint64_t both = a ^ b;                          \
    h += BIG_0(a) + (b ^ (both & last));            \
    last = both;                                    \
  } while (0)

#define EIGHT(i, next)                                     \
  ROUND(a, b, c, d, e, f, g, h, k[i + 0], next(w, i + 0)); \
  ROUND(h, a, b, c, d, e, f, g, k[i + 1], next(w, i + 1)); \
  ROUND(g, h, a, b, c, d, e, f, k[i + 2], next(w, i + 2)); \
  ROUND(f, g, h, a, b, c, d, e, k[i + 3], next(w, i + 3)); \
  ROUND(e, f, g, h, a, b, c, d, k[i + 4], next(w, i + 4)); \
  ROUND(d, e, f, g, h, a, b, c, k[i + 5], next(w, i + 5)); \
  ROUND(c, d, e, f, g, h, a, b, k[i + 6], next(w, i + 6)); \
  ROUND(b, c, d, e, f, g, h, a, k[i + 7], next(w, i + 7))

static void compress(uint64_t state[8], const uint8_t *block) {
  uint64_t w[16];
  for (int i = 0; i < 16; i++) w[i] = load_big(block + 8 * i);
  uint64_t a = state[0], b = state[1], c = state[2], d = state[3];
  uint64_t e = state[4], f = state[5], g = state[6], h = state[7];
  uint64_t last = b ^ c;
  const uint64_t *k = ROUND_WORDS;
  EIGHT(0, AS_IS);
  EIGHT(8, AS_IS);
  for (k += 16; k < ROUND_WORDS + 80; k += 16) {
    EIGHT(0, SPREAD);
    EIGHT(8, SPREAD);
  }
  state[0] += a, state[1] += b, state[2] += c, state[3] += d;
  state[4] += e, state[5] += f, state[6] += g, state[7] += h;
}

/* A message that comes piece by piece. */
struct hash {
  uint64_t state[8];
  uint64_t length;
  uint8_t block[BLOCK];
};

/* The state behind so many bytes, whole blocks. */
static void hash_from(struct hash *hash, const uint64_t state[8], uint64_t length) {
  memcpy(hash->state, state, sizeof hash->state);
  hash->length = length;
}

static void hash_more(struct hash *hash, const void *from, size_t size) {
  const uint8_t *bytes = from;
  while (size > 0) {
    size_t used = hash->length % BLOCK;
    size_t part = size < BLOCK - used ? size : BLOCK - used;
    memcpy(hash->block + used, bytes, part);
    hash->length += part;
    bytes += part;
    size -= part;
    if (used + part == BLOCK) compress(hash->state, hash->block);
  }
}

static void hash_end(struct hash *hash, uint8_t digest[DIGEST]) {
  size_t used = hash->length % BLOCK;
  hash->block[used++] = 0x80;
  if (used > BLOCK - 16) {
    memset(hash->block + used, 0, BLOCK - used);
    compress(hash->state, hash->block);
    used = 0;
  }
  memset(hash->block + used, 0, BLOCK - 8 - used);
  store_big(hash->block + BLOCK - 8, hash->length * 8);
  compress(hash->state, hash->block);
  for (int i = 0; i < 8; i++) store_big(digest + 8 * i, hash->state[i]);
}

/* A key of HMAC: the states behind its two first blocks. */
struct keyed {
  uint64_t inner[8];
  uint64_t outer[8];
};

static void pad_key(uint64_t state[8], const uint8_t key[DIGEST], uint8_t pad) {
  uint8_t block[BLOCK];
  memset(block, pad, BLOCK);
  for (int i = 0; i < DIGEST; i++) block[i] ^= key[i];
  memcpy(state, FIRST_STATE, sizeof FIRST_STATE);
  compress(state, block);
}

static void keyed_from(struct keyed *keyed, const uint8_t key[DIGEST]) {
  pad_key(keyed->inner, key, 0x36);
  pad_key(keyed->outer, key, 0x5c);
}

static void code_end(const struct keyed *keyed, struct hash *inner, uint8_t code[DIGEST]) {
  struct hash outer;
  uint8_t digest[DIGEST];
  hash_end(inner, digest);
  hash_from(&outer, keyed->outer, BLOCK);
  hash_more(&outer, digest, DIGEST);
  hash_end(&outer, code);
}

static void code_of(const struct keyed *keyed, const void *message, size_t size, uint8_t code[DIGEST]) {
  struct hash inner;
  hash_from(&inner, keyed->inner, BLOCK);
  hash_more(&inner, message, size);
  code_end(keyed, &inner, code);
}

/* The signature of a message under a label of at most 64 bytes. `unsalted` is the key of 64 zeros, which is kept. */
static void sign(const struct keyed *unsalted, const uint8_t cdi[CDI], const uint8_t *label, size_t label_size,
                 const uint8_t *message, size_t size, uint8_t signature[DIGEST]) {
  uint8_t key[DIGEST], length = (uint8_t)label_size, one = 1;
  struct keyed keyed;
  struct hash inner;
  code_of(unsalted, cdi, CDI, key);
  keyed_from(&keyed, key);
  hash_from(&inner, keyed.inner, BLOCK);
  hash_more(&inner, "DPE-SIGN", 8);
  hash_more(&inner, &length, 1);
  hash_more(&inner, label, label_size);
  hash_more(&inner, &one, 1);
  code_end(&keyed, &inner, key);
  keyed_from(&keyed, key);
  code_of(&keyed, message, size, signature);
}

/* The inputs of a layer. */
struct layer {
  const uint8_t *code, *config, *authority, *hidden;
  uint8_t mode;
};

/* The attestation CDI of a layer on the one below. */
static void attest_next(const uint8_t now[CDI], const struct layer *layer, uint8_t next[CDI]) {
  uint8_t key[DIGEST];
  struct keyed keyed;
  struct hash hash;
  hash_from(&hash, FIRST_STATE, 0);
  hash_more(&hash, layer->code, INPUT);
  hash_more(&hash, layer->config, INPUT);
  hash_more(&hash, layer->authority, INPUT);
  hash_more(&hash, &layer->mode, 1);
  hash_more(&hash, layer->hidden, INPUT);
  hash_end(&hash, key);
  keyed_from(&keyed, key);
  code_of(&keyed, now, CDI, key);
  keyed_from(&keyed, key);
  code_of(&keyed, "CDI_Attest\1", 11, key);
  memcpy(next, key, CDI);
}

#endif
