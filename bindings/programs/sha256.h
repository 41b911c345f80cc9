/* SHA-256 (FIPS 180-4, 6.2), of bytes that come in any pieces. */
#ifndef SHA256_H
#define SHA256_H

#include <stddef.h>
#include <stdint.h>

#define SHA256_BYTES 32

struct sha256 {
    uint32_t state[8];
    uint64_t len;       /* how many bytes came */
    uint8_t block[64];  /* those that fill no block yet */
};

void sha256_begin(struct sha256 *hash);
void sha256_add(struct sha256 *hash, const uint8_t *bytes, size_t len);
void sha256_end(struct sha256 *hash, uint8_t digest[SHA256_BYTES]);

#endif
