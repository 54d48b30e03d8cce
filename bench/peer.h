// The two peers' checks, with the answer packed as the static library packs it. The compiler's own names stand for <stdint.h>, which is not at hand for every
// target.
#ifndef PEER_H
#define PEER_H

typedef __UINT8_TYPE__ uint8_t;
typedef __UINT32_TYPE__ uint32_t;
typedef __UINT64_TYPE__ uint64_t;
typedef __INT64_TYPE__ int64_t;

typedef uint64_t Check(const uint8_t *sheet, uint64_t sheet_len, uint8_t *out, uint64_t out_len);

Check peer_check, strong_check;

#endif
