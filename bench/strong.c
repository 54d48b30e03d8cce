// The strong peer: one pass into a local draft, fields straight from two words, each tested once, 64-bit arithmetic but where a product needs more,
// what rests on the header alone worked out once, the root by the processor.
#include "peer.h"
typedef unsigned __int128 u128;
#define likely(x) __builtin_expect(!!(x), 1)
#define unlikely(x) __builtin_expect(!!(x), 0)
static inline uint64_t word(const uint8_t *p) {
    uint64_t w;
    __builtin_memcpy(&w, p, 8);
    return __builtin_bswap64(w);
}
static inline uint32_t half(const uint8_t *p) {
    uint32_t w;
    __builtin_memcpy(&w, p, 4);
    return __builtin_bswap32(w);
}
static inline uint64_t refused(uint64_t n, uint64_t place) { return n << 40 | place; }
static inline int out(uint32_t x, uint32_t lo, uint32_t hi) { return x - lo > hi - lo; }
typedef struct {
    uint64_t length, L2, L2_9, L2_8, draught, wave, below, above, relief, deep, R, inner_R, moment;
} H;
static inline uint64_t most(uint64_t a, uint64_t b) { return a > b ? a : b; }
static inline uint64_t root_up(uint64_t n) { // least x with x*x >= n, n < 2^52
    uint64_t x = (uint64_t)__builtin_sqrt((double)(int64_t)n);
    x -= x * x > n;
    return x + (x * x < n);
}
static inline uint64_t up(uint64_t p, uint64_t a) { return (p + a - 1) / a; }
static inline uint32_t clip(uint64_t x, uint32_t top) { return x > top ? 0 : x < 1 ? 1 : (uint32_t)x; }
static inline uint64_t sea(const H *h, uint64_t z) { return z <= h->draught ? h->below - 98100 * z : h->above; }
// What follows the id where a rule fails; on a pass that is the source alone.
#define V(rule, req) ((rule) << 19 | (req) << 2 | source)

static inline uint32_t plate(const H *h, uint64_t hi, uint64_t lo, uint32_t kind, int *f) {
    uint32_t K = hi >> 40 & 1023, z = hi >> 30 & 1023, S = hi >> 18 & 4095, T = hi >> 6 & 4095, b1 = (hi & 63) << 4 | lo >> 60, b2 = lo >> 50 & 1023;
    uint32_t ballast = lo >> 49 & 1, top = lo >> 38 & 2047, cargo = lo >> 20 & 262143;
    int lengthwise = !(kind & 1);
    uint32_t low = lengthwise ? 0 : 10, high = lengthwise ? 0 : 1000;
    if (unlikely(out(K, 500, 1000))) {
        *f = 3;
        return 0;
    }
    if (unlikely(z > 1000)) {
        *f = 4;
        return 0;
    }
    if (unlikely(out(S, 100, 2000))) {
        *f = 5;
        return 0;
    }
    if (unlikely(out(T, 1, 4000))) {
        *f = 6;
        return 0;
    }
    if (unlikely(out(b1, low, high))) {
        *f = 7;
        return 0;
    }
    if (unlikely(out(b2, low, high))) {
        *f = 8;
        return 0;
    }
    if (unlikely(ballast ? top < z || top > 1200 : top != 0)) {
        *f = 10;
        return 0;
    }
    if (unlikely(cargo > (kind <= 2 ? 0 : 200000))) {
        *f = 11;
        return 0;
    }
    if (unlikely(lo & 1048575)) {
        *f = 12;
        return 0;
    }
    uint64_t P;
    uint32_t source;
    if (kind > 2) {
        P = 1000ull * cargo, source = 3;
        if (ballast) {
            uint64_t t = 98100ull * (top + 100 - z);
            if (t >= P) P = t, source = 2;
        }
    } else {
        P = sea(h, z), source = z > h->draught;
        if (ballast) {
            uint64_t t = 98100ull * (top + 100 - z);
            if (t > P + h->relief) P = t - h->relief, source = 2;
        }
    }
    uint64_t less = (kind == 1 ? 18500 : kind == 2 ? 11000 : 15000) + 36 * (uint64_t)S;
    int64_t X = 100 * (int64_t)T - (int64_t)less;
    uint64_t p = (kind <= 2 ? h->L2_9 : h->L2_8) * K;
    if (X < 0 || (kind <= 2 ? 1000 : 3125) * (uint64_t)(X * X) < p)
        return V(1u, clip((less + root_up(kind <= 2 ? up(p, 1000) : up(p, 3125)) + 99) / 100, 4000));
    uint64_t S2 = (uint64_t)S * S, T2 = (uint64_t)T * T, S2K = S2 * K;
    p = S2K * P;
    if (lengthwise) {
        if (625000000000ull * T2 < 9 * p) return V(2u, clip(root_up(up(9 * p, 625000000000ull)), 4000));
    } else if (39062500000ull * T2 < p) return V(2u, clip(root_up(up(p, 39062500000ull)), 4000));
    uint64_t R = kind <= 2 ? h->R : h->inner_R, K22 = 0, a;
    if (!lengthwise) {
        uint32_t b11 = b1 * b1;
        uint32_t k2 = (uint32_t)(1000ull * (b11 + b2 * b2) / b11);
        if (k2 > 26000) k2 = 26000;
        K22 = (uint64_t)k2 * k2;
    }
    if (kind == 1 ? 1156 * K * (u128)R > 121000000000ull : kind == 2 ? 6084 * K * (u128)R > 625000000000ull : 0) {
        if (R >= 210000) return V(3u, 0u);
        a = lengthwise ? 10 * (210000 - R) : K22 * (210000 - R);
        p = (lengthwise ? 1681 : 504100000ull) * S2K;
        if ((u128)a * T2 < p) return V(3u, clip(root_up(up(p, a)), 4000));
    } else {
        a = lengthwise ? 100000000 : 25 * K22;
        u128 q = (u128)((lengthwise ? 1521 : 1156) * S2) * R;
        if (a * T2 < q) return V(3u, a * 16000000 < q ? 0 : clip(root_up(up((uint64_t)q, a)), 4000));
    }
    return source;
}

static inline uint32_t member(const H *h, uint64_t hi, uint64_t lo, uint32_t kind, int *f) {
    uint32_t z = hi >> 40 & 1023, S = hi >> 28 & 4095, l = hi >> 18 & 1023, T = hi >> 6 & 4095, bb = (hi & 63) << 1 | lo >> 63, bs = lo >> 56 & 127,
             eta = lo >> 49 & 127;
    uint32_t stress = lo >> 41 & 255, W = lo >> 24 & 131071, A = lo >> 10 & 16383, K = lo & 1023;
    int floor = kind == 6 || kind == 7;
    if (unlikely(z > (kind >= 6 ? 0 : 1000))) {
        *f = 3;
        return 0;
    }
    if (unlikely(out(S, 100, 4000))) {
        *f = 4;
        return 0;
    }
    if (unlikely(out(l, 10, 1000))) {
        *f = 5;
        return 0;
    }
    if (unlikely(out(T, 1, 4000))) {
        *f = 6;
        return 0;
    }
    if (unlikely(out(bb, 1, 100))) {
        *f = 7;
        return 0;
    }
    if (unlikely(out(bs, 1, 100))) {
        *f = 8;
        return 0;
    }
    if (unlikely(out(eta, floor ? 100 : 1, 100))) {
        *f = 9;
        return 0;
    }
    if (unlikely(floor && stress)) {
        *f = 10;
        return 0;
    }
    if (unlikely(out(W, 1, 100000))) {
        *f = 11;
        return 0;
    }
    if (unlikely(out(A, 1, 16000))) {
        *f = 12;
        return 0;
    }
    if (unlikely(out(K, 500, 1000))) {
        *f = 13;
        return 0;
    }
    uint32_t source = z > h->draught; // z is 0 in kinds 6 to 8
    uint64_t less = 38000, p = h->L2_8 * K;
    if (kind != 5) {
        int64_t X = 100 * (int64_t)T - 38000;
        if (X < 0 || 3125 * (uint64_t)(X * X) < p) return V(4u, clip((less + root_up(up(p, 3125)) + 99) / 100, 4000));
    } else if (h->length < 12000) {
        less = 16300 + 45 * (uint64_t)S, p = h->L2 * K;
        int64_t X = 100 * (int64_t)T - (int64_t)less;
        if (X < 0 || 6250 * (uint64_t)(X * X) < p) return V(4u, clip((less + root_up(up(p, 6250)) + 99) / 100, 4000));
    } else {
        p = 15210ull * K;
        int64_t X = 10 * (int64_t)T - (int64_t)S;
        if (X < 0 || (uint64_t)(X * X) < p) return V(4u, clip((S + root_up(p) + 9) / 10, 4000));
    }
    uint64_t q = ((kind == 5 ? sea(h, z) : h->deep) * S + 999999) / 1000000, a, ql = q * l;
    if (kind == 5) {
        if (stress >= 214) return V(5u, 0u);
        a = 100000000000ull * (214 - stress), p = ql * l * 833 * (bb * eta);
        if (unlikely((u128)a * W < p)) return V(5u, clip(up(p, a), 100000));
        p = ql * 9 * (bs * eta);
        if (2000000000ull * A < p) return V(6u, clip(up(p, 2000000000ull), 16000));
    } else if (kind == 8) {
        if (stress >= 197) return V(5u, 0u);
        a = 2000000000ull * (197 - stress), p = ql * l * 25 * (bb * eta);
        if (a * W < p) return V(5u, clip(up(p, a), 100000));
        p = ql * 7 * bs;
        if (12500000ull * A < p) return V(6u, clip(up(p, 12500000), 16000));
    } else {
        p = ql * l * 29 * bb;
        if (5000000000ull * W < p) return V(5u, clip(up(p, 5000000000ull), 100000));
        p = ql * 9 * bs;
        if (20000000ull * A < p) return V(6u, clip(up(p, 20000000), 16000));
    }
    return source;
}

uint64_t strong_check(const uint8_t *sheet, uint64_t sheet_len, uint8_t *to, uint64_t out_len) {
    if (sheet_len < 12) return refused(1, 0);
    uint64_t hi = word(sheet);
    uint32_t lo = half(sheet + 8);
    uint64_t version = hi >> 60, own = 0;
    if (version - 1 > 1) return refused(2, 0);
    uint32_t header = version == 1 ? 12 : 20;
    if (version == 2) {
        if (sheet_len < 20) return refused(1, 0);
        own = word(sheet + 12);
    }
    uint64_t L = hi >> 46 & 16383, D = hi >> 36 & 1023, W = hi >> 28 & 255, two = hi >> 27 & 1, M = hi >> 7 & 1048575,
             Z = (hi & 127) << 20 | lo >> 12, ZD = version == 1 ? Z : own >> 37, depth = own >> 27 & 1023, n = lo >> 3 & 511;
    if (out(L, 4000, 13500)) return refused(3, 2);
    if (out(D, 1, 1000)) return refused(3, 3);
    if (W != 0 && W != 60 && W != 120) return refused(3, 4);
    if (M > 1000000) return refused(3, 6);
    if (out(Z, 1, 100000000)) return refused(3, 7);
    if (n > 400) return refused(3, 8);
    if (lo & 7) return refused(3, 9);
    if (version == 2) {
        if (out(ZD, 1, 100000000)) return refused(3, 10);
        if (out(depth, 100, 1000)) return refused(3, 11);
        if (own & 134217727) return refused(3, 12);
        if (W && L > (W == 60 ? 35 : 25) * depth) return refused(9, 0);
    }
    if (sheet_len != header + 16 * n) return refused(4, 0);
    if (out_len < 4 * n) return refused(5, 0);
    H h = {.length = L, .L2 = L * L, .L2_9 = 9 * L * L, .L2_8 = 8 * L * L, .draught = D, .wave = W, .moment = M};
    h.below = 98100 * D + 50031 * W;
    h.above = most(50150 * W, 3000000) + (W == 120 ? 3400 * W : 250000);
    int64_t relief = 14715ll * (int64_t)D - 50031ll * (int64_t)W;
    h.relief = relief < 0 ? 0 : (uint64_t)relief;
    h.deep = (two ? (564075 * D + 9) / 10 : 98100 * D) + 50031 * W;
    h.R = up(1000000 * M, Z);
    h.inner_R = up(1000000 * M, ZD);
    uint32_t draft[400], failed = 0, before = 0;
    for (uint32_t i = 0; i < n; i++) {
        const uint8_t *p = sheet + header + 16 * i;
        uint64_t a = word(p), b = word(p + 8);
        uint32_t kind = a >> 60, id = a >> 50 & 1023, v;
        int f = 0;
        if (unlikely(kind - 1 > 7)) return refused(6, i);
        if (unlikely(out(id, 1, 1000))) return refused(7, 32 * i + 2);
        v = kind <= 4 ? plate(&h, a, b, kind, &f) : member(&h, a, b, kind, &f);
        if (unlikely(f)) return refused(7, 32 * i + (uint32_t)f);
        if (unlikely(id <= before)) return refused(8, i);
        before = id;
        failed += v > 3;
        draft[i] = __builtin_bswap32(id << 22 | v);
    }
    __builtin_memcpy(to, draft, 4 * n);
    return n << 16 | failed;
}
