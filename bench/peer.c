// The peer: the same job as the checker's, written in plain C as a good programmer would without proofs: fields taken out of two 64-bit words,
// 128-bit products, and the required number by the printed formula, its root in floating point and then set right by the inequality.
#include "peer.h"

typedef unsigned __int128 u128;

typedef struct {
    uint32_t bytes, length, draught, wave, two_runs, moment, modulus, inner_modulus, depth, count;
} Header;

typedef struct {
    uint32_t kind, id, factor, z, spacing, thickness, b1, b2, ballast, tank_top, cargo;
    uint32_t span, bending, shear, eta, stress, section, area;
} Record;

static uint64_t word(const uint8_t *p) {
    uint64_t w;
    __builtin_memcpy(&w, p, 8);
    return __builtin_bswap64(w);
}

static uint32_t half(const uint8_t *p) {
    uint32_t w;
    __builtin_memcpy(&w, p, 4);
    return __builtin_bswap32(w);
}

static int outside(uint32_t x, uint32_t low, uint32_t high) { return x < low || x > high; }

static uint64_t refused(uint64_t number, uint64_t place) { return number << 40 | place; }

// What version 2 has past the fields of version 1.
static uint64_t read_own(uint64_t own, Header *h) {
    h->inner_modulus = own >> 37;
    h->depth = own >> 27 & 1023;
    if (outside(h->inner_modulus, 1, 100000000)) return refused(3, 10);
    if (outside(h->depth, 100, 1000)) return refused(3, 11);
    return own & 134217727 ? refused(3, 12) : 0;
}

static uint64_t read_header(const uint8_t *s, uint64_t len, Header *h) {
    if (len < 12) return refused(1, 0);
    uint64_t hi = word(s), version = hi >> 60;
    uint32_t lo = half(s + 8);
    if (version != 1 && version != 2) return refused(2, 0);
    h->bytes = version == 1 ? 12 : 20;
    if (len < h->bytes) return refused(1, 0);
    h->length = hi >> 46 & 16383;
    h->draught = hi >> 36 & 1023;
    h->wave = hi >> 28 & 255;
    h->two_runs = hi >> 27 & 1;
    h->moment = hi >> 7 & 1048575;
    h->modulus = (hi & 127) << 20 | lo >> 12;
    h->count = lo >> 3 & 511;
    if (outside(h->length, 4000, 13500)) return refused(3, 2);
    if (outside(h->draught, 1, 1000)) return refused(3, 3);
    if (h->wave != 0 && h->wave != 60 && h->wave != 120) return refused(3, 4);
    if (h->moment > 1000000) return refused(3, 6);
    if (outside(h->modulus, 1, 100000000)) return refused(3, 7);
    if (h->count > 400) return refused(3, 8);
    if (lo & 7) return refused(3, 9);
    h->inner_modulus = h->modulus;
    h->depth = 0;
    return version == 1 ? 0 : read_own(word(s + 12), h);
}

// Longer than so many times the depth, which is 0 where the version has none; in still water any length will do.
static int too_slender(const Header *h) { return h->depth && h->wave && h->length > (h->wave == 60 ? 35 : 25) * h->depth; }

static int plate_fault(const Record *r, uint32_t zero) {
    int lengthwise = r->kind == 2 || r->kind == 4;
    uint32_t low = lengthwise ? 0 : 10, high = lengthwise ? 0 : 1000;
    if (outside(r->id, 1, 1000)) return 2;
    if (outside(r->factor, 500, 1000)) return 3;
    if (r->z > 1000) return 4;
    if (outside(r->spacing, 100, 2000)) return 5;
    if (outside(r->thickness, 1, 4000)) return 6;
    if (outside(r->b1, low, high)) return 7;
    if (outside(r->b2, low, high)) return 8;
    if (r->ballast ? outside(r->tank_top, r->z, 1200) : r->tank_top != 0) return 10;
    if (r->cargo > (r->kind <= 2 ? 0 : 200000)) return 11;
    return zero ? 12 : 0;
}

static int member_fault(const Record *r) {
    int floor = r->kind == 6 || r->kind == 7;
    if (outside(r->id, 1, 1000)) return 2;
    if (r->z > (r->kind >= 6 ? 0 : 1000)) return 3;
    if (outside(r->spacing, 100, 4000)) return 4;
    if (outside(r->span, 10, 1000)) return 5;
    if (outside(r->thickness, 1, 4000)) return 6;
    if (outside(r->bending, 1, 100)) return 7;
    if (outside(r->shear, 1, 100)) return 8;
    if (outside(r->eta, floor ? 100 : 1, 100)) return 9;
    if (floor && r->stress) return 10;
    if (outside(r->section, 1, 100000)) return 11;
    if (outside(r->area, 1, 16000)) return 12;
    return outside(r->factor, 500, 1000) ? 13 : 0;
}

// The first faulty field, kind being 1, or 0.
static int read_record(const uint8_t *p, Record *r) {
    uint64_t hi = word(p), lo = word(p + 8);
    r->kind = hi >> 60;
    r->id = hi >> 50 & 1023;
    if (outside(r->kind, 1, 8)) return 1;
    if (r->kind <= 4) {
        r->factor = hi >> 40 & 1023;
        r->z = hi >> 30 & 1023;
        r->spacing = hi >> 18 & 4095;
        r->thickness = hi >> 6 & 4095;
        r->b1 = (hi & 63) << 4 | lo >> 60;
        r->b2 = lo >> 50 & 1023;
        r->ballast = lo >> 49 & 1;
        r->tank_top = lo >> 38 & 2047;
        r->cargo = lo >> 20 & 262143;
        return plate_fault(r, lo & 1048575);
    }
    r->z = hi >> 40 & 1023;
    r->spacing = hi >> 28 & 4095;
    r->span = hi >> 18 & 1023;
    r->thickness = hi >> 6 & 4095;
    r->bending = (hi & 63) << 1 | lo >> 63;
    r->shear = lo >> 56 & 127;
    r->eta = lo >> 49 & 127;
    r->stress = lo >> 41 & 255;
    r->section = lo >> 24 & 131071;
    r->area = lo >> 10 & 16383;
    r->factor = lo & 1023;
    return member_fault(r);
}

static uint64_t up(u128 p, u128 a) { return (uint64_t)((p + a - 1) / a); }

static uint64_t most(uint64_t a, uint64_t b) { return a > b ? a : b; }

// A pressure and where it comes from, by the verdict's number.
typedef struct {
    uint64_t pressure;
    enum { SEA, SEA_ABOVE, BALLAST, CARGO } source;
} Load;

static Load sea(const Header *h, uint32_t z) {
    if (z <= h->draught) return (Load){98100ull * (h->draught - z) + 50031ull * h->wave, SEA};
    return (Load){most(50150ull * h->wave, 3000000) + (h->wave == 120 ? 3400ull * h->wave : 250000), SEA_ABOVE};
}

static Load plate_load(const Header *h, const Record *r) {
    uint64_t tank = 98100ull * (r->tank_top + 100 - r->z);
    if (r->kind > 2) {
        uint64_t cargo = 1000ull * r->cargo;
        return r->ballast && tank >= cargo ? (Load){tank, BALLAST} : (Load){cargo, CARGO};
    }
    Load load = sea(h, r->z);
    if (!r->ballast) return load;
    int64_t relief = 14715ll * h->draught - 50031ll * h->wave;
    if (relief < 0) relief = 0;
    return (int64_t)tank - relief > (int64_t)load.pressure ? (Load){tank - relief, BALLAST} : load;
}

static Load member_load(const Header *h, const Record *r) {
    if (r->kind == 5) return sea(h, r->z);
    return (Load){(h->two_runs ? (564075ull * h->draught + 9) / 10 : 98100ull * h->draught) + 50031ull * h->wave, SEA};
}

// The least whole number whose square is at least n.
static uint64_t root(u128 n) {
    uint64_t x = (uint64_t)__builtin_sqrt((double)n);
    while ((u128)x * x >= n && x) x--;
    while ((u128)x * x < n) x++;
    return x;
}

// The least T with step·T − short ≥ 0 and a·(step·T − short)² ≥ p, or 0 above the top.
static uint32_t least(uint64_t step, uint64_t less, u128 a, u128 p, uint32_t top) {
    uint64_t x = (less + root((p + a - 1) / a) + step - 1) / step;
    if (x < 1) x = 1;
    return x > top ? 0 : (uint32_t)x;
}

static uint32_t floor_of(u128 a, u128 p, uint32_t top) {
    u128 x = (p + a - 1) / a;
    if (x < 1) x = 1;
    return x > top ? 0 : (uint32_t)x;
}

typedef struct {
    uint32_t rule, required;
} Verdict;

static Verdict judge_plate(const Header *h, const Record *r, uint64_t P) {
    uint64_t kind = r->kind, K = r->factor, S = r->spacing, T = r->thickness, L = h->length;
    uint64_t less = (kind == 1 ? 18500 : kind == 2 ? 11000 : 15000) + 36 * S;
    u128 a = kind <= 2 ? 1000 : 3125, p = (u128)(kind <= 2 ? 9 : 8) * L * L * K;
    int64_t X = 100 * (int64_t)T - (int64_t)less;
    if (X < 0 || a * X * X < p) return (Verdict){1, least(100, less, a, p, 4000)};
    int lengthwise = kind == 2 || kind == 4;
    a = lengthwise ? 625000000000ull : 39062500000ull;
    p = (u128)(lengthwise ? 9 : 1) * S * S * K * P;
    if (a * T * T < p) return (Verdict){2, least(1, 0, a, p, 4000)};
    u128 R = up((u128)1000000 * h->moment, kind <= 2 ? h->modulus : h->inner_modulus), K2 = 0;
    if (!lengthwise) {
        K2 = 1000ull * ((uint64_t)r->b1 * r->b1 + (uint64_t)r->b2 * r->b2) / ((uint64_t)r->b1 * r->b1);
        if (K2 > 26000) K2 = 26000;
    }
    int second = kind == 1 ? 1156 * K * R > 121000000000ull : kind == 2 ? 6084 * K * R > 625000000000ull : 0;
    if (second) {
        if (R >= 210000) return (Verdict){3, 0};
        a = lengthwise ? 10 * (210000 - R) : K2 * K2 * (210000 - R);
        p = lengthwise ? (u128)1681 * S * S * K : (u128)504100000 * S * S * K;
    } else {
        a = lengthwise ? 100000000 : 25 * K2 * K2;
        p = (lengthwise ? 1521 : 1156) * (u128)S * S * R;
    }
    if (a * T * T < p) return (Verdict){3, least(1, 0, a, p, 4000)};
    return (Verdict){0, 0};
}

static Verdict judge_member(const Header *h, const Record *r, uint64_t P) {
    uint64_t kind = r->kind, K = r->factor, S = r->spacing, T = r->thickness, L = h->length, l = r->span;
    uint64_t step = 100, less = 38000;
    u128 a = 3125, p = (u128)8 * L * L * K;
    if (kind == 5 && L < 12000) less = 16300 + 45 * S, a = 6250, p = (u128)L * L * K;
    else if (kind == 5) step = 10, less = S, a = 1, p = 15210 * K;
    int64_t X = (int64_t)(step * T) - (int64_t)less;
    if (X < 0 || a * X * X < p) return (Verdict){4, least(step, less, a, p, 4000)};
    u128 q = (P * S + 999999) / 1000000;
    uint64_t limit = kind == 5 ? 214 : kind == 8 ? 197 : 256;
    if (r->stress >= limit) return (Verdict){5, 0};
    if (kind == 5) a = (u128)100000000000 * (limit - r->stress), p = q * 833 * r->bending * r->eta * l * l;
    else if (kind == 8) a = (u128)2000000000 * (limit - r->stress), p = q * 25 * r->bending * r->eta * l * l;
    else a = 5000000000, p = q * 29 * r->bending * l * l;
    if (a * r->section < p) return (Verdict){5, floor_of(a, p, 100000)};
    if (kind == 5) a = 2000000000, p = q * 9 * r->shear * r->eta * l;
    else if (kind == 8) a = 12500000, p = q * 7 * r->shear * l;
    else a = 20000000, p = q * 9 * r->shear * l;
    if (a * r->area < p) return (Verdict){6, floor_of(a, p, 16000)};
    return (Verdict){0, 0};
}

uint64_t peer_check(const uint8_t *sheet, uint64_t sheet_len, uint8_t *out, uint64_t out_len) {
    Header h;
    uint64_t fault = read_header(sheet, sheet_len, &h);
    if (fault) return fault;
    if (too_slender(&h)) return refused(9, 0);
    if (sheet_len != h.bytes + 16ull * h.count) return refused(4, 0);
    if (out_len < 4ull * h.count) return refused(5, 0);
    const uint8_t *records = sheet + h.bytes;
    Record r = {0};
    for (uint32_t i = 0, before = 0; i < h.count; i++) {
        int f = read_record(records + 16 * i, &r);
        if (f == 1) return refused(6, i);
        if (f) return refused(7, 32 * i + f);
        if (r.id <= before) return refused(8, i);
        before = r.id;
    }
    uint32_t failed = 0;
    for (uint32_t i = 0; i < h.count; i++) {
        read_record(records + 16 * i, &r);
        Load load = r.kind <= 4 ? plate_load(&h, &r) : member_load(&h, &r);
        Verdict v = r.kind <= 4 ? judge_plate(&h, &r, load.pressure) : judge_member(&h, &r, load.pressure);
        uint32_t bits = __builtin_bswap32(r.id << 22 | v.rule << 19 | v.required << 2 | load.source);
        __builtin_memcpy(out + 4 * i, &bits, 4);
        failed += v.rule != 0;
    }
    return (uint64_t)h.count << 16 | failed;
}
