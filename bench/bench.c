// The checker, through the static library, beside the two peers: the same sheets, in one binary, in alternating runs; medians of the processor's time, so
// that a busy machine does not show. On an emulator a time means nothing by itself, so that the figure is the ratio.
//
//     bench                     the table
//     bench WHO MIX CALLS       so many calls of one of them (0 the checker, 1 the peer, 2 the strong peer) on a full sheet, for counting instructions
#include "peer.h"

int printf(const char *format, ...);
struct timespec {
    long tv_sec, tv_nsec;
};
int clock_gettime(int clock, struct timespec *now);

Check yard_check;

enum { MOST = 400, RUNS = 15, SIZE = 20 + 16 * MOST };

// who is timed, in the table's order
static Check *const checks[] = {yard_check, peer_check, strong_check};

enum { WHO = 3 };

// ---- sheets

static void put(uint8_t *to, unsigned *at, uint64_t value, unsigned width) {
    for (unsigned i = width; i-- > 0; ++*at)
        if (value >> i & 1) to[*at / 8] |= 128 >> *at % 8;
}

// Writes the header, and gives how many bytes it takes.
static unsigned header(uint8_t *s, unsigned version, unsigned n) {
    const uint64_t fields[][2] = {{version, 4}, {8000, 14}, {250, 10}, {60, 8}, {0, 1}, {20000, 20}, {200000, 27}, {n, 9}, {0, 3}, {210000, 27}, {300, 10}};
    unsigned at = 0, count = version == 1 ? 9 : 11;
    for (unsigned i = 0; i < SIZE; i++) s[i] = 0;
    for (unsigned i = 0; i < count; i++) put(s, &at, fields[i][0], (unsigned)fields[i][1]);
    return version == 1 ? 12 : 20;
}

// The tank top is 0 where there is no ballast.
static void plate(uint8_t *p, unsigned id, unsigned kind, unsigned z, unsigned thickness, unsigned tank_top) {
    unsigned across = kind % 2, cargo = kind > 2 ? 30000 : 0;
    uint64_t fields[][2] = {{kind, 4}, {id, 10}, {1000, 10}, {z, 10}, {500, 12}, {thickness, 12}, {across * 250, 10}, {across * 50, 10}, {tank_top > 0, 1}, {tank_top, 11}, {cargo, 18}};
    unsigned at = 0;
    for (unsigned i = 0; i < 11; i++) put(p, &at, fields[i][0], (unsigned)fields[i][1]);
}

static void member(uint8_t *p, unsigned id, unsigned kind, unsigned thickness, unsigned modulus, unsigned area) {
    unsigned floor = kind == 6 || kind == 7;
    uint64_t fields[][2] = {{kind, 4}, {id, 10}, {0, 10}, {500, 12}, {300, 10}, {thickness, 12}, {100, 7}, {100, 7}, {floor ? 100 : 90, 7}, {floor ? 0 : 50, 8}, {modulus, 17}, {area, 14}, {1000, 10}};
    unsigned at = 0;
    for (unsigned i = 0; i < 13; i++) put(p, &at, fields[i][0], (unsigned)fields[i][1]);
}

enum Mix { ALL_PASS, LAST_RULE, ALL_SORTS };

// A sheet of n records, every kind in turn.
static uint64_t sheet(uint8_t *s, unsigned version, unsigned n, enum Mix mix) {
    unsigned before = header(s, version, n);
    for (unsigned i = 0; i < n; i++) {
        uint8_t *p = s + before + 16 * i;
        unsigned kind = i % 8 + 1, id = 2 * i + 1;
        unsigned step = mix == ALL_PASS ? 3 : mix == LAST_RULE ? 2 : i / 8 % 4;
        // by step: the first rule fails, the second, the last, none
        static const unsigned plates[] = {300, 520, 615, 4000}, moduli[] = {1, 1, 60000, 60000}, areas[] = {1, 1, 10, 9000};
        // among all sorts some plates are above the draught and some under ballast, so that each load decides somewhere
        unsigned turn = mix == ALL_SORTS ? i / 32 % 3 : 0;
        if (kind <= 4) plate(p, id, kind, turn == 1 ? 300 : 0, plates[step], turn == 2 ? 400 : 0);
        else member(p, id, kind, step == 0 ? 100 : 600, moduli[step], areas[step]);
    }
    return before + 16 * (uint64_t)n;
}

// ---- time

// The processor's time of this process.
static double now(void) {
    struct timespec t;
    clock_gettime(2, &t);
    return (double)t.tv_sec * 1e9 + (double)t.tv_nsec;
}

static uint8_t given[SIZE], out[WHO][4 * MOST];
static volatile uint64_t kept;

static double timed(Check *check, uint64_t size, uint8_t *to, unsigned calls) {
    double start = now();
    for (unsigned i = 0; i < calls; i++) kept = check(given, size, to, 4 * MOST);
    return (now() - start) / calls;
}

static double median(double *x) {
    for (unsigned i = 1; i < RUNS; i++)
        for (unsigned j = i; j > 0 && x[j] < x[j - 1]; j--) {
            double t = x[j];
            x[j] = x[j - 1], x[j - 1] = t;
        }
    return x[RUNS / 2];
}

// Whether one of the peers answers or writes otherwise than the checker.
static int differ(uint64_t size, unsigned n) {
    uint64_t answers[WHO];
    int found = 0;
    for (unsigned w = 0; w < WHO; w++) answers[w] = checks[w](given, size, out[w], 4 * MOST);
    for (unsigned w = 1; w < WHO; w++) {
        found |= answers[w] != answers[0];
        for (unsigned i = 0; i < 4 * n; i++) found |= out[w][i] != out[0][i];
    }
    return found;
}

// One row of the table; 1 where they do not agree.
static int row(const char *name, unsigned version, unsigned n, enum Mix mix) {
    uint64_t size = sheet(given, version, n, mix);
    double times[WHO][RUNS], middle[WHO];
    unsigned calls = 40000 / (n + 4);
    int bad = differ(size, n);
    for (unsigned i = 0; i < RUNS; i++)
        for (unsigned w = 0; w < WHO; w++) times[w][i] = timed(checks[w], size, out[w], calls);
    for (unsigned w = 0; w < WHO; w++) middle[w] = median(times[w]);
    unsigned failed = (unsigned)(checks[0](given, size, out[0], 4 * MOST) & 65535);
    printf("%-26s %4u %7u %9.0f ns %9.0f ns %9.0f ns %8.2f %8.2f%s\n", name, n, failed, middle[0], middle[1], middle[2], middle[0] / middle[1],
           middle[0] / middle[2], bad ? "  THEY DIFFER" : "");
    return bad;
}

static int table(void) {
    int bad = 0;
    printf("%-26s %4s %7s %12s %12s %12s %8s %8s\n", "sheet", "n", "failed", "checker", "peer", "strong peer", "/ peer", "/ strong");
    bad |= row("all pass", 1, MOST, ALL_PASS);
    bad |= row("all fail at the last rule", 1, MOST, LAST_RULE);
    bad |= row("all sorts", 1, MOST, ALL_SORTS);
    bad |= row("all sorts, version 2", 2, MOST, ALL_SORTS);
    static const unsigned sizes[] = {1, 10, 100, 400};
    for (unsigned i = 0; i < 4; i++) bad |= row(i ? "" : "how the cost grows", 1, sizes[i], ALL_SORTS);
    return bad;
}

int main(int count, char **words) {
    if (count != 4) return table();
    uint64_t size = sheet(given, 1, MOST, (enum Mix)(words[2][0] - '0'));
    timed(checks[words[1][0] - '0'], size, out[0], (unsigned)(words[3][0] - '0'));
    return 0;
}
