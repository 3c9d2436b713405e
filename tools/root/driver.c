/* Holds the compiled square root against the processor's own, and calls it over and over so that its instructions can be counted.
 * The proof is about the source; this is the check that what the compiler made of it has the same bits. `tools/root-hardware` runs it. */
#include <inttypes.h>
#include <math.h>
#include <stdint.h>
#include <stdio.h>
#include <stdlib.h>
#include <string.h>

double fodder_sqrt(double);

#define FRACTION ((UINT64_C(1) << 52) - 1)
#define INFINITE (UINT64_C(2047) << 52)

static uint64_t state;

/* splitmix64: the whole run follows from the seed. */
static uint64_t any(void) {
    uint64_t z = (state += UINT64_C(0x9e3779b97f4a7c15));
    z = (z ^ (z >> 30)) * UINT64_C(0xbf58476d1ce4e5b9);
    z = (z ^ (z >> 27)) * UINT64_C(0x94d049bb133111eb);
    return z ^ (z >> 31);
}

static uint64_t below(uint64_t n) { return any() % n; }

static double value(uint64_t bits) {
    double x;
    memcpy(&x, &bits, sizeof x);
    return x;
}

static uint64_t pattern(double x) {
    uint64_t bits;
    memcpy(&bits, &x, sizeof bits);
    return bits;
}

static int is_nan(uint64_t bits) { return (bits & ~(UINT64_C(1) << 63)) > INFINITE; }

static uint64_t anything(void) { return any(); }

static uint64_t subnormal(void) { return below(UINT64_C(1) << (1 + below(52))); }

static uint64_t near_power(void) { return ((1 + below(2046)) << 52) + below(17) - 8; }

/* The square of a whole number below 2^26.5 is held exactly; by 4^k it stays a square. There the last digit of the root that is not
 * zero takes all that is left over; a unit below, it must not be taken. */
static uint64_t near_square(void) {
    uint64_t q = 1 + below(94906264);
    uint64_t square = pattern((double)(q * q));
    uint64_t field = square >> 52;
    uint64_t parity = 2 - field % 2;
    field = parity + 2 * below(1023);
    return (field << 52) + (square & FRACTION) + below(5) - 2;
}

/* 1074 is even, so that a subnormal is a square where its pattern is. */
static uint64_t near_low_square(void) {
    uint64_t q = 1 + below(67108863);
    return q * q + below(3) - 1;
}

/* The hardest to round: q + 1/2 all but a root. v * 2^52 = q^2 + q - c, c small and even, is solved for q modulo 2^52 from either
 * root modulo 2 (the derivative 2q + 1 is odd, so each step of Newton's doubles the digits that are right). */
static uint64_t near_half(void) {
    for (;;) {
        uint64_t c = 2 * (below(64) - 32), q = below(2);
        for (int turn = 0; turn < 6; turn++) {
            uint64_t d = 2 * q + 1, inverse = d;
            for (int i = 0; i < 5; i++)
                inverse *= 2 - d * inverse;
            q -= (q * q + q - c) * inverse;
        }
        q = (q & FRACTION) + FRACTION + 1;
        unsigned __int128 s = (unsigned __int128)q * q + q;
        uint64_t v = (uint64_t)((s - (__int128)(int64_t)c) >> 52);
        if (v >> 53 == 0)
            return ((1 + 2 * below(1023)) << 52) + (v & FRACTION);
        if (v % 2 == 0 && v >> 54 == 0)
            return ((2 + 2 * below(1023)) << 52) + (v / 2 & FRACTION);
    }
}

static const uint64_t special[] = {
    0, UINT64_C(1) << 63, 1, UINT64_C(0x8000000000000001), 2, 3, 4, FRACTION, FRACTION + 1, FRACTION + 2,
    UINT64_C(0x3fefffffffffffff), UINT64_C(0x3ff0000000000000), UINT64_C(0x3ff0000000000001), UINT64_C(0xbff0000000000000),
    UINT64_C(0x3fd0000000000000), UINT64_C(0x3fcfffffffffffff), UINT64_C(0x3fdfffffffffffff), UINT64_C(0x3fe0000000000000),
    UINT64_C(0x3fd9000000000000), UINT64_C(0x7fefffffffffffff), UINT64_C(0xffefffffffffffff), INFINITE,
    UINT64_C(0xfff0000000000000), UINT64_C(0x7ff0000000000001), UINT64_C(0x7ff8000000000000), UINT64_C(0x7fffffffffffffff),
    UINT64_C(0xfff0000000000001), UINT64_C(0xfff8000000000000), UINT64_C(0xffffffffffffffff)};

#define SPECIALS (sizeof special / sizeof special[0])

/* Every field of a normal number, so both parities, with the first two and the last two fractions: the ends of v's range. */
#define ENDS (UINT64_C(2046) * 4)

static uint64_t end(uint64_t i) {
    static const uint64_t fraction[] = {0, 1, FRACTION - 1, FRACTION};
    return ((1 + i / 4) << 52) + fraction[i % 4];
}

/* What is tried before anything by chance: the special values, every subnormal power of two, the ends. */
#define POWERS 52
#define FIXED (SPECIALS + POWERS + ENDS)

static uint64_t fixed(uint64_t i) {
    if (i < SPECIALS)
        return special[i];
    if (i < SPECIALS + POWERS)
        return UINT64_C(1) << (i - SPECIALS);
    return end(i - SPECIALS - POWERS);
}

static const struct {
    const char *name;
    uint64_t (*next)(void);
} family[] = {{"any pattern", anything},           {"subnormal", subnormal},
              {"near a power of two", near_power}, {"near a square", near_square},
              {"near q + 1/2", near_half},         {"near a subnormal square", near_low_square}};

#define FAMILIES (sizeof family / sizeof family[0])

/* 01: all NaNs count as one value. */
static int same(uint64_t a, uint64_t b) { return a == b || (is_nan(a) && is_nan(b)); }

static int differs(uint64_t bits, uint64_t shown) {
    double x = value(bits);
    uint64_t want = pattern(sqrt(x));
    uint64_t ours = pattern(fodder_sqrt(x));
    if (same(ours, want))
        return 0;
    if (shown < 10)
        printf("%016" PRIX64 ": processor %016" PRIX64 ", sqrt %016" PRIX64 "\n", bits, want, ours);
    return 1;
}

static int compare(uint64_t count, uint64_t seed) {
    uint64_t wrong = 0, done[FAMILIES] = {0};
    state = seed;
    for (uint64_t i = 0; i < count; i++) {
        if (i < FIXED) {
            wrong += differs(fixed(i), wrong);
        } else {
            wrong += differs(family[i % FAMILIES].next(), wrong);
            done[i % FAMILIES]++;
        }
    }
    for (size_t f = 0; f < FAMILIES; f++)
        printf("%s: %" PRIu64 "\n", family[f].name, done[f]);
    printf("special values, subnormal powers of two, ends of the range: %" PRIu64 "\n", count < FIXED ? count : (uint64_t)FIXED);
    printf("%" PRIu64 " compared, %" PRIu64 " differ\n", count, wrong);
    return wrong != 0;
}

/* What a call costs when nothing is worked out: taken off the counts of the others. */
static __attribute__((noinline)) double nothing(double x) {
    __asm__ volatile("" : "+x"(x));
    return x;
}

static int call(const char *name, uint64_t bits, uint64_t times) {
    double (*volatile chosen)(double) = nothing;
    volatile double x = value(bits), kept;
    if (strcmp(name, "sqrt") == 0)
        chosen = fodder_sqrt;
    for (uint64_t i = 0; i < times; i++)
        kept = chosen(x);
    (void)kept;
    return 0;
}

int main(int argc, char **argv) {
    if (argc == 4 && strcmp(argv[1], "compare") == 0)
        return compare(strtoull(argv[2], NULL, 10), strtoull(argv[3], NULL, 10));
    if (argc == 5 && strcmp(argv[1], "call") == 0)
        return call(argv[2], strtoull(argv[3], NULL, 16), strtoull(argv[4], NULL, 10));
    fprintf(stderr, "driver compare COUNT SEED | driver call sqrt|nothing PATTERN TIMES\n");
    return 2;
}
