/*
 * Writes the record that crates/arith_cases replays: square roots and fused multiply-adds of f32, each
 * result by the C library's sqrtf or fmaf. docs/CASES.md says what the record holds. It was made by
 *
 *   mkdir -p target
 *   cc -std=c11 -O1 -ffp-contract=off -fno-builtin -o target/record tools/record_arith_cases.c -lm
 *   target/record > crates/arith_cases/stdin
 */
#include <math.h>
#include <stdint.h>
#include <stdio.h>
#include <stdlib.h>
#include <string.h>

/* Volatile, so that the compiler calls the library and folds nothing. */
static float (*volatile root)(float) = sqrtf;
static float (*volatile fused)(float, float, float) = fmaf;

#define SIGN 0x80000000u
#define INFINITE 0x7f800000u
#define NOT_A_NUMBER 0x7fc00000u
#define LEADING 0x00800000u
#define COUNT(a) (sizeof(a) / sizeof((a)[0]))

static float of_bits(uint32_t bits)
{
    float x;
    memcpy(&x, &bits, sizeof x);
    return x;
}

/* Every NaN is written as one pattern. */
static uint32_t plain(uint32_t bits)
{
    return (bits & ~SIGN) > INFINITE ? NOT_A_NUMBER : bits;
}

static uint32_t to_bits(float x)
{
    uint32_t bits;
    memcpy(&bits, &x, sizeof bits);
    return plain(bits);
}

/* A fixed sequence of numbers that look random: splitmix64 from a fixed start. */
static uint64_t random_state = 0x686f736972656b61u;

static uint32_t random_bits(void)
{
    uint64_t z = random_state += 0x9e3779b97f4a7c15u;
    z = (z ^ (z >> 30)) * 0xbf58476d1ce4e5b9u;
    z = (z ^ (z >> 27)) * 0x94d049bb133111ebu;
    return (uint32_t)((z ^ (z >> 31)) >> 16);
}

static int random_between(int low, int high)
{
    return low + (int)(random_bits() % (uint32_t)(high - low + 1));
}

static uint32_t random_digits(void)
{
    return random_bits() % LEADING;
}

/* 2 ^ exponent times 1.digits, also where that is subnormal and low digits fall off. */
static uint32_t scaled(int exponent, uint32_t digits)
{
    if (exponent > 127)
        return INFINITE;
    if (exponent >= -126)
        return (uint32_t)(exponent + 127) << 23 | digits;
    if (exponent < -149)
        return 0;
    return (LEADING | digits) >> (-126 - exponent);
}

/* A number of either sign. Each draw has its own statement, since C fixes no order within an expression. */
static uint32_t random_number(int low, int high)
{
    int exponent = random_between(low, high);
    uint32_t digits = random_digits();
    return scaled(exponent, digits) | (random_bits() & SIGN);
}

static uint32_t random_subnormal(void)
{
    uint32_t sign = random_bits() & SIGN;
    uint32_t digits = 1 + random_digits();
    return sign | digits >> random_between(1, 18);
}

/* The pattern some places further from zero, or nearer, and never past zero or infinity. */
static uint32_t moved(uint32_t bits, int places)
{
    int64_t magnitude = (int64_t)(bits & ~SIGN) + places;
    if (magnitude < 0)
        magnitude = 0;
    if (magnitude > (int64_t)INFINITE)
        magnitude = INFINITE;
    return (bits & SIGN) | (uint32_t)magnitude;
}

/* ---- roots */

static uint32_t roots[1 << 15];
static size_t root_count;

static void add_root(uint32_t x)
{
    if (root_count == COUNT(roots))
        abort();
    roots[root_count++] = plain(x);
}

static void add_around(uint32_t x)
{
    for (int d = -2; d <= 2; d++)
        add_root(x + (uint32_t)d);
}

/* The ends of every class with their neighbours, in both signs, and the NaN. */
static void add_classes(void)
{
    static const uint32_t ends[] = {0, 1, 0x007fffff, 0x00800000, 0x7f7fffff, INFINITE};
    for (size_t i = 0; i < COUNT(ends); i++)
        for (int d = -2; d <= 2; d++) {
            add_root(moved(ends[i], d));
            add_root(moved(ends[i], d) | SIGN);
        }
    add_root(NOT_A_NUMBER);
}

/* Every power of two that is normal, with its neighbours, and every one that is subnormal. */
static void add_powers(void)
{
    for (uint32_t field = 1; field <= 255; field++) {
        add_around(field << 23);
        add_root(field << 23 | SIGN);
    }
    for (int k = 0; k < 23; k++)
        for (int d = -1; d <= 1; d++)
            add_root((1u << k) + (uint32_t)d);
}

/* The squares of the odd numbers of twelve digits, with neighbours, at exponents of both parities. */
static void add_squares(void)
{
    static const int exponents[] = {-148, -101, -24, -23, 0, 1, 40, 103};
    for (uint32_t n = 2049; n < 4096; n += 2) {
        uint32_t square = n * n;
        int top = square >= LEADING ? 23 : 22;
        uint32_t digits = (square << (23 - top)) - LEADING;
        uint32_t x = scaled(top + exponents[n / 2 % COUNT(exponents)], digits);
        for (int d = -1; d <= 1; d++)
            add_root(x + (uint32_t)d);
    }
}

/* The numbers whose roots lie nearest to a midpoint of two neighbours, on one side of it. */
#define NEAREST 32

struct nearest {
    double distance[NEAREST];
    uint32_t number[NEAREST];
    int count;
};

static void keep(struct nearest *best, double distance, uint32_t number)
{
    if (best->count == NEAREST && best->distance[NEAREST - 1] <= distance)
        return;
    if (best->count < NEAREST)
        best->count++;
    int i = best->count - 1;
    while (i > 0 && best->distance[i - 1] > distance) {
        best->distance[i] = best->distance[i - 1];
        best->number[i] = best->number[i - 1];
        i--;
    }
    best->distance[i] = distance;
    best->number[i] = number;
}

/*
 * Scales each number by 2 ^ places, so that its root has 24 whole digits, r: with n = r * r + r + d the
 * square of r + 1/2 is missed by (4 * d - 1) / 4, and the sign of that tells the side.
 */
static void search(uint32_t low, uint32_t high, int places, struct nearest *below, struct nearest *above)
{
    uint64_t r = 1u << 22;
    for (uint32_t m = low; m < high; m++) {
        uint64_t n = (uint64_t)m << places;
        while ((r + 1) * (r + 1) <= n)
            r++;
        int64_t d = (int64_t)(n - r * r) - (int64_t)r;
        if (d > 0)
            keep(above, (double)(4 * d - 1) / (double)r, m);
        else
            keep(below, (double)(1 - 4 * d) / (double)r, m);
    }
}

static void add_found(const struct nearest *best, const int *exponents, size_t count)
{
    for (int i = 0; i < best->count; i++)
        for (size_t k = 0; k < count; k++)
            add_root(scaled(exponents[k], best->number[i] - LEADING));
}

static void add_nearest_normal(void)
{
    static const int odd[] = {-125, -1, 127};
    static const int even[] = {-126, 0, 126};
    struct nearest below = {.count = 0}, above = {.count = 0};
    search(LEADING, 2 * LEADING, 23, &below, &above);
    add_found(&below, even, COUNT(even));
    add_found(&above, even, COUNT(even));
    below.count = above.count = 0;
    search(LEADING, 2 * LEADING, 24, &below, &above);
    add_found(&below, odd, COUNT(odd));
    add_found(&above, odd, COUNT(odd));
}

/* The same among the subnormal numbers m * 2 ^ -149, so the places are odd; the scaled root has 24 digits. */
static void add_nearest_subnormal(void)
{
    struct nearest below = {.count = 0}, above = {.count = 0};
    for (int top = 22; top >= 12; top--) {
        int places = 46 - top + (top % 2 == 0 ? 1 : 0);
        search(1u << top, 2u << top, places, &below, &above);
    }
    for (int i = 0; i < below.count; i++)
        add_root(below.number[i]);
    for (int i = 0; i < above.count; i++)
        add_root(above.number[i]);
}

static void add_random_roots(void)
{
    for (int i = 0; i < 400; i++)
        add_root(random_bits() & ~SIGN);
    for (int i = 0; i < 40; i++)
        add_root(random_bits() | SIGN);
    for (int i = 0; i < 100; i++)
        add_root(random_subnormal() & ~SIGN);
}

static int by_pattern(const void *p, const void *q)
{
    uint32_t x = *(const uint32_t *)p, y = *(const uint32_t *)q;
    return (x > y) - (x < y);
}

static void write_roots(void)
{
    size_t kept = 0;
    add_classes();
    add_powers();
    add_squares();
    add_nearest_normal();
    add_nearest_subnormal();
    add_random_roots();
    qsort(roots, root_count, sizeof roots[0], by_pattern);
    for (size_t i = 0; i < root_count; i++)
        if (i == 0 || roots[i] != roots[i - 1])
            roots[kept++] = roots[i];
    printf("roots    %08zu\n", kept);
    for (size_t i = 0; i < kept; i++)
        printf("%08x %08x\n", roots[i], to_bits(root(of_bits(roots[i]))));
}

/* ---- every triple of the patterns */

static const uint32_t patterns[] = {
    /* zero; subnormal: the least two, the middle, the greatest; normal: the least two, and 1.5 times the least */
    0x00000000, 0x80000000, 0x00000001, 0x80000001, 0x00000002, 0x80000002, 0x00400000, 0x80400000, 0x007fffff, 0x807fffff,
    0x00800000, 0x80800000, 0x00800001, 0x80800001, 0x00c00000, 0x80c00000,
    /* 2 ^ -75, whose square is half the least subnormal, and what follows; 2 ^ -24 and 2 ^ -23; a third; a half */
    0x1a000000, 0x1a000001, 0x33800000, 0xb3800000, 0x34000000, 0x3eaaaaab, 0x3f000000, 0xbf000000,
    /* 1 and its neighbours; 1.5, 2 and 3 */
    0x3f7fffff, 0xbf7fffff, 0x3f800000, 0xbf800000, 0x3f800001, 0xbf800001, 0x3fc00000, 0xbfc00000, 0x40000000, 0xc0000000,
    0x40400000, 0xc0400000,
    /* 2 ^ 24 and what goes before; 2 ^ 64; 2 ^ 103, half of the greatest number's last place, and what goes before */
    0x4b7fffff, 0x4b800000, 0x5f800000, 0x72ffffff, 0x73000000,
    /* 2 ^ 127; the greatest two; infinity; the NaN */
    0x7f000000, 0xff000000, 0x7f7ffffe, 0xff7ffffe, 0x7f7fffff, 0xff7fffff, 0x7f800000, 0xff800000, 0x7fc00000,
};

static void write_result(uint32_t a, uint32_t b, uint32_t c, char end)
{
    printf("%08x%c", to_bits(fused(of_bits(a), of_bits(b), of_bits(c))), end);
}

static void write_patterns(void)
{
    size_t n = COUNT(patterns);
    printf("patterns %08zu\n", n);
    for (size_t i = 0; i < n; i++)
        printf("%08x%c", patterns[i], i + 1 < n ? ' ' : '\n');
    for (size_t i = 0; i < n; i++)
        for (size_t j = 0; j < n; j++)
            for (size_t k = 0; k < n; k++)
                write_result(patterns[i], patterns[j], patterns[k], k + 1 < n ? ' ' : '\n');
}

/* ---- chosen triples */

static uint32_t triples[1 << 14][3];
static size_t triple_count;

static void add(uint32_t a, uint32_t b, uint32_t c)
{
    if (triple_count == COUNT(triples))
        abort();
    triples[triple_count][0] = plain(a);
    triples[triple_count][1] = plain(b);
    triples[triple_count][2] = plain(c);
    triple_count++;
}

/* The product of two f32 is exact as a double, so this rounds it once. */
static uint32_t product(uint32_t a, uint32_t b)
{
    return to_bits((float)((double)of_bits(a) * (double)of_bits(b)));
}

/* The exponent of the product. */
static int product_exponent(uint32_t a, uint32_t b)
{
    double p = (double)of_bits(a) * (double)of_bits(b);
    uint64_t bits;
    memcpy(&bits, &p, sizeof bits);
    return (int)(bits >> 52 & 2047) - 1023;
}

/* The addend takes away the rounded product, or misses it by a place or two. */
static void add_cancelled(uint32_t a, uint32_t b)
{
    for (int d = -2; d <= 2; d++)
        add(a, b, moved(product(a, b), d) ^ SIGN);
}

static void add_cancellations(void)
{
    for (int i = 0; i < 80; i++) {
        uint32_t a = random_number(-60, 60);
        add_cancelled(a, random_number(-20, 20));
        int e = random_between(0, 60);
        a = random_number(e, e);
        add_cancelled(a, random_number(126 - e, 127 - e));
        e = random_between(-80, -10);
        a = random_number(e, e);
        add_cancelled(a, random_number(-129 - e, -102 - e));
        a = random_subnormal();
        add_cancelled(a, random_number(-4, 30));
    }
}

/* The product lies some places below the addend, and the addend some places below the product. */
static void add_far(uint32_t a, uint32_t b, int places)
{
    static const uint32_t digits[] = {0, 1, 0x007fffff};
    int e = product_exponent(a, b);
    for (size_t i = 0; i <= COUNT(digits); i++) {
        uint32_t d = i < COUNT(digits) ? digits[i] : random_digits();
        uint32_t above = scaled(e + places, d);
        add(a, b, above);
        add(a, b, above | SIGN);
        if (e - places >= -149) {
            add(a, b, scaled(e - places, d));
            add(a, b, scaled(e - places, d) | SIGN);
        }
    }
}

static void add_distances(void)
{
    static const int places[] = {22, 23, 24, 25, 26, 27, 46, 47, 48, 49, 50, 150};
    for (size_t i = 0; i < COUNT(places); i++) {
        int low = places[i] > 100 ? -40 : -20, high = places[i] > 100 ? -18 : 20;
        for (int k = 0; k < 6; k++) {
            uint32_t a = random_number(low, high), b = random_number(low, high);
            add_far(a, k == 0 ? b & (SIGN | INFINITE) : b, places[i]);
        }
    }
}

/* The number that times n is 1, modulo 2 ^ 24; n is odd. */
static uint32_t inverse(uint32_t n)
{
    uint32_t x = n;
    for (int i = 0; i < 5; i++)
        x *= 2 - n * x;
    return x % (2 * LEADING);
}

/*
 * a and b are odd numbers of 24 digits with a * b = j * 2 ^ 24 + 1 or - 1, and the addend's last place is
 * 2 ^ 25. So for odd j the sum lies a lowest digit above or below a tie, and for even j beside a number.
 */
static void add_sticky_ties(void)
{
    int added = 0;
    while (added < 120) {
        uint32_t a = LEADING | random_digits() | 1;
        uint32_t b = added % 2 ? inverse(a) : 2 * LEADING - inverse(a);
        int e = random_between(-60, 60);
        uint32_t c = scaled(e + 48, random_digits());
        if (b < LEADING)
            continue;
        a = scaled(e + 23 - 10, a - LEADING);
        b = scaled(10 + 23, b - LEADING);
        add(a, b, c);
        add(a, b, moved(c, 1));
        add(a, b, c | SIGN);
        add(a, b, moved(c, 1) | SIGN);
        added++;
    }
}

/* A half of the addend's last place, an odd number of times, exactly and missed by a lowest digit. */
static void add_exact_ties(void)
{
    for (int i = 0; i < 80; i++) {
        int e = random_between(-90, 100);
        uint32_t c = scaled(e, random_digits());
        uint32_t odd = to_bits((float)(2 * random_between(0, 500) + 1));
        uint32_t half = scaled(e - 24, 0);
        add(odd, half, c);
        add(odd, half | SIGN, c);
        add(odd, moved(half, 1), c);
        add(odd, moved(half, -1), c);
        add(0x3f800001, moved(half, -2), c);
        add(0x3f800001, moved(half, -2) | SIGN, c);
    }
}

/* The addend is a half of the exact product's last place; a product of 25 digits is a tie by itself. */
static void add_product_ties(void)
{
    for (int i = 0; i < 60; i++) {
        uint32_t a = to_bits((float)(2 * random_between(1100, 2040) + 1));
        uint32_t b = to_bits((float)(2 * random_between(1100, 2040) + 1));
        uint32_t half = scaled(product_exponent(a, b) - 24, 0);
        uint32_t wide = to_bits((float)(2 * random_between(2400, 4000) + 1));
        for (int d = -1; d <= 1; d++) {
            add(a, b, moved(half, d));
            add(a, b, moved(half, d) | SIGN);
        }
        add(a, wide, 0);
        add(a, wide, SIGN);
        add(a, wide, 1);
        add(a, wide, 1 | SIGN);
        add(a, wide, random_number(-100, -100));
    }
}

/* Products about 2 ^ top, beside addends and about their differences. */
static void add_edge(int top, const uint32_t *addends, size_t count)
{
    uint32_t a = scaled(top / 2, 0), b = scaled(top - top / 2, 0);
    for (size_t i = 0; i < count; i++)
        for (int d = -1; d <= 1; d++)
            for (int f = -2; f <= 2; f++) {
                add(moved(a, d), moved(b, f), addends[i]);
                add(moved(a, d) | SIGN, moved(b, f), addends[i]);
            }
}

static void add_edges(void)
{
    static const uint32_t low[] = {0x00000000, 0x80000000, 0x00000001, 0x00000002, 0x00000003, 0x007ffffe, 0x007fffff, 0x00800000, 0x00800001};
    static const uint32_t high[] = {0x7f7ffffd, 0x7f7ffffe, 0x7f7fffff, 0xff7fffff};
    static const uint32_t past[] = {0x00000000, 0x72800000, 0x73000000, 0x73800000, 0x7f7fffff};
    for (int top = -151; top <= -149; top++)
        add_edge(top, low, COUNT(low));
    add_edge(-126, low, 7);
    for (int top = 102; top <= 104; top++)
        add_edge(top, high, COUNT(high));
    add_edge(128, past, COUNT(past));
}

/* Products that land about the least normal and below it, with nothing or very little added. */
static void add_small_products(void)
{
    static const uint32_t addends[] = {0x00000000, 0x80000000, 0x00000001, 0x80000001};
    for (int i = 0; i < 60; i++) {
        int e = random_between(-100, -25);
        uint32_t a = random_number(e, e);
        uint32_t b = random_number(-151 - e, -126 - e);
        for (size_t k = 0; k < COUNT(addends); k++)
            add(a, b, addends[k]);
    }
}

/* Exact products less themselves, in both orders of sign; and zero products and sums of zeros. */
static void add_zeros(void)
{
    static const uint32_t factors[] = {0x00000000, 0x00000001, 0x00800000, 0x3f800000, 0x7f7fffff};
    for (int i = 0; i < 60; i++) {
        uint32_t a = random_number(-50, 60) & 0x7ffff000;
        uint32_t b = random_number(-50, 60) & 0x7ffff000;
        uint32_t p = product(a, b);
        add(a, b, p | SIGN);
        add(a | SIGN, b, p);
    }
    for (size_t i = 0; i < COUNT(factors); i++)
        for (uint32_t signs = 0; signs < 8; signs++) {
            uint32_t zero = (signs & 1) << 31, other = factors[i] | (signs & 2) << 30, c = (signs & 4) << 29;
            add(zero, other, c);
            add(other, zero, c);
        }
}

static void add_random_triples(void)
{
    for (int i = 0; i < 400; i++) {
        uint32_t a = random_bits(), b = random_bits();
        add(a, b, random_bits());
    }
    for (int i = 0; i < 400; i++) {
        uint32_t a = random_number(-30, 30), b = random_number(-30, 30);
        int e = product_exponent(a, b);
        add(a, b, random_number(e - 30, e + 30));
    }
}

static void write_triples(void)
{
    add_cancellations();
    add_distances();
    add_sticky_ties();
    add_exact_ties();
    add_product_ties();
    add_edges();
    add_small_products();
    add_zeros();
    add_random_triples();
    printf("triples  %08zu\n", triple_count);
    for (size_t i = 0; i < triple_count; i++) {
        const uint32_t *t = triples[i];
        printf("%08x %08x %08x ", t[0], t[1], t[2]);
        write_result(t[0], t[1], t[2], '\n');
    }
}

int main(void)
{
    write_roots();
    write_patterns();
    write_triples();
    return ferror(stdout) || fflush(stdout) ? EXIT_FAILURE : EXIT_SUCCESS;
}
