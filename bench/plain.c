/* Plain C of the whole-number definitions of documents 01 and 02: direct, N × M sums, and folded by equation (41) of source 003; the short route and
 * the double route, with the sums of their parts folded too. */
#include "lengths.h"
#include "plain.h"
#include <math.h>

#ifndef VARIANT
#define VARIANT plain_o3
#endif
#define JOIN(a, b) a##_##b
#define NAMED(a, b) JOIN(a, b)
#define PLAIN(name) NAMED(VARIANT, name)

#define INLINE static inline __attribute__((always_inline))

/* For each length, the window W(n) of two long joints and behind it that of two short ones, the kernel K(n,k) by rows of n and by rows of k, and
 * the folded kernel F(j,k) = C(d(2j+1)(2k+1)), which is symmetric. */
struct tables {
    int32_t *windows, *kernel, *turned, *folded;
};

#define TABLES(n, ...)                                                                                      \
    static int32_t windows_##n[2 * n], kernel_##n[n * n / 2], turned_##n[n * n / 2], folded_##n[n * n / 4]; \
    static const struct tables tables_##n = {windows_##n, kernel_##n, turned_##n, folded_##n};
EACH_LENGTH(TABLES, )

/* For each length that is split, what stands beside e and f in rB and, with its sign, in rC, and the folded kernel of its three parts. */
struct split {
    int32_t *eb, *fb, *ec, *fc, *folded;
};

#define EACH_SPLIT(DO) DO(12) DO(24) DO(36) DO(72)
#define SPLIT_TABLES(n)                                                                                     \
    static int32_t eb_##n[n / 3], fb_##n[n / 3], ec_##n[n / 3], fc_##n[n / 3], parts_##n[n * n / 36];       \
    static const struct split split_##n = {eb_##n, fb_##n, ec_##n, fc_##n, parts_##n};
EACH_SPLIT(SPLIT_TABLES)

static int32_t cosine(long t)
{
    t %= 864;
    return (int32_t)lround(67108864 * cos(6.283185307179586 * (double)t / 864));
}

/* entry i of a short joint's rising half: a third of zeros, a third that rises, a third of ones */
static int32_t short_rise(long i, long third)
{
    return i < third ? 0 : i < 2 * third ? cosine(216 - 108 / third * (2 * (i - third) + 1)) : 67108864;
}

static void fill(const struct tables *t, long n)
{
    long m = n / 2, d = 216 / n;
    for (long i = 0; i < n; i++) {
        t->windows[i] = cosine(d * (n - 2 * i - 1));
        t->windows[n + i] = short_rise(i < m ? i : n - 1 - i, m / 3);
    }
    for (long i = 0; i < n; i++)
        for (long k = 0; k < m; k++)
            t->turned[k * n + i] = t->kernel[i * m + k] = cosine(d * (2 * i + 1 + m) * (2 * k + 1));
    for (long j = 0; j < m; j++)
        for (long k = 0; k < m; k++)
            t->folded[j * m + k] = cosine(d * (2 * j + 1) * (2 * k + 1));
}

static void fill_split(const struct split *t, long n)
{
    long d = 216 / n, sixth = n / 6;
    for (long i = 0; i < n / 3; i++) {
        long s = 2 * d * (2 * i + 1);
        int sign = (i + n / 12) % 2 == 0 ? -1 : 1;
        t->eb[i] = cosine(216 - s);
        t->fb[i] = -(cosine(s - 72) + cosine(s + 72));
        t->ec[i] = sign * cosine(s);
        t->fc[i] = sign * (cosine(144 - s) + cosine(288 - s));
    }
    for (long j = 0; j < sixth; j++)
        for (long k = 0; k < sixth; k++)
            t->folded[j * sixth + k] = cosine(3 * d * (2 * j + 1) * (2 * k + 1));
}

void PLAIN(init)(void)
{
#define FILL(n, ...) fill(&tables_##n, n);
    EACH_LENGTH(FILL, )
#define FILL_SPLIT(n) fill_split(&split_##n, n);
    EACH_SPLIT(FILL_SPLIT)
}

/* rnd(a / 2^k), an exact half going away from zero: a right shift of a negative number is arithmetic in gcc. */
INLINE int64_t rnd(int64_t a, int k)
{
    return (a + (a >> 63) + ((int64_t)1 << (k - 1))) >> k;
}

/* rnd((a) / (n × 2^30)), clamped to a sample: the shift first, then a floored division by n. */
INLINE int16_t sample(int64_t a, int64_t n)
{
    int64_t b = (a + (a >> 63) + (n << 29)) >> 30;
    int64_t q = b / n;
    q -= b % n < 0;
    return (int16_t)(q < -32768 ? -32768 : q > 32767 ? 32767 : q);
}

/* each half of a block by the window of its joint's shape */
INLINE void windowed(const struct tables *t, size_t n, uint32_t left, uint32_t right, const int16_t *x, int32_t *y)
{
    const int32_t *rising = t->windows + left * n, *falling = t->windows + right * n;
    for (size_t i = 0; i < n / 2; i++)
        y[i] = (int32_t)rnd((int64_t)rising[i] * x[i], 18);
    for (size_t i = n / 2; i < n; i++)
        y[i] = (int32_t)rnd((int64_t)falling[i] * x[i], 18);
}

/* s(c) = the sum over r of z(r) × rows(r,c). The order of the loops is the one that gcc makes faster code of: short sums one by one, long ones side
 * by side. */
INLINE void sums(const int32_t *rows, size_t count, size_t width, const int32_t *z, int64_t *s)
{
    if (count <= 12) {
        for (size_t c = 0; c < width; c++) {
            int64_t sum = 0;
            for (size_t r = 0; r < count; r++)
                sum += (int64_t)z[r] * rows[r * width + c];
            s[c] = sum;
        }
    } else {
        int64_t sum[MOST_N];
        for (size_t c = 0; c < width; c++)
            sum[c] = 0;
        for (size_t r = 0; r < count; r++)
            for (size_t c = 0; c < width; c++)
                sum[c] += (int64_t)z[r] * rows[r * width + c];
        for (size_t c = 0; c < width; c++)
            s[c] = sum[c];
    }
}

/* out(k) = rnd(S(k) / 2^28), S(k) the sum over i of z(i) × rows(i,k) */
INLINE void spectrum(const int32_t *rows, size_t count, size_t m, const int32_t *z, int32_t *out)
{
    int64_t s[MOST_M];
    sums(rows, count, m, z, s);
    for (size_t k = 0; k < m; k++)
        out[k] = (int32_t)rnd(s[k], 28);
}

INLINE void analyse_direct(const struct tables *t, size_t n, uint32_t left, uint32_t right, const int16_t *x, int32_t *out)
{
    int32_t y[MOST_N];
    windowed(t, n, left, right, x, y);
    spectrum(t->kernel, n, n / 2, y, out);
}

INLINE void fold(size_t m, const int32_t *y, int32_t *z)
{
    for (size_t j = 0; j < m / 2; j++)
        z[j] = -y[3 * m / 2 - 1 - j] - y[3 * m / 2 + j];
    for (size_t j = m / 2; j < m; j++)
        z[j] = y[j - m / 2] - y[3 * m / 2 - 1 - j];
}

INLINE void analyse_folded(const struct tables *t, size_t n, uint32_t left, uint32_t right, const int16_t *x, int32_t *out)
{
    size_t m = n / 2;
    int32_t y[MOST_N], z[MOST_M];
    windowed(t, n, left, right, x, y);
    fold(m, y, z);
    spectrum(t->folded, m, m, z, out);
}

/* the longest length that is split, and the most inputs and the most sums of a part */
enum { MOST_SPLIT = 72, MOST_PART = MOST_SPLIT / 3, MOST_SUMS = MOST_PART / 2 };

/* The three parts of n inputs: a - b + c, rB, and rC with its sign, which its cosines have. */
INLINE void split(const struct split *t, size_t n, const int32_t *y, int32_t parts[3][MOST_PART])
{
    size_t third = n / 3;
    for (size_t i = 0; i < third; i++) {
        int32_t a = y[third - 1 - i], b = y[2 * third - 1 - i], c = y[n - 1 - i], e = 2 * c - a + b, f = a + b;
        parts[0][i] = a - b + c;
        parts[1][i] = (int32_t)rnd((int64_t)e * t->eb[i] + (int64_t)f * t->fb[i], 26);
        parts[2][i] = (int32_t)rnd((int64_t)e * t->ec[i] + (int64_t)f * t->fc[i], 26);
    }
}

/* The sums A, B and G of the parts of n inputs. */
INLINE void part_sums(const struct split *t, size_t n, int32_t parts[3][MOST_PART], int64_t s[3][MOST_SUMS])
{
    int32_t z[MOST_SUMS];
    for (size_t part = 0; part < 3; part++) {
        fold(n / 6, parts[part], z);
        sums(t->folded, n / 6, n / 6, z, s[part]);
    }
}

/* B(k) + D(k), 2 × A(k) and B(k) - D(k) of n inputs, at 3k, 3k + 1 and 3k + 2. */
INLINE void join(size_t n, int64_t s[3][MOST_SUMS], int64_t *out)
{
    for (size_t k = 0; k < n / 6; k++) {
        int64_t b = s[1][k], d = s[2][n / 6 - 1 - k];
        out[3 * k] = b + d;
        out[3 * k + 1] = 2 * s[0][k];
        out[3 * k + 2] = b - d;
    }
}

INLINE void analyse_short(const struct tables *t, const struct split *by, size_t n, uint32_t left, uint32_t right, const int16_t *x, int32_t *out)
{
    int32_t y[MOST_SPLIT], parts[3][MOST_PART];
    int64_t s[3][MOST_SUMS];
    windowed(t, n, left, right, x, y);
    split(by, n, y, parts);
    part_sums(by, n, parts, s);
    for (size_t k = 0; k < n / 6; k++) {
        int64_t b = s[1][k], d = s[2][n / 6 - 1 - k];
        out[3 * k] = (int32_t)rnd(b + d, 29);
        out[3 * k + 1] = (int32_t)rnd(s[0][k], 28);
        out[3 * k + 2] = (int32_t)rnd(b - d, 29);
    }
}

/* two splits deep, with one rounding at the end */
INLINE void analyse_double(const struct tables *t, const struct split *by, const struct split *again, size_t n, uint32_t left, uint32_t right,
                           const int16_t *x, int32_t *out)
{
    int32_t y[MOST_SPLIT], parts[3][MOST_PART], ends[3][MOST_PART];
    int64_t ends_sums[3][MOST_SUMS], s[3][MOST_SUMS], joined[MOST_SPLIT / 2];
    windowed(t, n, left, right, x, y);
    split(by, n, y, parts);
    for (size_t part = 0; part < 3; part++) {
        split(again, n / 3, parts[part], ends);
        part_sums(again, n / 3, ends, ends_sums);
        join(n / 3, ends_sums, s[part]);
    }
    join(n, s, joined);
    for (size_t k = 0; k < n / 2; k++)
        out[k] = (int32_t)rnd(joined[k], 30);
}

/* The hop and the new tail from the n sums over k of X(k) × K(n,k). */
INLINE void joined(const struct tables *t, size_t n, uint32_t left, uint32_t right, const int64_t *s, int64_t *tail, int16_t *hop)
{
    const int32_t *rising = t->windows + left * n, *falling = t->windows + right * n;
    size_t m = n / 2;
    for (size_t i = 0; i < m; i++)
        hop[i] = sample(tail[i] + rising[i] * rnd(s[i], 26), (int64_t)n);
    for (size_t i = 0; i < m; i++)
        tail[i] = falling[m + i] * rnd(s[m + i], 26);
}

INLINE void step_direct(const struct tables *t, size_t n, uint32_t left, uint32_t right, int64_t *tail, const int32_t *coefficients, int16_t *hop)
{
    int64_t s[MOST_N];
    sums(t->turned, n / 2, n, coefficients, s);
    joined(t, n, left, right, s, tail, hop);
}

INLINE void step_folded(const struct tables *t, size_t n, uint32_t left, uint32_t right, int64_t *tail, const int32_t *coefficients, int16_t *hop)
{
    size_t m = n / 2;
    int64_t u[MOST_M], s[MOST_N];
    sums(t->folded, m, m, coefficients, u);
    for (size_t i = 0; i < m / 2; i++)
        s[i] = u[m / 2 + i];
    for (size_t i = m / 2; i < 3 * m / 2; i++)
        s[i] = -u[3 * m / 2 - 1 - i];
    for (size_t i = 3 * m / 2; i < n; i++)
        s[i] = -u[i - 3 * m / 2];
    joined(t, n, left, right, s, tail, hop);
}

/* One body for each length, so that the compiler knows every count. */
#define CASE(length, call, ...)                                         \
    case length: call(&tables_##length, length, __VA_ARGS__); break;
#define BY_LENGTH(call, ...)                                            \
    switch (n) {                                                        \
        EACH_LENGTH(CASE, call, __VA_ARGS__)                            \
    }

void PLAIN(analyse_direct)(size_t n, uint32_t left, uint32_t right, const int16_t *x, int32_t *out)
{
    BY_LENGTH(analyse_direct, left, right, x, out)
}

void PLAIN(analyse_folded)(size_t n, uint32_t left, uint32_t right, const int16_t *x, int32_t *out)
{
    BY_LENGTH(analyse_folded, left, right, x, out)
}

void PLAIN(analyse_short)(size_t n, uint32_t left, uint32_t right, const int16_t *x, int32_t *out)
{
#define SPLIT_CASE(n) case n: analyse_short(&tables_##n, &split_##n, n, left, right, x, out); break;
    switch (n) {
        EACH_SPLIT(SPLIT_CASE)
    }
}

void PLAIN(analyse_double)(size_t n, uint32_t left, uint32_t right, const int16_t *x, int32_t *out)
{
    switch (n) {
    case 36: analyse_double(&tables_36, &split_36, &split_12, 36, left, right, x, out); break;
    case 72: analyse_double(&tables_72, &split_72, &split_24, 72, left, right, x, out); break;
    }
}

void PLAIN(step_direct)(size_t n, uint32_t left, uint32_t right, int64_t *tail, const int32_t *coefficients, int16_t *hop)
{
    BY_LENGTH(step_direct, left, right, tail, coefficients, hop)
}

void PLAIN(step_folded)(size_t n, uint32_t left, uint32_t right, int64_t *tail, const int32_t *coefficients, int16_t *hop)
{
    BY_LENGTH(step_folded, left, right, tail, coefficients, hop)
}

/* A number of a step table, an optional minus and 1 to 5 digits, with no leading zero and no -0, and the byte that closes it. Returns the place
 * behind that byte, or null where there is no such number. */
static const uint8_t *number(const uint8_t *at, const uint8_t *end, uint8_t closing, int32_t *value)
{
    int minus = at < end && *at == '-', digits = 0;
    int32_t sum = 0;
    const uint8_t *first = at + minus;
    for (at = first; at < end && digits < 5 && *at >= '0' && *at <= '9'; at++, digits++)
        sum = 10 * sum + (*at - '0');
    if (digits == 0 || (*first == '0' && (minus || digits > 1)) || at == end || *at != closing)
        return NULL;
    *value = minus ? -sum : sum;
    return at + 1;
}

/* The step of each of m coefficients from a table's bytes; returns 0, or what turns the table away. A 9 goes before the first joint at fault. */
static uint32_t read_steps(size_t m, const uint8_t *table, size_t table_length, int32_t *steps)
{
    const uint8_t *end = table + table_length;
    int32_t next = 0;
    uint32_t fault = 0;
    while (table < end) {
        int32_t first, last, step;
        if (!(table = number(table, end, ',', &first)) || !(table = number(table, end, ',', &last))
            || !(table = number(table, end, '\n', &step)) || step < 1 || step > 65536 || first < 0 || first > last || last >= (int32_t)m)
            return 9;
        if (!fault && first != next)
            fault = first > next ? 10 : 11;
        for (int32_t k = first; k <= last; k++)
            steps[k] = step;
        next = last + 1;
    }
    return fault ? fault : next < (int32_t)m ? 10 : 0;
}

/* rnd(a / step), an exact half going away from zero, by a division of 32 bits */
INLINE int32_t level(int32_t a, uint32_t step)
{
    int32_t size = (int32_t)(((uint32_t)(a < 0 ? -a : a) + step / 2) / step);
    return a < 0 ? -size : size;
}

/* level × step, clipped to a coefficient's limits */
INLINE int32_t restored(int32_t level, int32_t step)
{
    int64_t a = (int64_t)level * step;
    return (int32_t)(a < -536870912 ? -536870912 : a > 536870912 ? 536870912 : a);
}

uint32_t PLAIN(quantise)(size_t n, const uint8_t *table, size_t table_length, const int32_t *coefficients, int32_t *levels)
{
    int32_t steps[MOST_M];
    uint32_t refused = read_steps(n / 2, table, table_length, steps);
    if (refused)
        return refused;
    for (size_t k = 0; k < n / 2; k++)
        levels[k] = level(coefficients[k], (uint32_t)steps[k]);
    return 0;
}

uint32_t PLAIN(dequantise)(size_t n, const uint8_t *table, size_t table_length, const int32_t *levels, int32_t *coefficients)
{
    int32_t steps[MOST_M];
    uint32_t refused = read_steps(n / 2, table, table_length, steps);
    if (refused)
        return refused;
    for (size_t k = 0; k < n / 2; k++)
        coefficients[k] = restored(levels[k], steps[k]);
    return 0;
}

uint32_t PLAIN(step_levels)(size_t n, uint32_t left, uint32_t right, const uint8_t *table, size_t table_length, int64_t *tail,
                            const int32_t *levels, int16_t *hop)
{
    int32_t coefficients[MOST_M];
    uint32_t refused = PLAIN(dequantise)(n, table, table_length, levels, coefficients);
    if (!refused)
        PLAIN(step_folded)(n, left, right, tail, coefficients, hop);
    return refused;
}

/* What is named so far, and its share: a change of up to 2^30 times K and W of up to 2^26 each. */
struct named {
    unsigned __int128 share;
    uint32_t block, coefficient;
};

/* The same with the shares of one block, whose row of K and whose W these are: a larger one takes the place of the one that is named. */
INLINE struct named larger(struct named named, uint32_t block, const int32_t *row, int32_t w, size_t m, const int32_t *x, const int32_t *changed)
{
    for (size_t k = 0; k < m; k++) {
        int64_t product = ((int64_t)changed[k] - x[k]) * row[k];
        unsigned __int128 share = (unsigned __int128)(uint64_t)(product < 0 ? -product : product) * (uint64_t)w;
        if (share > named.share)
            named = (struct named){share, block, (uint32_t)k};
    }
    return named;
}

INLINE void largest_share(const struct tables *t, size_t n, uint32_t shape, const int32_t *first, const int32_t *first_changed,
                          const int32_t *second, const int32_t *second_changed, size_t place, uint32_t *numbers)
{
    size_t m = n / 2;
    const int32_t *window = t->windows + shape * n;
    struct named named = {0, 0, 0};
    named = larger(named, 0, t->kernel + (m + place) * m, window[m + place], m, first, first_changed);
    named = larger(named, 1, t->kernel + place * m, window[place], m, second, second_changed);
    numbers[0] = named.share != 0;
    numbers[1] = named.block;
    numbers[2] = named.coefficient;
}

void PLAIN(largest_share)(size_t n, uint32_t shape, const int32_t *first, const int32_t *first_changed, const int32_t *second,
                          const int32_t *second_changed, size_t place, uint32_t *named)
{
    BY_LENGTH(largest_share, shape, first, first_changed, second, second_changed, place, named)
}

/* Whether every sample of a hop lies within what is allowed of its own. */
INLINE int within(size_t m, const int16_t *hop, const int16_t *x, uint32_t allowed)
{
    uint32_t most = 0;
    for (size_t i = 0; i < m; i++) {
        int32_t apart = hop[i] - x[i];
        uint32_t distance = (uint32_t)(apart < 0 ? -apart : apart);
        most = distance > most ? distance : most;
    }
    return most <= allowed;
}

/* Whether every sample of a recording returns within what is allowed where one step is that of all coefficients. Block b returns the padded
 * recording's hop b; the first of them is the run-in. */
INLINE int passes(const struct tables *t, size_t n, size_t hops, const int16_t *padded, uint32_t allowed, uint32_t step)
{
    size_t m = n / 2;
    int64_t tail[MOST_M] = {0};
    for (size_t b = 0; b <= hops; b++) {
        int32_t x[MOST_M];
        int16_t hop[MOST_M];
        analyse_folded(t, n, 0, 0, padded + b * m, x);
        for (size_t k = 0; k < m; k++)
            x[k] = restored(level(x[k], step), (int32_t)step);
        step_folded(t, n, 0, 0, tail, x, hop);
        if (b > 0 && !within(m, hop, padded + b * m, allowed))
            return 0;
    }
    return 1;
}

/* From 1024 downward, to the first step that passes, or to the sure step where all above it or as many as the budget have failed. */
INLINE void coarsest_step(const struct tables *t, size_t n, size_t hops, const int16_t *padded, uint32_t allowed, size_t budget, uint32_t *found)
{
    uint32_t sure = allowed < 32 ? 32 * allowed + 15 : 1024, step = 1024, trials = 0;
    int passed = 0;
    while (!passed && step > sure && trials < budget) {
        passed = passes(t, n, hops, padded, allowed, step);
        trials++;
        step -= !passed;
    }
    found[0] = passed ? step : sure;
    found[1] = trials;
    found[2] = passed ? 0 : step - sure;
}

void PLAIN(coarsest_step)(size_t n, size_t hops, const int16_t *padded, uint32_t allowed, size_t budget, uint32_t *found)
{
    BY_LENGTH(coarsest_step, hops, padded, allowed, budget, found)
}

/* What refuses a block whose floats should be as many as are due, or 0. The range is tested without an early end, so that it is vectorised. */
static uint32_t refusal(size_t n, const int32_t *x, size_t x_length, size_t length, size_t due)
{
    int beyond = 0;
    if (n != 12 && n != 24 && n != 36 && n != 72 && n != 108 && n != 216)
        return 1;
    if (x_length != n / 2 || length != due)
        return 2;
    for (size_t k = 0; k < n / 2; k++)
        beyond |= (x[k] < -536870912) | (x[k] > 536870912);
    return beyond ? 3 : 0;
}

uint32_t PLAIN(floats)(size_t n, const int32_t *x, size_t x_length, double *floats, size_t floats_length)
{
    uint32_t refused = refusal(n, x, x_length, floats_length, n / 2);
    if (refused)
        return refused;
    for (size_t k = 0; k < n / 2; k++)
        floats[k] = x[k] / 64.0;
    return 0;
}

uint32_t PLAIN(highest_lowest)(size_t n, const int32_t *x, size_t x_length, double *pair, size_t pair_length)
{
    uint32_t refused = refusal(n, x, x_length, pair_length, 2);
    if (refused)
        return refused;
    int32_t highest = x[0], lowest = x[0];
    for (size_t k = 1; k < n / 2; k++) {
        highest = x[k] > highest ? x[k] : highest;
        lowest = x[k] < lowest ? x[k] : lowest;
    }
    pair[0] = highest / 64.0;
    pair[1] = lowest / 64.0;
    return 0;
}
