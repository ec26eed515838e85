/* Times the calls of the proved library beside the same steps in C, on the same netlists in one run: open, toggle_input, set_flip, the two reads, write_image,
   average, counts_by_flip and counts_by_mask on forests of 2-, 3- and 4-pin gates, a chain, a forest whose gates are mostly dead, 64 narrow trees of three
   inputs each and one balanced tree; 12 inputs, 1,024 gates, and 4,096 random patterns for the counts. Average stands beside the faster of two walks in C, over
   every gate and in Gray order, and beside its own walk in C (rows). Build and run: speed/run-calls.
   The C steps make the same checks as the library: refusals 1 to 9, 22 and 13 at opening, 13 and 14 on every other call, 11 and 22 before setting, 15 to
   17 before counting, 21 before writing. */
#include "netlists.h"

#define U 1073741824ull

/* ---- the same steps in C */

/* a half goes to the even number */
static inline uint64_t blend(uint64_t r, uint64_t w, uint64_t f) {
    uint64_t sum = r * (U - f) + w * f;
    return (sum + (U / 2 - 1) + (sum / U & 1)) / U;
}

static inline uint32_t average_of(uint64_t sum, uint64_t total) { return (uint32_t)((2 * sum + (total - 1) + (sum / total & 1)) / (2 * total)); }

/* the first step's values are 0 or U, so its means are exact */
#define FIRST(n, f) for (int k = 0; k < (n); k++) v[k] = v[2 * k] / U * (U - f) + v[2 * k + 1] / U * f
#define STEP(n, f) for (int k = 0; k < (n); k++) v[k] = blend(v[2 * k], v[2 * k + 1], f)
#define START(n) for (uint32_t e = 0; e < (n); e++) v[e] = (table >> (index ^ e) & 1) != right ? U : 0

static inline uint32_t source_word(const uint32_t *a, uint32_t s) { return s < a[0] ? a[3] >> s & 1 : a[8 + 8 * (s - a[0]) + 7]; }

static inline void c_gate(uint32_t *a, uint32_t j) {
    uint32_t *g = a + 8 + 8 * j, table = g[1], index = 0, w[4] = {0, 0, 0, 0};
    for (uint32_t i = 0; i < g[0]; i++) w[i] = source_word(a, g[2 + i]), index |= (w[i] & 1) << i;
    uint32_t right = table >> index & 1;
    uint64_t v[16], f0 = w[0] >> 1, f1 = w[1] >> 1, f2 = w[2] >> 1, f3 = w[3] >> 1;
    switch (g[0]) {
    case 0: v[0] = 0; break;
    case 1: START(2); FIRST(1, f0); break;
    case 2: START(4); FIRST(2, f0); STEP(1, f1); break;
    case 3: START(8); FIRST(4, f0); STEP(2, f1); STEP(1, f2); break;
    default: START(16); FIRST(8, f0); STEP(4, f1); STEP(2, f2); STEP(1, f3); break;
    }
    g[7] = 2 * (uint32_t)blend(v[0], U - v[0], g[6]) + right;
}

static inline uint32_t c_reliability(const uint32_t *a) {
    uint64_t s = U;
    const uint32_t *o = a + 8 + 8 * a[1];
    for (uint32_t k = 0; k < a[2]; k++) s = blend(s, 0, source_word(a, o[k]) >> 1);
    return (uint32_t)s;
}

static int c_gate_bad(uint32_t count, uint32_t table, const uint32_t *pins, uint32_t limit) {
    if (count > 4) return 5;
    if (count < 5 && table >= 1ull << (1u << count)) return 5;
    for (uint32_t i = count; i < 4; i++) if (pins[i]) return 5;
    for (uint32_t i = 0; i < count; i++) if (pins[i] >= limit) return 6;
    return 0;
}

/* the raw flip sum in one way back; live[s] is set where source s has a live reader. Words: with bytes judging took 13 us for 4 on one of our machines */
static uint64_t c_sum(const uint32_t *a, uint32_t *live) {
    uint64_t sum = 0;
    uint32_t n = a[0], gates = a[1], outputs = a[2]; /* a store into live might change these words, so they are read once */
    for (uint32_t k = 0; k < outputs; k++) live[a[8 + 8 * gates + k]] = 1;
    for (uint32_t j = gates; j-- > 0;) {
        const uint32_t *g = a + 8 + 8 * j;
        uint32_t count = g[0];
        if (!live[n + j]) continue;
        sum += g[6];
        for (uint32_t i = 0; i < count; i++) live[g[2 + i]] = 1;
    }
    return sum;
}

static void c_store_sum(uint32_t *a, uint64_t sum) { a[5] = (uint32_t)sum, a[6] = (uint32_t)(sum >> 32); }

static int c_judge_live(const uint32_t *a, size_t len, uint32_t *live) {
    if (len < 8) return 13;
    if (a[0] > 12 || a[1] > 1024 || a[2] < 1 || a[2] > 64) return 14;
    if (len < 8 + 8 * (size_t)a[1] + a[2]) return 13;
    if (a[7] || a[3] >= 1u << a[0] || a[4] > U) return 14;
    for (uint32_t j = 0; j < a[1]; j++) {
        const uint32_t *g = a + 8 + 8 * j;
        if (c_gate_bad(g[0], g[1], g + 2, a[0] + j) || g[6] > U / 2 || g[7] > 2 * U + 1) return 14;
    }
    for (uint32_t k = 0; k < a[2]; k++) if (a[8 + 8 * a[1] + k] >= a[0] + a[1]) return 14;
    return c_sum(a, live) == (a[5] | (uint64_t)a[6] << 32) ? 0 : 14;
}

__attribute__((noinline)) static int c_judge(const uint32_t *a, size_t len) {
    uint32_t live[1036] = {0};
    return c_judge_live(a, len, live);
}

static void c_dependents(uint32_t *a, uint8_t *mark, uint32_t from) {
    for (uint32_t j = from; j < a[1]; j++) {
        uint32_t *g = a + 8 + 8 * j;
        int hit = 0;
        for (uint32_t i = 0; i < g[0]; i++) hit |= mark[g[2 + i]];
        if (hit) c_gate(a, j), mark[a[0] + j] = 1;
    }
}

__attribute__((noinline)) static uint64_t c_toggle(uint32_t *a, size_t len, uint32_t input) {
    int no = c_judge(a, len);
    if (no) return (uint64_t)no << 32;
    if (input >= a[0]) return 10ull << 32 | input;
    uint8_t mark[1036] = {0};
    a[3] ^= 1u << input;
    mark[input] = 1;
    c_dependents(a, mark, 0);
    a[4] = c_reliability(a);
    return 0;
}

/* 0, or the refusal: `bad` for a kind or field that is none, 22 for a chance above 0.5 */
static int c_units(uint8_t kind, uint64_t field, int bad, uint32_t *units) {
    double x;
    if (kind == 0) { *units = 0; return field == 0 ? 0 : bad; }
    if (kind == 1) memcpy(&x, &field, 8);
    else if (kind == 2) {
        float p, w;
        uint32_t lo = (uint32_t)field, hi = (uint32_t)(field >> 32);
        memcpy(&p, &lo, 4), memcpy(&w, &hi, 4);
        if (!(p >= 0 && p <= 1 && w >= 0 && w <= 1)) return bad;
        x = (double)p * (double)w;
    } else return bad;
    if (!(x >= 0 && x <= 1)) return bad;
    if (x > 0.5) return 22;
    *units = (uint32_t)((uint64_t)(x * 1073741824.0 + 4503599627370496.0) - 4503599627370496);
    return 0;
}

__attribute__((noinline)) static uint64_t c_set(uint32_t *a, size_t len, uint32_t gate, uint8_t kind, uint64_t field) {
    uint32_t live[1036] = {0};
    int no = c_judge_live(a, len, live);
    uint32_t units;
    if (no) return (uint64_t)no << 32;
    if (gate >= a[1]) return 10ull << 32 | gate;
    if ((no = c_units(kind, field, 11, &units))) return (uint64_t)no << 32 | gate;
    uint8_t mark[1036] = {0};
    if (live[a[0] + gate]) c_store_sum(a, (a[5] | (uint64_t)a[6] << 32) - a[8 + 8 * gate + 6] + units);
    a[8 + 8 * gate + 6] = units;
    c_gate(a, gate);
    mark[a[0] + gate] = 1;
    c_dependents(a, mark, gate + 1);
    a[4] = c_reliability(a);
    return 0;
}

static uint32_t get16(const uint8_t *p) { return p[0] | p[1] << 8; }
static uint32_t get32(const uint8_t *p) { return get16(p) | get16(p + 2) << 16; }

__attribute__((noinline)) static uint64_t c_open(uint32_t *a, size_t len, const uint8_t *im, size_t il, uint32_t *live) {
    static uint32_t w[WORDS];
    if (il < 16 || il > 32768 || get32(im + il - 4) != il) return 1ull << 32;
    const uint8_t *t = im + il - 16;
    uint32_t n = get16(t), g = get16(t + 2), k = get16(t + 4), back = get32(t + 8);
    if (get16(t + 6) != 1) return 2ull << 32;
    if (n > 12 || g > 1024 || k < 1 || k > 64) return 3ull << 32;
    if (back != 20 * g + 2 * k || back > il - 16) return 4ull << 32;
    const uint8_t *m = t - back;
    memset(w, 0, 32);
    w[0] = n, w[1] = g, w[2] = k;
    for (uint32_t j = 0; j < g; j++) {
        const uint8_t *r = m + 20 * j;
        uint32_t *o = w + 8 + 8 * j;
        uint64_t field;
        memcpy(&field, r + 12, 8);
        o[0] = r[0], o[1] = get16(r + 2);
        for (int i = 0; i < 4; i++) o[2 + i] = get16(r + 4 + 2 * i);
        int no = c_gate_bad(o[0], o[1], o + 2, n + j);
        if (no) return (uint64_t)no << 32 | j;
        if ((no = c_units(r[1], field, 7, &o[6]))) return (uint64_t)no << 32 | j;
        o[7] = 0;
    }
    for (uint32_t i = 0; i < k; i++) if ((w[8 + 8 * g + i] = get16(m + 20 * g + 2 * i)) >= n + g) return 8ull << 32 | i;
    uint32_t readers[1036] = {0}, count = 0;
    for (uint32_t i = 0; i < k; i++) readers[w[8 + 8 * g + i]]++;
    for (uint32_t j = g; j-- > 0;) if (readers[n + j]) for (uint32_t i = 0; i < w[8 + 8 * j]; i++) readers[w[8 + 8 * j + 2 + i]]++;
    for (uint32_t j = 0; j < g; j++) if (readers[n + j] > 1) return 9ull << 32 | j;
    if (len < 8 + 8 * (size_t)g + k) return 13ull << 32;
    memcpy(a, w, 4 * (8 + 8 * (size_t)g + k));
    uint64_t sum = 0;
    for (uint32_t j = 0; j < g; j++) c_gate(a, j), count += readers[n + j] > 0, sum += readers[n + j] ? a[8 + 8 * j + 6] : 0;
    c_store_sum(a, sum);
    a[4] = c_reliability(a);
    *live = count;
    return 0;
}

static void store16(uint8_t *p, uint32_t x) { uint16_t low = (uint16_t)x; memcpy(p, &low, 2); } /* one store: of two bytes gcc makes two */
static void store32(uint8_t *p, uint32_t x) { store16(p, x), store16(p + 2, x >> 16); }

/* 0.0 has eight zero bytes, so the field needs no case of its own */
__attribute__((noinline)) static uint64_t c_write(const uint32_t *a, size_t len, uint8_t *im, size_t room, uint32_t *bytes) {
    int no = c_judge(a, len);
    if (no) return (uint64_t)no << 32;
    uint32_t g = a[1], k = a[2], back = 20 * g + 2 * k;
    if (room < back + 16) return 21ull << 32;
    for (uint32_t j = 0; j < g; j++) {
        const uint32_t *w = a + 8 + 8 * j;
        uint8_t *r = im + 20 * j;
        double chance = w[6] / 1073741824.0;
        r[0] = (uint8_t)w[0], r[1] = w[6] != 0;
        store16(r + 2, w[1]);
        for (int i = 0; i < 4; i++) store16(r + 4 + 2 * i, w[2 + i]);
        memcpy(r + 12, &chance, 8);
    }
    for (uint32_t i = 0; i < k; i++) store16(im + 20 * g + 2 * i, a[8 + 8 * g + i]);
    uint8_t *t = im + back;
    store16(t, a[0]), store16(t + 2, g), store16(t + 4, k), store16(t + 6, 1), store32(t + 8, back), store32(t + 12, back + 16);
    *bytes = back + 16;
    return 0;
}

/* every gate for every pattern */
__attribute__((noinline)) static uint32_t c_average_all(uint32_t *a, size_t len, const uint32_t *weights) {
    if (c_judge(a, len)) return 0;
    uint32_t own = a[3];
    uint64_t sum = 0, total = 0;
    for (uint32_t q = 0; q < 1u << a[0]; q++) {
        a[3] = q;
        for (uint32_t j = 0; j < a[1]; j++) c_gate(a, j);
        sum += (uint64_t)weights[q] * c_reliability(a), total += weights[q];
    }
    a[3] = own;
    for (uint32_t j = 0; j < a[1]; j++) c_gate(a, j);
    a[4] = c_reliability(a);
    return average_of(sum, total);
}

/* Gray-code walk over the dependents of the input that changes */
__attribute__((noinline)) static uint32_t c_average_gray(uint32_t *a, size_t len, const uint32_t *weights) {
    if (c_judge(a, len)) return 0;
    static uint16_t list[12][1024];
    uint32_t count[12], own = a[3];
    for (uint32_t i = 0; i < a[0]; i++) {
        uint8_t mark[1036] = {0};
        mark[i] = 1, count[i] = 0;
        for (uint32_t j = 0; j < a[1]; j++) {
            int hit = 0;
            for (uint32_t p = 0; p < a[8 + 8 * j]; p++) hit |= mark[a[8 + 8 * j + 2 + p]];
            if (hit) mark[a[0] + j] = 1, list[i][count[i]++] = j;
        }
    }
    uint64_t sum = 0, total = 0;
    a[3] = 0;
    for (uint32_t j = 0; j < a[1]; j++) c_gate(a, j);
    sum += (uint64_t)weights[0] * c_reliability(a), total += weights[0];
    for (uint32_t t = 1; t < 1u << a[0]; t++) {
        uint32_t i = (uint32_t)__builtin_ctz(t);
        a[3] ^= 1u << i;
        for (uint32_t k = 0; k < count[i]; k++) c_gate(a, list[i][k]);
        sum += (uint64_t)weights[a[3]] * c_reliability(a), total += weights[a[3]];
    }
    a[3] = own;
    for (uint32_t j = 0; j < a[1]; j++) c_gate(a, j);
    a[4] = c_reliability(a);
    return average_of(sum, total);
}

/* ---- counts: 64 patterns in a word */

#define SOURCES (N + G)

static inline uint64_t row(uint32_t table, unsigned r) { return -(uint64_t)(table >> r & 1); }
static inline uint64_t choose(uint64_t zero, uint64_t one, uint64_t by) { return zero ^ ((zero ^ one) & by); }

/* the answers of the table's rows from r on, to one, two, three or four pins */
static inline uint64_t of_one(uint32_t t, unsigned r, uint64_t a) { return choose(row(t, r), row(t, r + 1), a); }
static inline uint64_t of_two(uint32_t t, unsigned r, uint64_t a, uint64_t b) { return choose(of_one(t, r, a), of_one(t, r + 2, a), b); }
static inline uint64_t of_three(uint32_t t, unsigned r, uint64_t a, uint64_t b, uint64_t c) {
    return choose(of_two(t, r, a, b), of_two(t, r + 4, a, b), c);
}
static inline uint64_t of_four(uint32_t t, uint64_t a, uint64_t b, uint64_t c, uint64_t d) {
    return choose(of_three(t, 0, a, b, c), of_three(t, 8, a, b, c), d);
}

static inline uint64_t c_word(const uint32_t *g, const uint64_t *v) {
    switch (g[0]) {
    case 0: return row(g[1], 0);
    case 1: return of_one(g[1], 0, v[g[2]]);
    case 2: return of_two(g[1], 0, v[g[2]], v[g[3]]);
    case 3: return of_three(g[1], 0, v[g[2]], v[g[3]], v[g[4]]);
    default: return of_four(g[1], v[g[2]], v[g[3]], v[g[4]], v[g[5]]);
    }
}

static uint64_t c_judge_list(const uint32_t *a, size_t len, const uint32_t *patterns, size_t many, size_t room) {
    int no = c_judge(a, len);
    if (no) return (uint64_t)no << 32;
    if (many < 1 || many > 4096) return 15ull << 32;
    for (size_t i = 0; i < many; i++) if (patterns[i] >= 1u << a[0]) return 16ull << 32 | i;
    return room < a[1] ? 17ull << 32 : 0;
}

/* The right values under up to 64 patterns, one bit each. Returns the bits that are in use. */
static uint64_t c_right_words(const uint32_t *a, const uint32_t *patterns, size_t many, uint64_t *right) {
    if (many > 64) many = 64;
    memset(right, 0, 8 * a[0]);
    for (size_t b = 0; b < many; b++) for (uint32_t i = 0; i < a[0]; i++) right[i] |= (uint64_t)(patterns[b] >> i & 1) << b;
    for (uint32_t j = 0; j < a[1]; j++) right[a[0] + j] = c_word(a + 8 + 8 * j, right);
    return ~0ull >> (64 - many);
}

/* Flips gate j and follows it through the later gates: one that reads no changed word stays. Returns the patterns in which an output is wrong. */
static inline uint64_t c_follow(const uint32_t *a, uint32_t j, const uint64_t *right, uint64_t *now, uint8_t *changed) {
    uint32_t n = a[0], count = 0;
    uint16_t list[G];
    uint64_t seen = 0;
    now[n + j] = ~right[n + j], changed[n + j] = 1, list[count++] = n + j;
    for (uint32_t k = j + 1; k < a[1]; k++) {
        const uint32_t *g = a + 8 + 8 * k;
        if (!(changed[g[2]] | changed[g[3]] | changed[g[4]] | changed[g[5]])) continue; /* an unused pin holds 0 */
        uint64_t word = c_word(g, now);
        if (word != right[n + k]) now[n + k] = word, changed[n + k] = 1, list[count++] = n + k;
    }
    for (const uint32_t *o = a + 8 + 8 * a[1]; o < a + 8 + 8 * a[1] + a[2]; o++) seen |= now[*o] ^ right[*o];
    while (count-- > 0) now[list[count]] = right[list[count]], changed[list[count]] = 0;
    return seen;
}

__attribute__((noinline)) static uint64_t c_by_flip(const uint32_t *a, size_t len, const uint32_t *patterns, size_t many, uint32_t *counts, size_t room) {
    uint64_t no = c_judge_list(a, len, patterns, many, room), right[SOURCES], now[SOURCES];
    uint8_t changed[SOURCES] = {0};
    if (no) return no;
    memset(counts, 0, 4 * a[1]);
    for (size_t from = 0; from < many; from += 64) {
        uint64_t used = c_right_words(a, patterns + from, many - from, right);
        memcpy(now, right, 8 * (a[0] + a[1]));
        for (uint32_t j = 0; j < a[1]; j++) counts[j] += (uint32_t)__builtin_popcountll(c_follow(a, j, right, now, changed) & used);
    }
    return 0;
}

/* Passes a gate's mask on to what its pins read. A table xored with itself moved by a pin's weight says, where the pin is 0, whether the pin matters. */
static inline void c_pass(const uint32_t *g, const uint64_t *v, uint64_t mask, uint64_t *masks) {
    uint32_t t = g[1];
    uint64_t p = v[g[2]], q = v[g[3]], r = v[g[4]], s = v[g[5]];
    switch (g[0]) {
    case 0: break;
    case 1:
        masks[g[2]] |= mask & of_one(t ^ t >> 1, 0, 0);
        break;
    case 2:
        masks[g[2]] |= mask & of_two(t ^ t >> 1, 0, 0, q);
        masks[g[3]] |= mask & of_two(t ^ t >> 2, 0, p, 0);
        break;
    case 3:
        masks[g[2]] |= mask & of_three(t ^ t >> 1, 0, 0, q, r);
        masks[g[3]] |= mask & of_three(t ^ t >> 2, 0, p, 0, r);
        masks[g[4]] |= mask & of_three(t ^ t >> 4, 0, p, q, 0);
        break;
    default:
        masks[g[2]] |= mask & of_four(t ^ t >> 1, 0, q, r, s);
        masks[g[3]] |= mask & of_four(t ^ t >> 2, p, 0, r, s);
        masks[g[4]] |= mask & of_four(t ^ t >> 4, p, q, 0, s);
        masks[g[5]] |= mask & of_four(t ^ t >> 8, p, q, r, 0);
    }
}

__attribute__((noinline)) static uint64_t c_by_mask(const uint32_t *a, size_t len, const uint32_t *patterns, size_t many, uint32_t *counts, size_t room) {
    uint64_t no = c_judge_list(a, len, patterns, many, room), right[SOURCES], masks[SOURCES];
    if (no) return no;
    memset(counts, 0, 4 * a[1]);
    for (size_t from = 0; from < many; from += 64) {
        uint64_t used = c_right_words(a, patterns + from, many - from, right);
        memset(masks, 0, 8 * (a[0] + a[1]));
        for (uint32_t k = 0; k < a[2]; k++) masks[a[8 + 8 * a[1] + k]] = used;
        for (uint32_t j = a[1]; j-- > 0;) {
            uint64_t mask = masks[a[0] + j];
            counts[j] += (uint32_t)__builtin_popcountll(mask);
            if (mask) c_pass(a + 8 + 8 * j, right, mask, masks);
        }
    }
    return 0;
}

/* ---- average, as the library takes it: right values of 64 patterns in a word, failures in rows of 32, live gates alone; a gate keeps its row where no
   input on which it depends has changed */

#define ROW 32

typedef struct {
    uint32_t n, live[G], count, unseen[SOURCES], rows[SOURCES][ROW];
    uint64_t words[SOURCES];
} Walk;

#define B4(l) 1u << (l), 2u << (l), 4u << (l), 8u << (l)
static const uint32_t bit[32] = {B4(0), B4(4), B4(8), B4(12), B4(16), B4(20), B4(24), B4(28)};

static inline uint32_t even(uint64_t sum) { return (uint32_t)((sum + (U / 2 - 1) + (sum / U & 1)) / U); }

/* the mean of two rows that have 0 or U in each lane */
static inline void first_row(uint32_t right, uint32_t wrong, const uint32_t *f, uint32_t *out) {
    for (int l = 0; l < ROW; l++) out[l] = (-(uint32_t)!!(right & bit[l]) & ((uint32_t)U - f[l])) + (-(uint32_t)!!(wrong & bit[l]) & f[l]);
}

static inline void fold_row(const uint32_t *r, const uint32_t *w, const uint32_t *f, uint32_t *out) {
    for (int l = 0; l < ROW; l++) out[l] = even((uint64_t)r[l] * ((uint32_t)U - f[l]) + (uint64_t)w[l] * f[l]);
}

/* one product: what is taken off goes up at a half, and one is put back where that leaves an odd number */
static inline void gate_row(const uint32_t *last, uint32_t flip, uint32_t *out) {
    for (int l = 0; l < ROW; l++) {
        uint64_t product = (uint64_t)last[l] * flip + U / 4;
        uint32_t low = (uint32_t)product % (uint32_t)(U / 2), near = last[l] + flip - (uint32_t)(product / (U / 2));
        out[l] = near + (((uint32_t)(U / 2) - low) / (uint32_t)(U / 2) & near);
    }
}

static inline uint64_t c_answer(const uint32_t *g, const uint64_t *p) {
    switch (g[0]) {
    case 0: return row(g[1], 0);
    case 1: return of_one(g[1], 0, p[0]);
    case 2: return of_two(g[1], 0, p[0], p[1]);
    case 3: return of_three(g[1], 0, p[0], p[1], p[2]);
    default: return of_four(g[1], p[0], p[1], p[2], p[3]);
    }
}

/* the last value of the fold over the first n pins, of which `lowest` is the first that may fail; the words of the pins are left as they were */
static void c_last(const Walk *t, const uint32_t *g, uint64_t right, int shift, uint64_t *p, unsigned lowest, unsigned n, uint32_t *out) {
    while (lowest < n - 1 && g[1 + n] < t->n) n--;
    const uint32_t *failures = t->rows[g[1 + n]];
    if (lowest == n - 1) {
        uint64_t stays = c_answer(g, p) ^ right;
        p[n - 1] = ~p[n - 1];
        first_row((uint32_t)(stays >> shift), (uint32_t)((c_answer(g, p) ^ right) >> shift), failures, out);
    } else {
        uint32_t a[ROW], b[ROW];
        c_last(t, g, right, shift, p, lowest, n - 1, a);
        p[n - 1] = ~p[n - 1];
        c_last(t, g, right, shift, p, lowest, n - 1, b);
        fold_row(a, b, failures, out);
    }
    p[n - 1] = ~p[n - 1];
}

static inline void c_row(Walk *t, const uint32_t *a, uint32_t j, int shift) {
    const uint32_t *g = a + 8 + 8 * j;
    uint32_t last[ROW], *out = t->rows[t->n + j], lowest = 0, end = g[0], flip = g[6];
    while (end > 0 && g[1 + end] < t->n) end--;
    if (end == 0) {
        for (int l = 0; l < ROW; l++) out[l] = flip;
        return;
    }
    while (g[2 + lowest] < t->n) lowest++;
    uint64_t p[4] = {t->words[g[2]], t->words[g[3]], t->words[g[4]], t->words[g[5]]}, right = t->words[t->n + j];
    if (lowest + 1 == end) {
        p[lowest] = ~p[lowest];
        first_row(0, (uint32_t)((c_answer(g, p) ^ right) >> shift), t->rows[g[2 + lowest]], last);
    } else c_last(t, g, right, shift, p, lowest, end, last);
    gate_row(last, flip, out);
}

static uint64_t c_row_sum(const Walk *t, const uint32_t *a, const uint32_t *weights, uint32_t many) {
    uint32_t product[ROW];
    uint64_t sum = 0;
    for (int l = 0; l < ROW; l++) product[l] = U;
    for (const uint32_t *o = a + 8 + 8 * a[1]; o < a + 8 + 8 * a[1] + a[2]; o++)
        for (int l = 0; l < ROW; l++) product[l] = even((uint64_t)product[l] * ((uint32_t)U - t->rows[*o][l]));
    for (uint32_t l = 0; l < many && l < ROW; l++) sum += (uint64_t)weights[l] * product[l];
    return sum;
}

static void c_live(const uint32_t *a, Walk *t) {
    uint8_t read[SOURCES] = {0};
    for (uint32_t k = 0; k < a[2]; k++) read[a[8 + 8 * a[1] + k]] = 1;
    for (uint32_t j = a[1]; j-- > 0;) if (read[a[0] + j]) for (uint32_t i = 0; i < a[8 + 8 * j]; i++) read[a[8 + 8 * j + 2 + i]] = 1;
    for (uint32_t j = 0; j < a[1]; j++) if (read[a[0] + j]) t->live[t->count++] = j;
}

/* how many of the lowest bits of a row's number a source does not see: bit k is input 5 + k */
static void c_unseen(const uint32_t *a, Walk *t) {
    for (uint32_t i = 0; i < a[0]; i++) t->unseen[i] = i < 5 ? 7 : i - 5;
    for (uint32_t j = 0; j < a[1]; j++) {
        uint32_t least = 7;
        for (uint32_t i = 0; i < a[8 + 8 * j]; i++) if (t->unseen[a[8 + 8 * j + 2 + i]] < least) least = t->unseen[a[8 + 8 * j + 2 + i]];
        t->unseen[a[0] + j] = least;
    }
}

static void c_work_rows(Walk *t, const uint32_t *a, uint32_t held, uint32_t number) {
    for (uint32_t k = 0; k < t->count; k++) {
        uint32_t unseen = t->unseen[t->n + t->live[k]];
        if (held >> unseen != number >> unseen) c_row(t, a, t->live[k], number % 2 * ROW);
    }
}

__attribute__((noinline)) static uint32_t c_average_rows(uint32_t *a, size_t len, const uint32_t *weights) {
    static Walk t;
    if (c_judge(a, len)) return 0;
    uint64_t sum = 0, total = 0;
    uint32_t patterns[64], many = 1u << a[0], held = 128; /* no row */
    t.n = a[0], t.count = 0;
    memset(t.rows, 0, sizeof t.rows[0] * t.n);
    c_live(a, &t), c_unseen(a, &t);
    for (uint32_t first = 0; first < many; first += 64) {
        for (uint32_t l = 0; l < 64; l++) patterns[l] = (first + l) % many;
        memset(t.words, 0, 8 * t.n);
        for (uint32_t l = 0; l < 64; l++) for (uint32_t i = 0; i < t.n; i++) t.words[i] |= (uint64_t)(patterns[l] >> i & 1) << l;
        for (uint32_t k = 0; k < t.count; k++) t.words[t.n + t.live[k]] = c_word(a + 8 + 8 * t.live[k], t.words);
        for (uint32_t start = first; start < first + 64 && start < many; start += ROW) {
            c_work_rows(&t, a, held, start / ROW), held = start / ROW;
            sum += c_row_sum(&t, a, weights + start, many - start);
        }
    }
    for (uint32_t q = 0; q < many; q++) total += weights[q];
    for (uint32_t j = 0; j < a[1]; j++) c_gate(a, j);
    a[4] = c_reliability(a);
    return average_of(sum, total);
}

/* ---- reads: nothing but the checks */

__attribute__((noinline)) static uint64_t c_read_netlist(const uint32_t *a, size_t len, uint32_t *pattern, uint32_t *units, double *reliability) {
    int no = c_judge(a, len);
    if (no) return (uint64_t)no << 32;
    *pattern = a[3], *units = a[4], *reliability = a[4] / (double)U;
    return 0;
}

__attribute__((noinline)) static uint64_t c_read_gate(const uint32_t *a, size_t len, uint32_t gate, uint32_t *right, uint32_t *failure) {
    int no = c_judge(a, len);
    if (no) return (uint64_t)no << 32;
    if (gate >= a[1]) return 10ull << 32 | gate;
    *right = a[8 + 8 * gate + 7] & 1, *failure = a[8 + 8 * gate + 7] >> 1;
    return 0;
}

static uint32_t mine[WORDS], theirs[WORDS], weights[4096], listed[4096], my_counts[G], their_counts[G];
static uint8_t my_image[BENCH_WRITTEN_MAX], their_image[BENCH_WRITTEN_MAX];

static void same(const char *what) {
    if (memcmp(mine, theirs, sizeof mine)) { printf("%s: the areas differ\n", what); exit(1); }
}

static void same_counts(const char *what) {
    if (memcmp(my_counts, their_counts, sizeof my_counts)) { printf("%s: the counts differ\n", what); exit(1); }
}

/* so that counts which a side does not write differ */
static void part_counts(void) { memset(my_counts, 1, sizeof my_counts), memset(their_counts, 2, sizeof their_counts); }

/* The best times of both ways to count, library and C after each other. */
static void time_counts(double best[4]) {
    for (int t = 0; t < 4; t++) best[t] = 1e18;
    for (int t = 0; t < 3; t++) {
        part_counts();
        TIME(best[0], 1, bench_counts_by_flip(mine, WORDS, listed, 4096, my_counts, G));
        TIME(best[1], 1, c_by_flip(mine, WORDS, listed, 4096, their_counts, G));
        same_counts("by flip");
    }
    for (int t = 0; t < 8; t++) {
        part_counts();
        TIME(best[2], 1, bench_counts_by_mask(mine, WORDS, listed, 4096, my_counts, G));
        TIME(best[3], 1, c_by_mask(mine, WORDS, listed, 4096, their_counts, G));
        same_counts("by mask");
    }
}

/* The best times of both reads, library and C after each other. */
static void time_reads(double best[4]) {
    uint32_t p1 = 0, p2 = 0, u1 = 0, u2 = 0, r1 = 0, r2 = 0, f1 = 0, f2 = 0;
    double d1 = 0, d2 = 0;
    for (int t = 0; t < 4; t++) best[t] = 1e18;
    for (int t = 0; t < 60; t++) {
        TIME(best[0], 24, bench_read_netlist(mine, WORDS, &p1, &u1, &d1));
        TIME(best[1], 24, c_read_netlist(mine, WORDS, &p2, &u2, &d2));
        TIME(best[2], 24, bench_read_gate(mine, WORDS, 40 * r_, &r1, &f1));
        TIME(best[3], 24, c_read_gate(mine, WORDS, 40 * r_, &r2, &f2));
        if (p1 != p2 || u1 != u2 || d1 != d2 || r1 != r2 || f1 != f2) { printf("the readings differ\n"); exit(1); }
    }
}

/* The best times of writing, library and C after each other. */
static void time_writing(double best[2]) {
    uint32_t bytes = 0, bytes2 = 1;
    best[0] = best[1] = 1e18;
    for (int t = 0; t < 60; t++) {
        memset(my_image, 1, sizeof my_image), memset(their_image, 2, sizeof their_image);
        TIME(best[0], 24, bench_write_image(mine, WORDS, my_image, BENCH_WRITTEN_MAX, &bytes));
        TIME(best[1], 24, c_write(mine, WORDS, their_image, BENCH_WRITTEN_MAX, &bytes2));
        if (bytes != bytes2 || memcmp(my_image, their_image, bytes)) { printf("the images differ\n"); exit(1); }
    }
}

/* a row: call, netlist, the library's best time and C's, in ns */
static void tell(const char *call, int kind, double here, double c) { printf("%s\t%s\t%.0f\t%.0f\n", call, kinds[kind], here, c); }

int main(void) {
    double counted[4], read[4], written[2];
    uint64_t kept = seed;
    for (int q = 0; q < 4096; q++) weights[q] = 1, listed[q] = next() % 4096;
    seed = kept; /* so that the patterns do not change the netlists */
    for (int kind = 0; kind < KINDS; kind++) {
        make_kind(kind);
        memset(mine, 0, sizeof mine), memset(theirs, 0, sizeof theirs);
        uint32_t live = 0, live2 = 0, units = 0, units2 = 0;
        uint64_t no = bench_open(mine, WORDS, image, image_len, &live);
        if (no) { printf("%s: refused %llu %llu\n", kinds[kind], (unsigned long long)(no >> 32), (unsigned long long)(no & 0xffffffff)); return 1; }
        c_open(theirs, WORDS, image, image_len, &live2);
        same("open");
        double o1 = 1e18, o2 = 1e18, t1 = 1e18, t2 = 1e18, s1 = 1e18, s2 = 1e18, a1 = 1e18, a2 = 1e18, a3 = 1e18, a4 = 1e18;
        double half = 0.3;
        uint64_t field;
        memcpy(&field, &half, 8);
        for (int t = 0; t < 60; t++) {
            TIME(o1, 4, bench_open(mine, WORDS, image, image_len, &live));
            TIME(o2, 4, c_open(theirs, WORDS, image, image_len, &live2));
            TIME(t1, 24, bench_toggle_input(mine, WORDS, r_ % N));
            TIME(t2, 24, c_toggle(theirs, WORDS, r_ % N));
            same("toggle");
            TIME(s1, 24, bench_set_flip(mine, WORDS, 40 * r_, 1, field));
            TIME(s2, 24, c_set(theirs, WORDS, 40 * r_, 1, field));
            same("set");
        }
        for (int t = 0; t < 4; t++) {
            TIME(a1, 1, bench_average(mine, WORDS, weights, 4096, &units));
            TIME(a2, 1, units2 = c_average_all(theirs, WORDS, weights));
            if (units != units2) { printf("the averages differ\n"); return 1; }
            TIME(a3, 1, units2 = c_average_gray(theirs, WORDS, weights));
            if (units != units2) { printf("the averages differ\n"); return 1; }
            TIME(a4, 1, units2 = c_average_rows(theirs, WORDS, weights));
            if (units != units2) { printf("the averages differ\n"); return 1; }
            same("average");
        }
        time_counts(counted), time_reads(read), time_writing(written);
        tell("open", kind, o1, o2), tell("toggle_input", kind, t1, t2), tell("set_flip", kind, s1, s2);
        tell("read_netlist", kind, read[0], read[1]), tell("read_gate", kind, read[2], read[3]);
        tell("write_image", kind, written[0], written[1]);
        tell("average", kind, a1, a2 < a3 ? a2 : a3), tell("average, same walk", kind, a1, a4);
        tell("counts_by_flip", kind, counted[0], counted[1]), tell("counts_by_mask", kind, counted[2], counted[3]);
    }
    return 0;
}
