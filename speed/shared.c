/* Times bench_shared_reliability beside the same figures in C, on the netlists of the timing programs with none to eight of their gates read once more. A
   line for each, tab-separated: the netlist, its shared gates, and the best times in ns of the call, of a walk in C that works every live gate out for every
   set of suppositions, and of one that goes on from each shared gate for both suppositions, so that what stands before it is worked out once. Both read the
   image with the checks of 1 to 8 and 22. Build and run: speed/run-shared. */
#include "netlists.h"

#define U 1073741824ull

/* a half goes to the even number */
static inline uint64_t blend(uint64_t r, uint64_t w, uint64_t f) {
    uint64_t sum = r * (U - f) + w * f;
    return (sum + (U / 2 - 1) + (sum / U & 1)) / U;
}

/* the first step's values are 0 or U, so its means are exact */
#define FIRST(n, f) for (int k = 0; k < (n); k++) v[k] = v[2 * k] / U * (U - f) + v[2 * k + 1] / U * f
#define STEP(n, f) for (int k = 0; k < (n); k++) v[k] = blend(v[2 * k], v[2 * k + 1], f)
#define START(n) for (uint32_t e = 0; e < (n); e++) v[e] = (table >> (index ^ e) & 1) != right ? U : 0

static uint32_t count[1036], words[WORDS], order[G], live, shared; /* readers of each source; the netlist; its live gates in order, and how many are shared */

static inline uint32_t source_word(const uint32_t *a, uint32_t s) { return s < a[0] ? a[3] >> s & 1 : a[8 + 8 * (s - a[0]) + 7]; }

static inline void work_gate(uint32_t *a, uint32_t j) {
    uint32_t *g = a + 8 + 8 * j, table = g[1], index = 0, w[4] = {0, 0, 0, 0};
    for (uint32_t i = 0; i < g[0]; i++) w[i] = source_word(a, g[2 + i]), index |= (w[i] & 1) << i;
    uint32_t right = table >> index & 1;
    uint64_t v[16], f0 = w[0] >> 1, f1 = w[1] >> 1, f2 = w[2] >> 1, f3 = w[3] >> 1;
    switch (g[0]) {
    case 0: v[0] = 0; break;
    case 1: START(2); FIRST(1, f0); break;
    case 2: START(4); FIRST(2, f0); STEP(1, f1); break;
    case 3: START(8); FIRST(4, f0); STEP(2, f1); STEP(1, f2); break;
    default: START(16); FIRST(8, f0); STEP(4, f1); STEP(2, f2); STEP(1, f3); break;
    }
    g[7] = 2 * (uint32_t)blend(v[0], U - v[0], g[6]) + right;
}

static unsigned get16(const uint8_t *m) { return m[0] | m[1] << 8; }
static unsigned get32(const uint8_t *m) { return get16(m) | get16(m + 2) << 16; }

/* 0, or the refusal: 7 for a kind or field that is none, 22 for a chance above 0.5 */
static int units(uint8_t kind, const uint8_t *field, uint32_t *to) {
    double x = 0;
    if (kind == 0) { for (int i = 0; i < 8; i++) if (field[i]) return 7; }
    else if (kind == 1) memcpy(&x, field, 8);
    else if (kind == 2) {
        float p, w;
        memcpy(&p, field, 4), memcpy(&w, field + 4, 4);
        if (!(p >= 0 && p <= 1 && w >= 0 && w <= 1)) return 7;
        x = (double)p * (double)w;
    } else return 7;
    if (!(x >= 0 && x <= 1)) return 7;
    if (x > 0.5) return 22;
    *to = (uint32_t)((uint64_t)(x * 1073741824.0 + 4503599627370496.0) - 4503599627370496);
    return 0;
}

/* refusals 1 to 8 and 22, or 0 and the words */
static int load(uint32_t *a, const uint8_t *m, size_t len, uint32_t pattern) {
    if (len < 16 || len > 32768) return 1;
    const uint8_t *t = m + len - 16;
    int no;
    uint32_t n = get16(t), g = get16(t + 2), k = get16(t + 4), back = get32(t + 8);
    if (get32(t + 12) != len) return 1;
    if (get16(t + 6) != 1) return 2;
    if (n > 12 || g > 1024 || k < 1 || k > 64) return 3;
    if (back != 20 * g + 2 * k || back > len - 16) return 4;
    a[0] = n, a[1] = g, a[2] = k, a[3] = pattern & ((1u << n) - 1);
    for (uint32_t j = 0; j < g; j++) {
        const uint8_t *r = t - back + 20 * j;
        uint32_t *w = a + 8 + 8 * j;
        w[0] = r[0], w[1] = get16(r + 2);
        if (w[0] > 4 || w[1] >= 1ull << (1u << w[0])) return 5;
        for (uint32_t i = 0; i < 4; i++) if ((w[2 + i] = get16(r + 4 + 2 * i)) && i >= w[0]) return 5;
        for (uint32_t i = 0; i < w[0]; i++) if (w[2 + i] >= n + j) return 6;
        if ((no = units(r[1], r + 12, w + 6))) return no;
    }
    for (uint32_t i = 0; i < k; i++) if ((a[8 + 8 * g + i] = get16(t - 2 * k + 2 * i)) >= n + g) return 8;
    return 0;
}

/* live readers, and the live gates in order */
static void count_readers(const uint32_t *a) {
    memset(count, 0, sizeof count);
    for (uint32_t k = 0; k < a[2]; k++) count[a[8 + 8 * a[1] + k]]++;
    for (uint32_t j = a[1]; j-- > 0;)
        if (count[a[0] + j]) for (uint32_t i = 0; i < a[8 + 8 * j]; i++) count[a[10 + 8 * j + i]]++;
    live = shared = 0;
    for (uint32_t j = 0; j < a[1]; j++) if (count[a[0] + j]) order[live++] = j, shared += count[a[0] + j] > 1;
}

static uint64_t over_outputs(const uint32_t *a, uint64_t product) {
    const uint32_t *o = a + 8 + 8 * a[1];
    for (uint32_t k = 0; k < a[2]; k++) product = blend(product, 0, source_word(a, o[k]) >> 1);
    return product;
}

/* a shared gate's step: the product times its chance to be as supposed, and what its readers see */
static inline uint64_t suppose(uint32_t *figure, uint32_t own, int wrong, uint64_t product) {
    *figure = (own & 1) | (wrong ? 2 * (uint32_t)U : 0);
    return wrong ? blend(0, product, own >> 1) : blend(product, 0, own >> 1);
}

static uint64_t one_set(uint32_t *a, uint32_t set) {
    uint64_t product = U;
    for (uint32_t k = 0, met = 0; k < live; k++) {
        uint32_t *figure = a + 8 + 8 * order[k] + 7;
        work_gate(a, order[k]);
        if (count[a[0] + order[k]] > 1) product = suppose(figure, *figure, set >> met & 1, product), met++;
    }
    return over_outputs(a, product);
}

static uint64_t from_gate(uint32_t *a, uint32_t k, uint64_t product) {
    for (; k < live; k++) {
        work_gate(a, order[k]);
        if (count[a[0] + order[k]] > 1) {
            uint32_t *figure = a + 8 + 8 * order[k] + 7, own = *figure;
            uint64_t right = from_gate(a, k + 1, suppose(figure, own, 0, product));
            return right + from_gate(a, k + 1, suppose(figure, own, 1, product));
        }
    }
    return over_outputs(a, product);
}

__attribute__((noinline)) static uint64_t c_walks(uint32_t pattern, uint32_t *to) {
    uint64_t sum = 0;
    int no = load(words, image, image_len, pattern);
    if (no) return (uint64_t)no << 32;
    count_readers(words);
    if (shared > 8) return 23ull << 32;
    for (uint32_t set = 0; set < 1u << shared; set++) sum += one_set(words, set);
    *to = (uint32_t)(sum < U ? sum : U);
    return 0;
}

__attribute__((noinline)) static uint64_t c_branches(uint32_t pattern, uint32_t *to) {
    int no = load(words, image, image_len, pattern);
    if (no) return (uint64_t)no << 32;
    count_readers(words);
    if (shared > 8) return 23ull << 32;
    uint64_t sum = from_gate(words, 0, U);
    *to = (uint32_t)(sum < U ? sum : U);
    return 0;
}

/* Lets a pin that reads an input read an earlier gate which has one reader: the first such pin behind live gate number `at`, and whether there is one. */
static int share_at(uint32_t at) {
    uint32_t from = order[at > 2 ? at - 2 : 0];
    for (uint32_t k = at; k + 1 < live; k++) {
        uint32_t j = order[k], pin = 0;
        const uint8_t *r = image + 20 * j;
        while (pin < r[0] && get16(r + 4 + 2 * pin) >= N) pin++;
        if (pin < r[0] && j > from && count[N + from] == 1) return put16(20 * j + 4 + 2 * pin, N + from), 1;
    }
    return 0;
}

/* So many gates are shared, spread evenly over the live ones, or further forward where none behind can be. */
static void share(uint32_t wanted) {
    for (uint32_t part = 1; part <= wanted; part++) {
        load(words, image, image_len, 0), count_readers(words);
        uint32_t at = live * part / (wanted + 1);
        while (at > 0 && !share_at(at)) at--;
    }
}

/* The netlist of a kind; of the mostly dead ones, one with 24 to 60 live gates: few, and still eight that can be shared. */
static void make_live(int kind) {
    do make_kind(kind), load(words, image, image_len, 0), count_readers(words);
    while (kind == 4 && (live < 24 || live > 60));
}

int main(void) {
    for (int kind = 0; kind < KINDS; kind++)
        for (uint32_t wanted = 0; wanted <= 8; wanted++) {
            double best[3] = {1e18, 1e18, 1e18};
            uint32_t got[3] = {0, 1, 2};
            make_live(kind), share(wanted);
            for (int t = 0; t < 10; t++) {
                uint32_t pattern = (uint32_t)next();
                uint64_t answer = 0;
                TIME(best[0], 1, answer |= bench_shared_reliability(image, image_len, pattern, &got[0]));
                TIME(best[1], 1, answer |= c_walks(pattern, &got[1]));
                TIME(best[2], 1, answer |= c_branches(pattern, &got[2]));
                if (answer || got[0] != got[1] || got[0] != got[2]) printf("differs\t%s %u %u %u\n", kinds[kind], got[0], got[1], got[2]);
            }
            printf("%s\t%u\t%.0f\t%.0f\t%.0f\n", kinds[kind], shared, best[0], best[1], best[2]);
        }
    return 0;
}
