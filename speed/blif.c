/* Times bench_read_blif beside a plain reader in C on the largest texts, and holds every answer and every byte of the image to that reader's.
   Build and run: speed/run-blif.
   The C reader is written from docs/SCOPE.md alone and makes the same checks in the same order: 18, the four tests of 19, 20. Names are found by
   comparing them one after another, lengths first. */
#include <stdint.h>
#include <stdio.h>
#include <stdlib.h>
#include <string.h>

#include "../include/bench.h"
#include "clock.h"

#define MOST_TEXT 32768
#define MOST_WORDS 16384

/* ---- the reader in C */

struct word { const uint8_t *at; uint32_t length, line; };
struct gate { uint32_t line, count, cover, lines; uint32_t source[4]; };

static struct word words[MOST_WORDS];
static uint32_t word_count;

static uint64_t refuse(uint32_t number, uint32_t place) { return (uint64_t)number << 32 | place; }

/* the words of a text with the numbers of their lines; how many line feeds it has */
static uint32_t split(const uint8_t *text, size_t length) {
    uint32_t line = 1, first = 1, feeds = 0;
    size_t i = 0;
    word_count = 0;
    while (i < length) {
        uint8_t b = text[i];
        if (b == '\n') i++, feeds++, line++, first = line;
        else if (b == ' ' || b == '\t' || b == '\r') i++;
        else if (b == '#') while (i < length && text[i] != '\n') i++;
        else if (b == '\\' && i + 1 < length && text[i + 1] == '\n') i += 2, feeds++, line++;
        else {
            size_t start = i;
            while (i < length) {
                b = text[i];
                if (b == '\n' || b == ' ' || b == '\t' || b == '\r' || b == '#') break;
                if (b == '\\' && i + 1 < length && text[i + 1] == '\n') break;
                i++;
            }
            words[word_count++] = (struct word){text + start, (uint32_t)(i - start), first};
        }
    }
    return feeds;
}

static int is(const struct word *w, const char *key) { return w->length == strlen(key) && !memcmp(w->at, key, w->length); }

static int same(const struct word *a, const struct word *b) { return a->length == b->length && !memcmp(a->at, b->at, a->length); }

static int is_name(const struct word *w) {
    if (w->length > 32) return 0;
    for (uint32_t i = 0; i < w->length; i++)
        if (w->at[i] < 33 || w->at[i] > 126 || w->at[i] == '#' || w->at[i] == '\\') return 0;
    return 1;
}

static int are_names(const struct word *w, uint32_t count) {
    for (uint32_t i = 0; i < count; i++)
        if (!is_name(w + i)) return 0;
    return 1;
}

static int is_row(const struct word *w, uint32_t width) {
    if (w->length != width) return 0;
    for (uint32_t i = 0; i < width; i++)
        if (w->at[i] != '0' && w->at[i] != '1' && w->at[i] != '-') return 0;
    return 1;
}

/* how many words stand in the line that begins with word k */
static uint32_t in_line(uint32_t k) {
    uint32_t end = k;
    while (end < word_count && words[end].line == words[k].line) end++;
    return end - k;
}

enum phase { BEFORE, HEADING, GATES, ENDED, MISFIT };

static uint32_t width;
static uint8_t ending;

static enum phase fit(enum phase phase, const struct word *w, uint32_t count) {
    if (phase == BEFORE) return is(w, ".model") && count == 2 && is_name(w + 1) ? HEADING : MISFIT;
    if (phase == ENDED) return MISFIT;
    if (is(w, ".inputs") || is(w, ".outputs")) return phase == HEADING && are_names(w + 1, count - 1) ? HEADING : MISFIT;
    if (is(w, ".names")) {
        if (count < 2 || count > 6 || !are_names(w + 1, count - 1)) return MISFIT;
        width = count - 2, ending = 0;
        return GATES;
    }
    if (is(w, ".end")) return count == 1 ? ENDED : MISFIT;
    if (phase != GATES || count != (width ? 2u : 1u) || (width && !is_row(w, width))) return MISFIT;
    const struct word *last = w + count - 1;
    if (last->length != 1 || (last->at[0] != '0' && last->at[0] != '1') || (ending && ending != last->at[0])) return MISFIT;
    ending = last->at[0];
    return GATES;
}

static uint64_t judge_lines(uint32_t feeds) {
    enum phase phase = BEFORE;
    for (uint32_t k = 0, count; k < word_count; k += count) {
        count = in_line(k);
        phase = fit(phase, words + k, count);
        if (phase == MISFIT) return refuse(18, words[k].line);
    }
    return phase == ENDED ? 0 : refuse(18, 1 + feeds);
}

static const struct word *defined[12 + 1024], *outputs[64];
static uint32_t n, gates, output_count, first_source[1024];
static struct gate gate[1024];

/* the model of lines that fit, and the first test of 19 */
static uint64_t collect(void) {
    n = gates = output_count = 0;
    for (uint32_t k = 0, count; k < word_count; k += count) {
        const struct word *w = words + k;
        count = in_line(k);
        if (is(w, ".inputs")) for (uint32_t i = 1; i < count; i++) {
            if (n == 12) return refuse(19, w->line);
            defined[n++] = w + i;
        }
        else if (is(w, ".outputs")) for (uint32_t i = 1; i < count; i++) {
            if (output_count == 64) return refuse(19, w->line);
            outputs[output_count++] = w + i;
        }
        else if (is(w, ".names")) {
            if (gates == 1024) return refuse(19, w->line);
            gate[gates] = (struct gate){.line = w->line, .count = count - 2, .cover = k + count};
            first_source[gates] = k + 1;
            defined[n + gates++] = w + count - 1;
        } else if (is(w, ".end")) {
            if (!output_count) return refuse(19, w->line);
        } else if (gates) gate[gates - 1].lines++;
    }
    return 0;
}

static uint32_t find(const struct word *w, uint32_t below) {
    for (uint32_t k = 0; k < below; k++)
        if (same(defined[k], w)) return k;
    return below;
}

static uint32_t output_number[64];

/* names defined twice, then names undefined */
static uint64_t resolve(void) {
    for (uint32_t k = 0; k < n + gates; k++)
        if (find(defined[k], k) < k) return refuse(19, defined[k]->line);
    for (uint32_t k = 0; k < output_count; k++)
        if ((output_number[k] = find(outputs[k], n + gates)) == n + gates) return refuse(19, outputs[k]->line);
    for (uint32_t j = 0; j < gates; j++)
        for (uint32_t i = 0; i < gate[j].count; i++)
            if ((gate[j].source[i] = find(words + first_source[j] + i, n + gates)) == n + gates) return refuse(19, gate[j].line);
    return 0;
}

static uint32_t place[1024], order[1024];

static int ready(uint32_t j) {
    for (uint32_t i = 0; i < gate[j].count; i++)
        if (gate[j].source[i] >= n && place[gate[j].source[i] - n] == 0) return 0;
    return 1;
}

/* places the first gate that reads only what is placed, and so on; how many could be placed */
static uint32_t place_gates(void) {
    uint32_t placed = 0, j = 0;
    memset(place, 0, sizeof place);
    while (j < gates) {
        for (j = 0; j < gates; j++)
            if (place[j] == 0 && ready(j)) {
                order[placed++] = j, place[j] = placed;
                break;
            }
    }
    return placed;
}

static uint8_t seen[1024];

static int reaches(uint32_t from, uint32_t to) {
    uint32_t pile[1024], top = 0;
    memset(seen, 0, sizeof seen);
    pile[top++] = from;
    while (top) {
        const struct gate *g = gate + pile[--top];
        for (uint32_t i = 0; i < g->count; i++) {
            if (g->source[i] < n) continue;
            uint32_t k = g->source[i] - n;
            if (k == to) return 1;
            if (!seen[k] && !place[k]) seen[k] = 1, pile[top++] = k;
        }
    }
    return 0;
}

static uint32_t table(const struct gate *g) {
    uint32_t met = 0, k = g->cover, rows = 1u << g->count, all = (uint32_t)((1ull << rows) - 1);
    uint8_t last = '1';
    for (uint32_t l = 0; l < g->lines; l++) {
        const uint8_t *row = words[k].at;
        for (uint32_t r = 0; r < rows; r++) {
            uint32_t meets = 1;
            for (uint32_t i = 0; i < g->count; i++) meets &= row[i] == '-' || row[i] == '0' + (r >> i & 1);
            met |= meets << r;
        }
        k += g->count ? 2 : 1;
        last = words[k - 1].at[0];
    }
    return last == '1' ? met : all & ~met;
}

static void put16(uint8_t *at, uint32_t x) { at[0] = x & 255, at[1] = x >> 8; }
static void put32(uint8_t *at, uint32_t x) { put16(at, x & 65535), put16(at + 2, x >> 16); }
static uint32_t number(uint32_t source) { return source < n ? source : n + place[source - n] - 1; }

static void write_image(uint8_t *image) {
    uint32_t back = 20 * gates + 2 * output_count;
    memset(image, 0, back);
    for (uint32_t q = 0; q < gates; q++) {
        const struct gate *g = gate + order[q];
        uint8_t *record = image + 20 * q;
        record[0] = g->count;
        put16(record + 2, table(g));
        for (uint32_t i = 0; i < g->count; i++) put16(record + 4 + 2 * i, number(g->source[i]));
    }
    for (uint32_t k = 0; k < output_count; k++) put16(image + 20 * gates + 2 * k, number(output_number[k]));
    uint8_t *t = image + back;
    put16(t, n), put16(t + 2, gates), put16(t + 4, output_count), put16(t + 6, 1), put32(t + 8, back), put32(t + 12, back + 16);
}

__attribute__((noinline)) static uint64_t c_read(const uint8_t *text, size_t length, uint8_t *image, size_t room, uint32_t *bytes) {
    if (length > MOST_TEXT) return refuse(18, 0);
    uint64_t answer = judge_lines(split(text, length));
    if (!answer) answer = collect();
    if (!answer) answer = resolve();
    if (answer) return answer;
    if (place_gates() < gates)
        for (uint32_t j = 0; j < gates; j++)
            if (!place[j] && reaches(j, j)) return refuse(19, gate[j].line);
    if (room < 20 * gates + 2 * output_count + 16) return refuse(20, 0);
    write_image(image);
    *bytes = 20 * gates + 2 * output_count + 16;
    return 0;
}

/* ---- the texts */

static char text[MOST_TEXT + 4096];
static size_t length;

static void say(const char *s) { size_t l = strlen(s); memcpy(text + length, s, l); length += l; }

/* name k: two bytes, none of them a mark of the text, after a part that all names have */
static const char *name(unsigned k, const char *part) {
    static const char bytes[] = "abcdefghijklmnopqrstuvwxyzABCDEFGHIJKLMNOPQRSTUVWXYZ0123456789";
    static char turn[8][40];
    static int at;
    at = (at + 1) % 8;
    snprintf(turn[at], sizeof turn[at], "%s%c%c", part, bytes[k / 62 % 62], bytes[k % 62]);
    return turn[at];
}

static void begin(const char *part) {
    length = 0;
    say(".model m\n.inputs");
    for (unsigned i = 0; i < 4; i++) say(" "), say(name(i, part));
    say("\n.outputs "), say(name(4, part)), say("\n");
}

/* a gate: its name, the names that it reads with what parts them, a cover of one line */
static void add(unsigned gate_name, unsigned count, const unsigned *reads, const char *part, const char *between) {
    say(".names");
    for (unsigned i = 0; i < count; i++) say(between), say(name(reads[i], part));
    say(between), say(name(gate_name, part)), say("\n"), say("1--1" + (4 - count)), say(" 1\n");
}

/* `many` gates in a row, each reading the `count` before it; falling: the last first. Names 4 to 4 + many - 1, below them the inputs. */
static void row(unsigned many, unsigned count, int falling, const char *part, const char *between) {
    begin(part);
    for (unsigned k = 0; k < many; k++) {
        unsigned j = falling ? many - 1 - k : k, reads[4];
        for (unsigned i = 0; i < count; i++) reads[i] = 4 + j - 1 - i;
        add(4 + j, count, reads, part, between);
    }
    say(".end\n");
}

/* gates that each read the `count` after it, and two at the end that read each other */
static void looped(unsigned many, unsigned count) {
    begin("");
    for (unsigned j = 0; j < many; j++) {
        unsigned reads[4], end = 4 + many - 1;
        for (unsigned i = 0; i < count; i++) reads[i] = 4 + j + 1 + i > end ? end : 4 + j + 1 + i;
        if (j + 1 == many) reads[0] = end - 1;
        add(4 + j, j + 2 > many ? 1 : count, reads, "", " ");
    }
    say(".end\n");
}

/* gates that all read the last one, `last`, with every pin, so that its name is compared with all others; no gate has a cover line */
static void late(unsigned many, const char *part, const char *end, const char *last) {
    length = 0;
    say(".model m\n.outputs "), say(last);
    for (unsigned j = 0; j < many; j++) {
        say("\n.names");
        for (unsigned i = 0; i < 4; i++) say(" "), say(last);
        say(" "), say(name(j, part)), say(end);
    }
    say("\n.names "), say(last), say("\n.end\n");
}

static void listed(unsigned count) {
    length = 0;
    say(".model m\n.outputs");
    for (unsigned i = 0; i < count; i++) say(" a");
    say("\n.end\n");
}

static void covered(unsigned lines) {
    begin("");
    say(".names aa ab ac ad ae\n");
    for (unsigned i = 0; i < lines; i++) say(i % 2 ? "1-01 0\n" : "0--1 0\n");
    say(".end\n");
}

static void joined(unsigned lines) {
    length = 0;
    say(".model m\n.inputs ");
    for (unsigned i = 0; i < lines; i++) say("\\\n");
    say("a\n.outputs a\n.end\n");
}

static const char *const made[] = {"in order", "falling", "alike", "alike, 32 bytes", "found last", "after longer", "loop behind", "words", "joined names", "joined lines", "long cover", "small"};
#define MADE (int)(sizeof made / sizeof *made)

static void make(int kind) {
    switch (kind) {
    case 0: row(1024, 4, 0, "", " "); break;
    case 1: row(1024, 4, 1, "", " "); break;
    case 2: row(1024, 1, 1, "qqqqqqq", " "); break;
    case 3: row(58, 4, 1, "qqqqqqqqqqqqqqqqqqqqqqqqqqqqqq", " "); break;
    case 4: late(1015, "q", "q", "q--q"); break;
    case 5: late(1000, "qqqqqqqqqqqq", "", "q"); break;
    case 6: looped(1024, 4); break;
    case 7: listed(16370); break;
    case 8: row(1000, 3, 0, "", "\\\n"); break;
    case 9: joined(16360); break;
    case 10: covered(4660); break;
    default: row(4, 4, 0, "", " "); break;
    }
    if (length > MOST_TEXT) { printf("%s: %zu bytes are too many\n", made[kind], length); exit(1); }
}

int main(void) {
    static uint8_t mine[MOST_TEXT], theirs[MOST_TEXT];
    for (int kind = 0; kind < MADE; kind++) {
        make(kind);
        double here = 1e18, c = 1e18;
        uint64_t answer = 0, other = 0;
        uint32_t bytes = 0, others = 0;
        memset(mine, 165, sizeof mine), memset(theirs, 165, sizeof theirs);
        for (int t = 0; t < 20; t++) {
            TIME(here, 1, answer = bench_read_blif((const uint8_t *)text, length, mine, sizeof mine, &bytes));
            TIME(c, 1, other = c_read((const uint8_t *)text, length, theirs, sizeof theirs, &others));
            if (answer != other || bytes != others || memcmp(mine, theirs, sizeof mine)) {
                printf("%s: the library answers %u %u, C %u %u\n", made[kind], BENCH_NUMBER(answer), BENCH_PLACE(answer), BENCH_NUMBER(other), BENCH_PLACE(other));
                return 1;
            }
        }
        char said[40];
        if (answer) snprintf(said, sizeof said, "refused %u %u", BENCH_NUMBER(answer), BENCH_PLACE(answer));
        else snprintf(said, sizeof said, "%u bytes", bytes);
        printf("%s\t%zu\t%s\t%.0f\t%.0f\n", made[kind], length, said, here, c);
    }
    return 0;
}
