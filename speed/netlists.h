/* What the timing programs share: the netlists that they run on, as images, and the clock. */
#include <stdint.h>
#include <stdio.h>
#include <stdlib.h>
#include <string.h>

#include "../include/bench.h"
#include "clock.h"

/* inputs and gates: 12 and 1,024, or as the compiler is told */
#ifndef N
#define N 12
#endif
#ifndef G
#define G 1024
#endif
#define WORDS (8 + 8 * G + 64)

static uint64_t seed = 88172645463325252ull;
static uint64_t next(void) { seed ^= seed << 13; seed ^= seed >> 7; seed ^= seed << 17; return seed; }

/* ---- images */

static uint8_t image[32768];
static size_t image_len;

static void put16(size_t at, unsigned x) { image[at] = x & 255; image[at + 1] = x >> 8; }
static void put32(size_t at, unsigned x) { put16(at, x & 65535); put16(at + 2, x >> 16); }

/* the image's end, after so many outputs, and its length */
static void finish(unsigned outputs) {
    size_t t = 20 * G + 2 * outputs;
    put16(t, N), put16(t + 2, G), put16(t + 4, outputs), put16(t + 6, 1), put32(t + 8, (unsigned)t), put32(t + 12, (unsigned)t + 16);
    image_len = t + 16;
}

/* a gate but for what its pins read: its pin count, a flip and a table by chance */
static void put_gate(unsigned j, unsigned pins) {
    double chance = 0.01 + (double)(next() % 1000) / 20000.0;
    image[20 * j] = pins;
    image[20 * j + 1] = 1;
    put16(20 * j + 2, (unsigned)(next() & ((1ull << (1u << pins)) - 1)));
    memcpy(image + 20 * j + 12, &chance, 8);
}

/* pins: pins a gate; chain: every gate reads the one before; dead: one output, which reads the last gate */
static void make(unsigned pins, int chain, int dead) {
    static unsigned unread[G];
    unsigned waiting = 0;
    memset(image, 0, sizeof image);
    for (unsigned j = 0; j < G; j++) {
        size_t at = 20 * j;
        put_gate(j, pins);
        for (unsigned i = 0; i < pins; i++) {
            unsigned source = (unsigned)(next() % N);
            if (chain ? i == 0 && j > 0 : waiting > 0 && (waiting > 60 || next() % pins == 0)) {
                unsigned k = (unsigned)(next() % waiting);
                source = N + (chain ? j - 1 : unread[k]);
                unread[k] = unread[--waiting];
            }
            put16(at + 4 + 2 * i, source);
        }
        unread[waiting++] = j;
    }
    unsigned outputs = chain ? 1 : dead ? 1 : waiting;
    for (unsigned k = 0; k < outputs; k++) put16(20 * G + 2 * k, N + (chain || dead ? G - 1 : unread[k]));
    finish(outputs);
}

/* Balanced trees of so many 2-pin gates, a power of two; each reads so many of the inputs. In a tree the first half reads inputs, gate half + k the gates
   2k and 2k + 1, and the last one the root and an input. */
static void make_trees(unsigned size, unsigned inputs) {
    memset(image, 0, sizeof image);
    for (unsigned j = 0; j < G; j++) {
        unsigned tree = j / size, k = j % size, base = N + tree * size;
        put_gate(j, 2);
        for (unsigned i = 0; i < 2; i++) {
            unsigned source = (tree + (unsigned)(next() % inputs)) % N;
            if (k == size - 1 && i == 0) source = base + size - 2;
            if (size / 2 <= k && k < size - 1) source = base + 2 * (k - size / 2) + i;
            put16(20 * j + 4 + 2 * i, source);
        }
        if (k == size - 1) put16(20 * G + 2 * tree, N + j);
    }
    finish(G / size);
}

#define KINDS 7
static const char *const kinds[KINDS] = {"forest2", "forest3", "forest4", "chain", "mostly dead", "narrow trees", "one tree"};
static void make_kind(int kind) {
    if (kind < 5) make(kind < 3 ? 2 + kind : kind == 3 ? 2 : 3, kind == 3, kind == 4);
    else make_trees(kind == 5 ? 16 : G, kind == 5 ? 3 : N);
}

