// The loops of crates/cg_bench in C, to compare with: gcc -O3 bench/fold.c -o fold; ./fold CALL CELLS
// CALL is then, back or into_sequence. It prints the same line.
#include <stdint.h>
#include <stdio.h>
#include <stdlib.h>
#include <string.h>

typedef unsigned __int128 wide;
typedef struct { uint64_t lo, hi; int64_t exp; } enc;

static const uint64_t TOP = 1ull << 63;

// The normal form of ends whose upper end is moved by one place at most.
static inline enc settled(uint64_t lo, uint64_t hi, int64_t exp) {
    if (hi < TOP) return (enc){lo, hi, exp};
    return (enc){lo >> 1, (hi + 1) >> 1, exp + 1};
}

static inline enc added(enc a, enc b) {
    uint64_t places = (uint64_t)(a.exp - b.exp);
    uint64_t lo = places < 64 ? b.lo >> places : 0;
    uint64_t hi = places < 63 ? (b.hi + ((1ull << places) - 1)) >> places : 1;
    return settled(a.lo + lo, a.hi + hi, a.exp);
}

static inline enc plus(enc a, enc b) {
    if (a.hi == 0) return b;
    if (b.hi == 0) return a;
    return a.exp >= b.exp ? added(a, b) : added(b, a);
}

static inline enc times(enc a, enc b) {
    if (a.hi == 0 || b.hi == 0) return (enc){0, 0, 0};
    wide lo = (wide)a.lo * b.lo, hi = (wide)a.hi * b.hi;
    uint64_t top = (uint64_t)((hi + ((1ull << 62) - 1)) >> 62);
    if (top < TOP) return (enc){(uint64_t)(lo >> 62), top, a.exp + b.exp + 62};
    top = (uint64_t)((hi + ((1ull << 63) - 1)) >> 63);
    return (enc){(uint64_t)(lo >> 63), top, a.exp + b.exp + 63};
}

static enc made(uint64_t place) {
    uint64_t x = place * 0x9e3779b97f4a7c15u;
    uint64_t hi = (1ull << 62) + (x >> 2);
    return (enc){hi - (x & 1023), hi, -62 - (int64_t)(x >> 61)};
}

static inline size_t start(size_t cells, size_t a) { return a * (2 * cells + 1 - a) / 2; }

// Each row of the second table, times one entry of the first, is added to a row of sums.
static void then(const enc *p, const enc *t, enc *r, size_t cells) {
    for (size_t a = 0; a < cells; a++) {
        enc *sums = r + start(cells, a);
        for (size_t c = a; c < cells; c++) {
            enc factor = p[start(cells, a) + (c - a)];
            const enc *row = t + start(cells, c);
            for (size_t b = c; b < cells; b++) sums[b - a] = plus(sums[b - a], times(factor, row[b - c]));
        }
    }
}

// The columns of the table are copied once; each of them, times one entry of the context, is added, the youngest first.
static void back(const enc *v, const enc *t, enc *columns, enc *r, size_t cells) {
    for (size_t d = 0; d < cells; d++)
        for (size_t c = 0; c <= d; c++) columns[d * (d + 1) / 2 + c] = t[start(cells, c) + (d - c)];
    for (size_t a = 0; a < cells; a++) {
        enc *sums = r + start(cells, a);
        for (size_t d = cells; d-- > a;) {
            enc factor = v[start(cells, a) + (d - a)];
            const enc *column = columns + d * (d + 1) / 2;
            for (size_t c = a; c <= d; c++) sums[c - a] = plus(sums[c - a], times(factor, column[c]));
        }
    }
}

// Each row of the context, times one entry of the table, is added to a row of sums.
static void into_sequence(const enc *p, const enc *v, enc *r, size_t cells, size_t rows) {
    for (size_t c = 0; c < cells; c++) {
        enc *sums = r + start(cells, c);
        for (size_t a = 0; a <= c && a < rows; a++) {
            enc factor = p[start(cells, a) + (c - a)];
            const enc *row = v + start(cells, a) + (c - a);
            for (size_t d = c; d < cells; d++) sums[d - c] = plus(sums[d - c], times(factor, row[d - c]));
        }
    }
}

int main(int count, char **words) {
    if (count < 3) return 2;
    size_t cells = strtoul(words[2], 0, 10), size = cells * (cells + 1) / 2;
    if (cells > 512) return 2;
    enc *table = malloc((size + 1) * sizeof(enc)), *columns = malloc((size + 1) * sizeof(enc));
    enc *root = calloc(size + 1, sizeof(enc)), *context = calloc(size + 1, sizeof(enc)), *result = calloc(size + 1, sizeof(enc));
    if (!table || !columns || !root || !context || !result) return 6;
    for (size_t place = 0; place < size; place++) table[place] = made(place);
    if (strcmp(words[1], "then")) {
        for (size_t b = 0; b < cells; b++) root[b] = (enc){1ull << 62, 1ull << 62, -62};
        into_sequence(table, root, context, cells, 1);
    }
    if (!strcmp(words[1], "then")) then(table, table, result, cells);
    else if (!strcmp(words[1], "back")) back(context, table, columns, result, cells);
    else if (!strcmp(words[1], "into_sequence")) into_sequence(table, context, result, cells, cells);
    else return 2;
    uint64_t sum = 0;
    for (size_t place = 0; place < size; place++) sum = sum * 31 + result[place].lo + result[place].hi;
    printf("%s cells %zu check sum %llu\n", words[1], cells, (unsigned long long)sum);
    return 0;
}
