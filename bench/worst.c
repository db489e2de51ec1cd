/* What a block costs at worst: boards made to be slow, beside the plate, each at four block sizes; least, median and
   most of many runs, since a deadline looks at the most. Writes the tables of docs/FIRMWARE.md, "Worst case", in
   Markdown. Build and run: bench/worst.sh [RUNS] (after tools/build.sh plate_c). */
#define _GNU_SOURCE
#include <stdio.h>
#include <stdlib.h>
#include <string.h>
#include <time.h>

#include "plate.h"
#include "records.h"

enum { MOST_RUNS = 100000, SIZES = 4, SWEEP = 32 << 20 };

static const uint32_t sizes[SIZES] = {1, 16, 64, 128};
static uint8_t memory[PLATE_MOST_MEMORY], in[512], out0[512], out1[512];
static double times[MOST_RUNS];
static int runs = 2000;

/* ---- boards: node 0 the destination, node 1 the input, which is noise from 0 to 1; `n` is the block size */

static void start(board *b, uint32_t n)
{
    head(b, n, 1);
    node(b, DESTINATION, 0, 0.0f), node(b, PASS, 0, 0.0f);
}

static void plate(board *b, uint32_t n, float size)
{
    (void)size;
    b->length = PLATE_BYTES;
    plate_write(n, 0.5f, b->bytes, b->length);
}

/* `count` all-passes in a chain from node 3 on, which is the input times `size`, each modulated by node 2, the input
   times `ms`: of noise that makes positions all over the lines. */
static void all_passes(board *b, uint32_t n, uint32_t count, uint32_t line, float gain, float ms, float size)
{
    start(b, n);
    node(b, MUL, 0, ms), node(b, MUL, 0, size);
    for (uint32_t k = 4; k < 4 + count; k++)
        node(b, ALLPASS, line, gain);
    wire(b, 1, 2), wire(b, 1, 3);
    for (uint32_t k = 4; k < 4 + count; k++)
        wire(b, k - 1, k), wire(b, 2, k);
    wire(b, 3 + count, 0);
    end(b);
}

/* 60 fill the board, 2,184 samples each are the longest lines then, and 49.5 ms are as many samples. */
static void long_lines(board *b, uint32_t n, float size) { all_passes(b, n, 60, 2184, 0.5f, 49.5f, size); }
static void lines_of_one(board *b, uint32_t n, float size) { all_passes(b, n, 60, 1, 0.5f, 0.0227f, size); }
static void blown_up(board *b, uint32_t n, float size) { all_passes(b, n, 60, 2184, 1e30f, 49.5f, size); }

/* As many as there can be: 62, each modulated by the input itself, noise from 0 to `size` milliseconds, but the first,
   which the last one modulates. 2,114 samples, 47.9 ms, are the longest lines then. */
static void most_all_passes(board *b, uint32_t n, float size)
{
    (void)size;
    start(b, n);
    for (uint32_t k = 2; k < 64; k++)
        node(b, ALLPASS, 2114, 0.5f);
    for (uint32_t k = 2; k < 64; k++)
        wire(b, k - 1, k), wire(b, k == 2 ? 63 : 1, k);
    wire(b, 63, 0);
    end(b);
}

/* 61 nodes of a type in a chain from node 2 on, the input times `size`. */
static void chain(board *b, uint32_t n, uint32_t type, uint32_t line, float f, float size)
{
    start(b, n);
    node(b, MUL, 0, size);
    for (uint32_t k = 3; k < 64; k++)
        node(b, type, line, f);
    for (uint32_t k = 2; k < 64; k++)
        wire(b, k - 1, k);
    wire(b, 63, 0);
    end(b);
}

static void plain_of_one(board *b, uint32_t n, float size) { chain(b, n, ALLPASS, 1, 0.5f, size); }
static void delays_of_one(board *b, uint32_t n, float size) { chain(b, n, DELAY, 1, 0.0f, size); }
static void one_poles(board *b, uint32_t n, float size) { chain(b, n, ONEPOLE, 0, 0.5f, size); }

/* 15 sums and node 0, of 8 sources each: all 128 wires. The sums' sources are the other 48 nodes, in turn. */
static void sums(board *b, uint32_t n, uint32_t leaf, float f)
{
    uint32_t next = 1;
    start(b, n);
    for (uint32_t k = 2; k < 49; k++)
        node(b, leaf, 0, f);
    for (uint32_t k = 49; k < 64; k++)
        node(b, SUM, 0, 0.0f);
    for (uint32_t k = 49; k < 64; k++) {
        uint32_t leaves = k == 49 || k > 56 ? 8 : 7; /* 7 of the sums take another one, so that node 0 reaches all */
        for (uint32_t j = 0; j < leaves; j++, next = next == 48 ? 1 : next + 1)
            wire(b, next, k);
        if (leaves == 7)
            wire(b, k + 7, k);
    }
    for (uint32_t k = 49; k < 57; k++)
        wire(b, k, 0);
    end(b);
}

static void sums_of_passes(board *b, uint32_t n, float size) { (void)size, sums(b, n, PASS, 0.0f); }
static void sums_of_sines(board *b, uint32_t n, float size) { (void)size, sums(b, n, SINE, 12345.6f); }

/* All 128 wires, nearly all the same one. */
static void repeated(board *b, uint32_t n, uint32_t wires)
{
    start(b, n);
    node(b, SUM, 0, 0.0f);
    wire(b, 2, 0);
    for (uint32_t k = 1; k < wires; k++)
        wire(b, 1, 2);
    end(b);
}

static void one_wire_repeated(board *b, uint32_t n, float size) { (void)size, repeated(b, n, 128); }

/* ---- what goes in, and what must come out for a row to be what it says */

static float noise(void)
{
    static uint32_t state = 2463534242u;
    state ^= state << 13, state ^= state >> 17, state ^= state << 5;
    return (float)(state >> 8) / 16777216.0f;
}

static void fill(uint8_t *bytes, size_t values, float size)
{
    for (size_t i = 0; i < values; i++) {
        const float x = noise() * size;
        memcpy(bytes + 4 * i, &x, 4);
    }
}

/* Every line is filled as by a long play: line values may hold any bits. A cell is three values, the samples, the
   line. */
static void fill_lines(const board *b, uint32_t n, float size)
{
    uint8_t *cell = memory;
    for (const uint8_t *record = b->bytes + 8; record[2] == 2; record += 14) {
        uint32_t line;
        memcpy(&line, record + 6, 4);
        line = record[4] == ALLPASS ? 2 * line : line;
        cell += 4 * (3 + n * (record[4] == DESTINATION || record[4] == BALANCE ? 2 : 1));
        fill(cell, line, size);
        cell += 4 * line;
    }
}

enum { ANY, SUBNORMAL, NOT_FINITE };

/* How many samples of the last block are such. */
static uint32_t such(uint32_t n, int what)
{
    uint32_t seen = 0;
    for (uint32_t i = 0; i < n; i++) {
        uint32_t bits;
        memcpy(&bits, out0 + 4 * i, 4);
        bits &= 0x7fffffffu;
        seen += what == ANY || (what == SUBNORMAL ? bits > 0 && bits < 0x800000u : bits >= 0x7f800000u);
    }
    return seen;
}

/* ---- timing, in microseconds */

typedef struct {
    double least, median, most;
} spread;

static double now(void)
{
    struct timespec t;
    clock_gettime(CLOCK_MONOTONIC, &t);
    return (double)t.tv_sec * 1e6 + (double)t.tv_nsec * 1e-3;
}

static int smaller(const void *a, const void *b)
{
    const double x = *(const double *)a, y = *(const double *)b;
    return x < y ? -1 : x > y;
}

static spread spread_of(int count)
{
    qsort(times, (size_t)count, sizeof *times, smaller);
    return (spread){times[0], times[count / 2], times[count - 1]};
}

static void fail(const char *name)
{
    fprintf(stderr, "worst: %s is not what its row says\n", name);
    exit(1);
}

static void block(const char *name, const board *b, size_t length, uint32_t n)
{
    if (plate_block(b->bytes, b->length, memory, length, in, 4 * n, out0, 4 * n, out1, 4 * n).number != 0)
        fail(name);
}

/* Fresh memory with full lines, then some blocks. */
static size_t warm(const char *name, const board *b, uint32_t n, float input, float size)
{
    const plate_answer a = judged(b);
    if (a.number != 0 || plate_fresh(b->bytes, b->length, memory, a.place).number != 0)
        fail(name);
    fill_lines(b, n, size);
    for (uint32_t done = 0; done < 4096; done += n)
        fill(in, n, input), block(name, b, a.place, n);
    return a.place;
}

/* Everything that the caches held is put out of them: a host does other things between two blocks. */
static void sweep(void)
{
    static uint8_t *other;
    if (!other && !(other = malloc(SWEEP)))
        exit(1);
    for (size_t i = 0; i < SWEEP; i += 64)
        other[i]++;
}

static spread timed(const char *name, const board *b, uint32_t n, float input, float size, int what, int cold,
                    int count)
{
    const size_t length = warm(name, b, n, input, size);
    double seen = 0;
    for (int k = 0; k < count; k++) {
        fill(in, n, input);
        if (cold)
            sweep();
        const double before = now();
        block(name, b, length, n);
        times[k] = now() - before;
        seen += such(n, what);
    }
    /* Noise around the least normal float has both: a tenth is asked. */
    if (seen < (what == SUBNORMAL ? 0.1 : 1.0) * n * count)
        fail(name);
    return spread_of(count);
}

/* ---- the tables */

typedef struct {
    const char *name;
    void (*make)(board *b, uint32_t n, float size);
    float input, size; /* how large the input is, and the samples on the board */
    int output;
} row;

/* The least normal float is 1.2e-38. */
static const row rows[] = {
    {"the plate", plate, 1.0f, 1.0f, ANY},
    {"the plate, samples up to 2e-38", plate, 2e-38f, 2e-38f, SUBNORMAL},
    {"62 modulated all-passes of 2,114 samples", most_all_passes, 47.9f, 47.9f, ANY},
    {"60 modulated all-passes of 2,184 samples", long_lines, 1.0f, 1.0f, ANY},
    {"the same, samples up to 2e-38", long_lines, 1.0f, 2e-38f, SUBNORMAL},
    {"the same, samples up to 1e-39", long_lines, 1.0f, 1e-39f, SUBNORMAL},
    {"the same, infinities and NaN", blown_up, 1.0f, 1.0f, NOT_FINITE},
    {"60 modulated all-passes of 1 sample", lines_of_one, 1.0f, 1.0f, ANY},
    {"61 all-passes of 1 sample", plain_of_one, 1.0f, 1.0f, ANY},
    {"61 delays of 1 sample", delays_of_one, 1.0f, 1.0f, ANY},
    {"61 one-poles", one_poles, 1.0f, 1.0f, ANY},
    {"61 one-poles, samples up to 1e-39", one_poles, 1.0f, 1e-39f, SUBNORMAL},
    {"16 sums of 8, of passes: 128 wires", sums_of_passes, 1.0f, 1.0f, ANY},
    {"16 sums of 8, of 47 sines: 128 wires", sums_of_sines, 1.0f, 1.0f, ANY},
    {"127 times the same wire", one_wire_repeated, 1.0f, 1.0f, ANY},
};

static void print_head(const char *what)
{
    printf("| %s |", what);
    for (int s = 0; s < SIZES; s++)
        printf(" N %u |", (unsigned)sizes[s]);
    printf("\n|---|---|---|---|---|\n");
}

static void print_deadline(void)
{
    printf("| *time that a block lasts* |");
    for (int s = 0; s < SIZES; s++)
        printf(" *%.1f* |", sizes[s] * 1e6 / PLATE_RATE);
    printf("\n");
}

static void table(const char *what, int cold, int count, size_t first, size_t last)
{
    static board b;
    print_head(what);
    for (size_t r = first; r < last; r++) {
        printf("| %s |", rows[r].name);
        for (int s = 0; s < SIZES; s++) {
            rows[r].make(&b, sizes[s], rows[r].size);
            const row *x = &rows[r];
            const spread t = timed(x->name, &b, sizes[s], x->input, x->size, x->output, cold, count);
            printf(" %.1f / %.1f / %.1f |", t.least, t.median, t.most);
            fflush(stdout);
        }
        printf("\n");
    }
    print_deadline();
}

/* The other calls, on the board of the most nodes and lines, at N 128. */
static void other_calls(void)
{
    static const char *names[] = {"judge", "tail", "fresh", "message", "add wire", "pull wire"};
    static board b;
    long_lines(&b, 128, 1.0f);
    const size_t length = warm("the calls", &b, 128, 1.0f, 1.0f);
    printf("| Call | least / median / most |\n|---|---|\n");
    for (int c = 0; c < 6; c++) {
        for (int k = 0; k < runs; k++) {
            uint32_t number = 0;
            if (c == 5)
                plate_add_wire(b.bytes, sizeof b.bytes, b.length, 1, 0);
            const double before = now();
            switch (c) {
            case 0: number = judged(&b).number; break;
            case 1: number = plate_tail(b.bytes, b.length).number; break;
            case 2: number = plate_fresh(b.bytes, b.length, memory, length).number; break;
            case 3: number = plate_message(b.bytes, b.length, memory, length, 63, 0.5f).number; break;
            case 4: number = plate_add_wire(b.bytes, sizeof b.bytes, b.length, 1, 0).number; break;
            case 5: number = plate_pull_wire(b.bytes, sizeof b.bytes, b.length + 8, 1, 0).number; break;
            }
            times[k] = now() - before;
            if (number != 0)
                fail(names[c]);
            if (c == 4)
                plate_pull_wire(b.bytes, sizeof b.bytes, b.length + 8, 1, 0);
        }
        const spread t = spread_of(runs);
        printf("| %s | %.2f / %.2f / %.2f |\n", names[c], t.least, t.median, t.most);
    }
}

static void print_growth(const char *what, spread t)
{
    printf(" %s %.2f / %.2f / %.2f;", what, t.least, t.median, t.most);
}

static void growth(void)
{
    static const uint32_t nodes[] = {1, 8, 16, 32, 60}, wires[] = {2, 32, 64, 128};
    static const uint32_t all[] = {1, 2, 4, 8, 16, 32, 64, 128};
    static board b;
    char what[32];
    printf("- Modulated all-passes in a chain, at N 64:");
    for (size_t k = 0; k < sizeof nodes / sizeof *nodes; k++) {
        all_passes(&b, 64, nodes[k], 2184, 0.5f, 49.5f, 1.0f);
        snprintf(what, sizeof what, "%u nodes", (unsigned)nodes[k] + 4);
        print_growth(what, timed(what, &b, 64, 1.0f, 1.0f, ANY, 0, runs));
    }
    printf("\n- Wires into one sum, at N 64:");
    for (size_t k = 0; k < sizeof wires / sizeof *wires; k++) {
        repeated(&b, 64, wires[k]);
        snprintf(what, sizeof what, "%u wires", (unsigned)wires[k]);
        print_growth(what, timed(what, &b, 64, 1.0f, 1.0f, ANY, 0, runs));
    }
    for (int worst = 0; worst < 2; worst++) {
        printf("\n- %s, over N:", worst ? "60 modulated all-passes" : "The plate");
        for (size_t k = 0; k < sizeof all / sizeof *all; k++) {
            (worst ? long_lines : plate)(&b, all[k], 1.0f);
            snprintf(what, sizeof what, "%u", (unsigned)all[k]);
            print_growth(what, timed(what, &b, all[k], 1.0f, 1.0f, ANY, 0, runs));
        }
    }
    printf("\n");
}

int main(int argc, char **argv)
{
    const size_t count = sizeof rows / sizeof *rows;
    if (argc > 1)
        runs = atoi(argv[1]);
    if (runs < 1 || runs > MOST_RUNS)
        runs = 2000;
    printf("Microseconds a block, least / median / most of %d runs:\n\n", runs);
    table("Board", 0, runs, 0, count);
    const int fewer = runs < 10 ? 1 : runs / 10;
    printf("\nThe same with cold caches (32 MiB are written between two blocks), of %d runs:\n\n", fewer);
    table("Board", 1, fewer, 0, 5);
    printf("\nThe other calls on the board of 60 modulated all-passes, N 128, microseconds:\n\n");
    other_calls();
    printf("\nGrowth, microseconds a block, least / median / most:\n\n");
    growth();
    return 0;
}
