/* Tries what plate.h says beside the answers of each call: limits and lengths, NULL with a length of 0, slices at any
   address, several calls at once, packed blocks beside float blocks, other floating-point modes between guard pages,
   outputs that blow up, and the words.
   POSIX, for threads and guard pages. Any claim that does not hold ends it with status 1. */
#define _GNU_SOURCE
#include "plate.h"
#include "plate_words.h"
#include "records.h"

#include <pthread.h>
#include <stdio.h>
#include <stdlib.h>
#include <string.h>
#include <sys/mman.h>
#include <xmmintrin.h>

enum { PAGE = 4096, MOST = PLATE_MOST_BLOCK };

static void hold(int holds, const char *claim)
{
    if (!holds) {
        fprintf(stderr, "does not hold: %s\n", claim);
        exit(1);
    }
}

static int is(plate_answer a, uint32_t number, uint32_t place) { return a.number == number && a.place == place; }

/* ---- lengths and limits */

static void try_lengths(void)
{
    static uint8_t memory[PLATE_MEMORY(MOST) + 1];
    uint8_t bytes[PLATE_BYTES + 1];
    for (uint32_t n = 1; n <= MOST; n++) {
        hold(is(plate_write(n, 0.5f, bytes, PLATE_BYTES), 0, 0), "a plate of each block size");
        hold(is(plate_judge(bytes, PLATE_BYTES), 0, PLATE_MEMORY(n)), "PLATE_MEMORY");
        hold(is(plate_fresh(bytes, PLATE_BYTES, memory, PLATE_MEMORY(n)), 0, 0), "memory of that length");
        hold(is(plate_fresh(bytes, PLATE_BYTES, memory, PLATE_MEMORY(n) - 1), 7, PLATE_MEMORY(n)), "a byte less");
        hold(is(plate_fresh(bytes, PLATE_BYTES, memory, PLATE_MEMORY(n) + 1), 7, PLATE_MEMORY(n)), "a byte more");
    }
    hold(is(plate_write(0, 0.5f, bytes, PLATE_BYTES), 3, 0), "no block of 0");
    hold(is(plate_write(129, 0.5f, bytes, PLATE_BYTES), 3, 0), "no block of 129");
    hold(is(plate_write(1, 0.5f, bytes, PLATE_BYTES + 1), 7, PLATE_BYTES), "PLATE_BYTES");
    hold(is(plate_delay_length(3000.0f), 0, PLATE_LONGEST_LINE), "PLATE_LONGEST_LINE");
    hold(is(plate_delay_length(1000.0f), 0, PLATE_RATE), "PLATE_RATE");
    puts("PLATE_MEMORY(n) is the judge's answer for each n of 1 to 128, and no other length is taken");
}

/* So many nodes, all but the first two of them sums of the input, and so many wires. */
static void crowd(board *b, uint32_t nodes, uint32_t wires)
{
    head(b, MOST, 1);
    node(b, DESTINATION, 0, 0.0f), node(b, PASS, 0, 0.0f);
    for (uint32_t k = 2; k < nodes; k++)
        node(b, SUM, 0, 0.0f);
    for (uint32_t w = 0; w < wires; w++)
        wire(b, 1, 2 + w % 62);
    end(b);
}

/* One all-pass with all line values that there may be, and as many stereo nodes as fit beside it. */
static void largest(board *b, uint32_t lines)
{
    head(b, MOST, 1);
    node(b, DESTINATION, 0, 0.0f), node(b, PASS, 0, 0.0f), node(b, ALLPASS, lines / 2, 0.5f);
    for (uint32_t k = 3; k < PLATE_MOST_NODES; k++)
        node(b, BALANCE, 0, 0.0f);
    wire(b, 1, 2);
    for (uint32_t k = 3; k < PLATE_MOST_NODES; k++)
        wire(b, 1, k), wire(b, 2, k);
    end(b);
}

static void try_limits(void)
{
    static board b;
    crowd(&b, PLATE_MOST_NODES, PLATE_MOST_WIRES);
    hold(judged(&b).number == 0 && b.length == PLATE_MOST_BOARD, "PLATE_MOST_BOARD");
    crowd(&b, PLATE_MOST_NODES, PLATE_MOST_WIRES + 1);
    hold(is(judged(&b), 5, PLATE_MOST_BOARD - 4), "PLATE_MOST_WIRES");
    crowd(&b, PLATE_MOST_NODES + 1, 0);
    hold(is(judged(&b), 4, 8 + 14 * PLATE_MOST_NODES), "PLATE_MOST_NODES");
    largest(&b, PLATE_MOST_LINES);
    hold(is(judged(&b), 0, PLATE_MOST_MEMORY), "PLATE_MOST_MEMORY");
    largest(&b, PLATE_MOST_LINES + 2);
    hold(is(judged(&b), 4, 8 + 2 * 14), "PLATE_MOST_LINES");
    printf("limits: a board of %u bytes, and one with %u bytes of memory, are taken; one more of each is not\n",
           PLATE_MOST_BOARD, PLATE_MOST_MEMORY);
}

/* ---- NULL with a length of 0 */

static void try_null(void)
{
    static uint8_t memory[PLATE_MEMORY(8)];
    uint8_t bytes[PLATE_BYTES];
    const size_t m = sizeof memory, b = sizeof bytes;
    plate_write(8, 0.5f, bytes, b), plate_fresh(bytes, b, memory, m);
    hold(is(plate_judge(NULL, 0), 1, 0) && is(plate_tail(NULL, 0), 1, 0), "NULL as the board");
    hold(is(plate_fresh(NULL, 0, NULL, 0), 1, 0) && is(plate_fresh(bytes, b, NULL, 0), 7, PLATE_MEMORY(8)), "fresh");
    hold(is(plate_message(bytes, b, NULL, 0, 41, 0.5f), 7, PLATE_MEMORY(8)), "message");
    hold(is(plate_mix(bytes, b, NULL, 0, 0.5f), 7, PLATE_MEMORY(8)), "mix");
    hold(is(plate_write(8, 0.5f, NULL, 0), 7, PLATE_BYTES), "write");
    hold(is(plate_block(bytes, b, memory, m, NULL, 0, NULL, 0, NULL, 0), 9, 8), "blocks");
    hold(is(plate_block24(NULL, 0, NULL, 0, NULL, 0, NULL, 0, NULL, 0), 1, 0) &&
             is(plate_block24(bytes, b, memory, m, NULL, 0, NULL, 0, NULL, 0), 13, 8),
         "packed blocks");
    plate_wiring added = plate_add_wire(NULL, 0, 0, 1, 2), pulled = plate_pull_wire(NULL, 0, 0, 1, 2);
    hold(added.number == 15 && added.place == 8 && pulled.number == 1 && pulled.place == 0, "changes of wires");
    puts("NULL with a length of 0 is answered by every call");
}

/* ---- a plate that plays noise, every other block packed, at any addresses; a sum over all that it writes */

static uint32_t noise(uint32_t *state)
{
    *state ^= *state << 13, *state ^= *state >> 17, *state ^= *state << 5;
    return *state;
}

static void noise_block(uint8_t *block, uint32_t n, uint32_t *state)
{
    for (uint32_t i = 0; i < n; i++) {
        float x = (float)(noise(state) >> 8) / 8388608.0f - 1.0f;
        memcpy(block + 4 * i, &x, 4);
    }
}

static void noise_words(uint8_t *block, uint32_t n, uint32_t *state)
{
    for (uint32_t i = 0; i < n; i++) {
        const uint32_t word = noise(state) >> 8;
        block[3 * i] = (uint8_t)word, block[3 * i + 1] = (uint8_t)(word >> 8), block[3 * i + 2] = (uint8_t)(word >> 16);
    }
}

/* A block of noise, as floats or packed: bytes a sample are 4 or 3. */
static void noise_of(size_t width, uint8_t *block, uint32_t n, uint32_t *state)
{
    (width == 3 ? noise_words : noise_block)(block, n, state);
}

/* The call for blocks of so many bytes a sample. */
static plate_answer run(size_t width, const uint8_t *bytes, size_t length, uint8_t *memory, size_t memory_length,
                        const uint8_t *in, uint8_t *out0, uint8_t *out1, uint32_t n)
{
    return (width == 3 ? plate_block24 : plate_block)(bytes, length, memory, memory_length, in, width * n, out0,
                                                      width * n, out1, width * n);
}

static uint32_t sum_of(uint32_t sum, const uint8_t *bytes, size_t length)
{
    for (size_t i = 0; i < length; i++)
        sum = (sum ^ bytes[i]) * 16777619u;
    return sum;
}

static uint32_t play(size_t offset, int blocks)
{
    enum { N = 32 };
    uint8_t *space = malloc(PLATE_BYTES + PLATE_MEMORY(N) + 3 * 4 * N + 6 * 64);
    hold(space != NULL, "memory");
    uint8_t *bytes = space + offset, *memory = bytes + PLATE_BYTES + offset, *in = memory + PLATE_MEMORY(N) + offset,
            *out0 = in + 4 * N + offset, *out1 = out0 + 4 * N + offset;
    uint32_t sum = 2166136261u, state = 2463534242u;
    hold(is(plate_write(N, 0.3f, bytes, PLATE_BYTES), 0, 0), "write");
    hold(is(plate_fresh(bytes, PLATE_BYTES, memory, PLATE_MEMORY(N)), 0, 0), "fresh");
    for (int k = 0; k < blocks; k++) {
        const size_t width = k % 2 ? 3 : 4;
        noise_of(width, in, N, &state);
        hold(is(run(width, bytes, PLATE_BYTES, memory, PLATE_MEMORY(N), in, out0, out1, N), 0, 0), "block");
        sum = sum_of(sum_of(sum, out0, width * N), out1, width * N);
    }
    sum = sum_of(sum, memory, PLATE_MEMORY(N));
    free(space);
    return sum;
}

static void try_addresses(uint32_t expected)
{
    for (size_t offset = 0; offset < 64; offset++)
        hold(play(offset, 200) == expected, "any address");
    puts("slices at 64 remainders by 64: the same samples and the same memory");
}

static void *in_thread(void *result)
{
    *(uint32_t *)result = play(0, 200);
    return NULL;
}

static void try_threads(uint32_t expected)
{
    for (int round = 0; round < 8; round++) {
        pthread_t threads[4];
        uint32_t results[4];
        for (int k = 0; k < 4; k++)
            hold(pthread_create(&threads[k], NULL, in_thread, &results[k]) == 0, "a thread");
        for (int k = 0; k < 4; k++)
            hold(pthread_join(threads[k], NULL) == 0 && results[k] == expected, "calls at once");
    }
    puts("four threads at once: each as alone");
}

/* ---- packed blocks */

/* The pattern of a word, of which 24 bits are taken, in three bytes; and the word in three bytes. */
static void put_word(uint8_t *b, uint32_t pattern)
{
    b[0] = (uint8_t)pattern, b[1] = (uint8_t)(pattern >> 8), b[2] = (uint8_t)(pattern >> 16);
}

static int32_t word_at(const uint8_t *b)
{
    const int32_t pattern = b[0] | b[1] << 8 | b[2] << 16;
    return pattern > PLATE_MOST_WORD ? pattern - (1 << 24) : pattern;
}

static int32_t within(int32_t word)
{
    return word > PLATE_MOST_WORD ? PLATE_MOST_WORD : word < PLATE_LEAST_WORD ? PLATE_LEAST_WORD : word;
}

/* The word that a sample goes out as, worked out in doubles: 2^23 x is exact there. */
static int32_t word_of(float x)
{
    if (x != x)
        return 0;
    if (x >= 1.0f || x <= -1.0f)
        return x > 0.0f ? PLATE_MOST_WORD : PLATE_LEAST_WORD;
    const double y = 8388608.0 * (double)x;
    const int32_t whole = (int32_t)y;
    const double rest = y - (double)whole;
    if (rest > 0.5 || (rest == 0.5 && whole % 2 != 0))
        return within(whole + 1);
    return rest < -0.5 || (rest == -0.5 && whole % 2 != 0) ? whole - 1 : whole;
}

/* The float block of a packed one. */
static void floats_of(const uint8_t *words, uint32_t n, uint8_t *floats)
{
    for (uint32_t i = 0; i < n; i++) {
        const float x = (float)word_at(words + 3 * i) / 8388608.0f;
        memcpy(floats + 4 * i, &x, 4);
    }
}

/* A board of blocks of 128 that only passes. */
static void straight(board *b)
{
    head(b, MOST, 1), node(b, DESTINATION, 0, 0.0f), node(b, PASS, 0, 0.0f), wire(b, 1, 0), end(b);
}

/* One that gives what its node 2 holds, a pass with no wire in: any bits that are put into the memory there. */
static void holding(board *b)
{
    head(b, MOST, 1), node(b, DESTINATION, 0, 0.0f), node(b, PASS, 0, 0.0f), node(b, PASS, 0, 0.0f);
    wire(b, 2, 0), end(b);
}

/* Where the samples of nodes 1 and 2 of these boards stand in the memory (docs/REFERENCE.md, "Memory"). */
enum { TAKEN = 4 * (3 + 2 * MOST + 3), HELD = TAKEN + 4 * (MOST + 3) };

/* Every word there is: in as the float w / 2^23, and straight out again. */
static void try_every_word(void)
{
    static board b;
    static uint8_t memory[8192];
    uint8_t in[3 * MOST], out0[3 * MOST], out1[3 * MOST], floats[4 * MOST];
    straight(&b);
    const size_t length = judged(&b).place;
    hold(is(plate_fresh(b.bytes, b.length, memory, length), 0, 0), "fresh");
    for (uint32_t from = 0; from < 1u << 24; from += MOST) {
        for (uint32_t i = 0; i < MOST; i++)
            put_word(in + 3 * i, from + i);
        hold(is(run(3, b.bytes, b.length, memory, length, in, out0, out1, MOST), 0, 0), "a packed block");
        floats_of(in, MOST, floats);
        hold(memcmp(memory + TAKEN, floats, sizeof floats) == 0, "a word comes in as w / 2^23");
        hold(memcmp(in, out0, sizeof in) == 0 && memcmp(in, out1, sizeof in) == 0, "a word straight through");
    }
    puts("each of the 2^24 words comes in as w / 2^23 and goes straight out unchanged");
}

/* The words that go out of a mul by factor / 2^shift, worked out in whole numbers. */
static void try_factor(board *b, uint8_t *memory, size_t length, int32_t factor, int shift)
{
    uint8_t in[3 * MOST], out0[3 * MOST], out1[3 * MOST];
    const int32_t over = 1 << shift;
    hold(is(plate_message(b->bytes, b->length, memory, length, 2, (float)factor / (float)over), 0, 0), "a message");
    for (uint32_t k = 0; k < (1u << 24) / (7 * MOST) + 2; k++) {
        /* every seventh word; then those around 0, and those at the two limits */
        const uint32_t step = k < (1u << 24) / (7 * MOST) ? 7 : 1;
        const uint32_t from = step == 7 ? 7 * MOST * k : (k % 2 ? 0x800000u : 0u) - MOST / 2;
        for (uint32_t i = 0; i < MOST; i++)
            put_word(in + 3 * i, from + step * i);
        hold(is(run(3, b->bytes, b->length, memory, length, in, out0, out1, MOST), 0, 0), "a packed block");
        for (uint32_t i = 0; i < MOST; i++) {
            const int32_t product = word_at(in + 3 * i) * factor;
            /* the rest is 0 to over - 1; a half goes to the even number */
            const int32_t rest = product & (over - 1), down = (product - rest) / over;
            const int32_t up = 2 * rest > over || (2 * rest == over && down % 2 != 0);
            hold(word_at(out0 + 3 * i) == within(down + up) && word_at(out1 + 3 * i) == within(down + up),
                 "the nearest word, ties to even, held at the limits");
        }
    }
}

static void try_rounding(void)
{
    static const struct {
        int32_t factor;
        int shift;
    } tried[] = {{1, 1}, {-1, 1}, {1, 2}, {-1, 3}, {-1, 0}, {2, 0}, {-2, 0}};
    static board b;
    static uint8_t memory[8192];
    head(&b, MOST, 1), node(&b, DESTINATION, 0, 0.0f), node(&b, PASS, 0, 0.0f), node(&b, MUL, 0, 1.0f);
    wire(&b, 1, 2), wire(&b, 2, 0), end(&b);
    const size_t length = judged(&b).place;
    hold(is(plate_fresh(b.bytes, b.length, memory, length), 0, 0), "fresh");
    for (size_t k = 0; k < sizeof tried / sizeof *tried; k++)
        try_factor(&b, memory, length, tried[k].factor, tried[k].shift);
    puts("words by 1/2, -1/2, 1/4, -1/8, -1, 2 and -2: the nearest word, ties to even, held at the limits");
}

/* Samples of so many bit patterns, step apart, as they go out. */
static void try_patterns(board *b, uint8_t *memory, size_t length, uint32_t from, uint32_t step, uint32_t count)
{
    uint8_t in[3 * MOST] = {0}, out0[3 * MOST], out1[3 * MOST];
    for (uint32_t k = 0; k < count; k += MOST) {
        float samples[MOST];
        for (uint32_t i = 0; i < MOST; i++) {
            const uint32_t bits = from + step * (k + i);
            memcpy(memory + HELD + 4 * i, &bits, 4);
        }
        memcpy(samples, memory + HELD, sizeof samples);
        hold(is(run(3, b->bytes, b->length, memory, length, in, out0, out1, MOST), 0, 0), "a packed block");
        for (uint32_t i = 0; i < MOST; i++)
            hold(word_at(out0 + 3 * i) == word_of(samples[i]) && word_at(out1 + 3 * i) == word_of(samples[i]),
                 "the word of any float");
    }
}

static void try_any_float(void)
{
    /* 0, the least normal float, half a word, one word, 1/2, 1, 2, and infinity, behind which NaN begin */
    static const uint32_t around[] = {0, 0x00800000u, 0x33800000u, 0x34000000u, 0x3f000000u, 0x3f800000u, 0x40000000u,
                                      0x7f800000u};
    static board b;
    static uint8_t memory[8192];
    holding(&b);
    const size_t length = judged(&b).place;
    hold(is(plate_fresh(b.bytes, b.length, memory, length), 0, 0), "fresh");
    try_patterns(&b, memory, length, 0, 509, UINT32_MAX / 509);
    for (size_t k = 0; k < sizeof around / sizeof *around; k++)
        for (uint32_t sign = 0; sign < 2; sign++)
            try_patterns(&b, memory, length, (around[k] | sign << 31) - 8 * MOST, 1, 16 * MOST);
    puts("each 509th of all floats, and those near zeros, ties, limits and infinities, go out as the word they should");
}

/* A call of plate_block24 that must be refused, with blocks of these lengths: every byte is as found. */
static void refused24(const uint8_t *bytes, size_t length, uint8_t *memory, size_t memory_length, const size_t *lengths,
                      uint32_t number, uint32_t place)
{
    enum { ROOM = 4 * MOST + 8 };
    static uint8_t found[PLATE_MEMORY(MOST) + 1];
    uint8_t blocks[3][ROOM], before[3][ROOM], board_found[PLATE_BYTES];
    uint32_t state = 88172645u;
    for (int k = 0; k < 3; k++)
        noise_words(blocks[k], ROOM / 3, &state), memset(blocks[k] + ROOM / 3 * 3, 0x5a, ROOM % 3);
    memcpy(before, blocks, sizeof blocks);
    memcpy(found, memory, memory_length), memcpy(board_found, bytes, length);
    hold(is(plate_block24(bytes, length, memory, memory_length, blocks[0], lengths[0], blocks[1], lengths[1], blocks[2],
                          lengths[2]),
            number, place),
         "the refusal of a packed block");
    hold(memcmp(found, memory, memory_length) == 0 && memcmp(before, blocks, sizeof blocks) == 0 &&
             memcmp(board_found, bytes, length) == 0,
         "a refused packed block leaves every byte as found");
}

static void try_refused24(void)
{
    static uint8_t memory[PLATE_MEMORY(MOST) + 1];
    static const uint32_t sizes[] = {1, 2, 63, 64, MOST};
    uint8_t bytes[PLATE_BYTES], in[3 * MOST], out0[3 * MOST], out1[3 * MOST];
    uint32_t state = 2463534242u;
    for (size_t k = 0; k < sizeof sizes / sizeof *sizes; k++) {
        const uint32_t n = sizes[k];
        const size_t packed = 3 * n, all[3] = {packed, packed, packed}, m = PLATE_MEMORY(n);
        const size_t others[] = {0, packed - 1, packed + 1, packed - 3, packed + 3, 2 * n, 4 * n};
        plate_write(n, 0.5f, bytes, PLATE_BYTES), plate_fresh(bytes, PLATE_BYTES, memory, m);
        /* a block that is taken, so that there is something to lose */
        noise_words(in, n, &state);
        hold(is(run(3, bytes, PLATE_BYTES, memory, m, in, out0, out1, n), 0, 0), "a packed block");
        for (size_t j = 0; j < sizeof others / sizeof *others; j++) {
            for (int which = 0; which < 3; which++) {
                size_t lengths[3] = {packed, packed, packed};
                lengths[which] = others[j];
                refused24(bytes, PLATE_BYTES, memory, m, lengths, 13, n);
            }
            const size_t lengths[3] = {others[j], others[j], others[j]};
            refused24(bytes, PLATE_BYTES, memory, m, lengths, 13, n);
            /* 1, 7 and 8 come first */
            refused24(bytes, PLATE_BYTES - 1, memory, m, lengths, 1, PLATE_BYTES - 4);
            refused24(bytes, PLATE_BYTES, memory, m - 1, lengths, 7, (uint32_t)m);
            memory[4] ^= 1;
            refused24(bytes, PLATE_BYTES, memory, m, lengths, 8, 0);
            memory[4] ^= 1;
        }
        refused24(bytes, PLATE_BYTES - 1, memory, m, all, 1, PLATE_BYTES - 4);
        refused24(bytes, PLATE_BYTES, memory, m + 1, all, 7, (uint32_t)m);
        memory[4] ^= 1;
        refused24(bytes, PLATE_BYTES, memory, m, all, 8, 0);
        memory[4] ^= 1;
        bytes[4] = 129;
        refused24(bytes, PLATE_BYTES, memory, m, all, 3, 0);
        bytes[4] = (uint8_t)n;
        hold(is(plate_block(bytes, PLATE_BYTES, memory, m, in, packed, out0, packed, out1, packed), 9, n),
             "plate_block takes no packed blocks");
        hold(is(run(3, bytes, PLATE_BYTES, memory, m, in, out0, out1, n), 0, 0), "and it goes on");
    }
    puts("packed blocks of other lengths: 13 with the block size, behind 1, 7 and 8, and every byte as found");
}

/* ---- other floating-point modes */

/* A random accepted board of up to 12 nodes with many modulated all-passes of short and long lines. */
static void random_board(board *b, uint32_t n, uint32_t *r)
{
    static const float values[] = {0.5f, -0.7f, 1.0f, 29.5f, 0.05f, -3.0f, 1e-38f, 3e38f, 1e-42f, 2.0f};
    const uint32_t count = 4 + noise(r) % 9;
    uint32_t types[13];
    do {
        head(b, n, 1);
        node(b, DESTINATION, 0, 0.0f), node(b, PASS, 0, 0.0f);
        for (uint32_t k = 2; k < count; k++) {
            types[k] = noise(r) % 2 ? ALLPASS : SUM + noise(r) % 9;
            types[k] = types[k] == DESTINATION ? SUM : types[k];
            uint32_t length = noise(r) % 3 ? 1 + noise(r) % 5 : 1 + noise(r) % 3000;
            float f = types[k] == SINE ? (float)(noise(r) % 44101) : values[noise(r) % 10];
            node(b, types[k], types[k] == DELAY || types[k] == ALLPASS ? length : 0,
                 types[k] == MUL || types[k] == ADD || types[k] >= ALLPASS ? f : 0.0f);
        }
        for (uint32_t k = 2; k < count; k++)
            for (uint32_t j = 0; types[k] != SINE && j < (types[k] == BALANCE || types[k] == ALLPASS ? 2u : 1u); j++)
                wire(b, (k + 1 + noise(r) % (count - 1)) % count, k);
        wire(b, count - 1, 0), wire(b, count - 2, 0);
        end(b);
    } while (judged(b).number != 0);
}

/* Blocks of the same noise on two memories, the one float blocks all along, the other as chance has it. Words that are
   held at a limit and samples that are NaN are counted. */
static void beside(const uint8_t *bytes, size_t length, uint32_t n, uint32_t *r, uint32_t *held, uint32_t *nans)
{
    static uint8_t floats[PLATE_MOST_MEMORY], mixed[PLATE_MOST_MEMORY];
    const size_t m = plate_judge(bytes, length).place;
    hold(is(plate_fresh(bytes, length, floats, m), 0, 0) && is(plate_fresh(bytes, length, mixed, m), 0, 0), "fresh");
    for (int k = 0; k < 12; k++) {
        const size_t width = noise(r) % 2 ? 3 : 4;
        uint8_t in[3 * MOST], in_floats[4 * MOST], wide[2][4 * MOST], out[2][4 * MOST];
        noise_words(in, n, r), floats_of(in, n, in_floats);
        hold(is(run(4, bytes, length, floats, m, in_floats, wide[0], wide[1], n), 0, 0), "a float block");
        hold(is(run(width, bytes, length, mixed, m, width == 3 ? in : in_floats, out[0], out[1], n), 0, 0),
             "a block in either form");
        hold(memcmp(floats, mixed, m) == 0, "the memory of the float block");
        for (int side = 0; side < 2; side++)
            for (uint32_t i = 0; i < n; i++) {
                float x;
                memcpy(&x, wide[side] + 4 * i, 4);
                hold(width == 3 ? word_at(out[side] + 3 * i) == word_of(x)
                                : memcmp(out[side] + 4 * i, wide[side] + 4 * i, 4) == 0,
                     "the float block's outputs");
                *held += width == 3 && (x >= 1.0f || x < -1.0f), *nans += width == 3 && x != x;
            }
    }
}

static void try_beside(void)
{
    static board b;
    uint8_t bytes[PLATE_BYTES];
    uint32_t r = 521288629u, held = 0, nans = 0;
    enum { BOARDS = 500 };
    for (uint32_t n = 1; n <= MOST; n++) {
        hold(is(plate_write(n, 0.5f, bytes, PLATE_BYTES), 0, 0), "write");
        beside(bytes, PLATE_BYTES, n, &r, &held, &nans);
    }
    for (int k = 0; k < BOARDS; k++) {
        const uint32_t n = 1 + noise(&r) % MOST;
        random_board(&b, n, &r);
        beside(b.bytes, b.length, n, &r, &held, &nans);
    }
    hold(held > 0 && nans > 0, "outputs past the limits and NaN were among them");
    printf("plates of each block size and %d random boards, packed and float blocks mixed: the memory of float blocks, "
           "and their outputs as words (%u past a limit, %u NaN)\n",
           BOARDS, (unsigned)held, (unsigned)nans);
}

/* Whole pages between two that nobody may touch: the lent bytes end, or start, where they do. */
typedef struct {
    uint8_t *start;
    size_t length;
} fenced;

static fenced fence(size_t most)
{
    size_t length = (most + PAGE - 1) / PAGE * PAGE;
    uint8_t *all = mmap(NULL, length + 2 * PAGE, PROT_NONE, MAP_PRIVATE | MAP_ANONYMOUS, -1, 0);
    hold(all != MAP_FAILED && mprotect(all + PAGE, length, PROT_READ | PROT_WRITE) == 0, "guard pages");
    return (fenced){all + PAGE, length};
}

static uint8_t *lent(fenced f, size_t length, int at_end) { return at_end ? f.start + f.length - length : f.start; }

/* All bytes between the guard pages, made such that a change is seen. */
static void mark(fenced f) { memset(f.start, 0x5a, f.length); }

/* A byte beside the lent ones was written. */
static int touched(fenced f, size_t length, int at_end)
{
    const uint8_t *spare = at_end ? f.start : f.start + length;
    for (size_t i = 0; i < f.length - length; i++)
        if (spare[i] != 0x5a)
            return 1;
    return 0;
}

/* Blocks of a random board in a mode, every third one packed; a sum over all that was written. */
static uint32_t play_in_mode(unsigned mode, const board *b, uint32_t n, const fenced *f, int at_end, uint32_t state)
{
    const size_t memory_length = judged(b).place;
    uint8_t *bytes = lent(f[0], b->length, at_end), *memory = lent(f[1], memory_length, at_end);
    mark(f[0]), mark(f[1]);
    memcpy(bytes, b->bytes, b->length);
    const unsigned usual = _mm_getcsr();
    uint32_t sum = 2166136261u;
    _mm_setcsr((usual & ~0xe040u) | mode);
    hold(is(plate_fresh(bytes, b->length, memory, memory_length), 0, 0), "fresh in any mode");
    for (int k = 0; k < 12; k++) {
        const size_t width = k % 3 == 2 ? 3 : 4, length = width * n;
        uint8_t *p[3];
        for (int j = 0; j < 3; j++)
            mark(f[2 + j]), p[j] = lent(f[2 + j], length, at_end);
        noise_of(width, p[0], n, &state);
        hold(run(width, bytes, b->length, memory, memory_length, p[0], p[1], p[2], n).number == 0,
             "a block in any mode");
        for (int j = 0; j < 3; j++)
            hold(!touched(f[2 + j], length, at_end), "nothing beside the blocks is written");
        sum = sum_of(sum_of(sum, p[1], length), p[2], length);
    }
    hold((_mm_getcsr() & 0xffc0u) == (((usual & ~0xe040u) | mode) & 0xffc0u), "the mode is left alone");
    _mm_setcsr(usual);
    hold(!touched(f[0], b->length, at_end) && !touched(f[1], memory_length, at_end), "nothing outside is written");
    return sum_of(sum, memory, memory_length);
}

/* Rounding, flush to zero and denormals are zero, as the bits of the processor's control word. */
static unsigned mode_bits(unsigned mode)
{
    return (mode & 3) << 13 | (mode & 4 ? 0x8000u : 0) | (mode & 8 ? 0x40u : 0);
}

/* An emulator may not know all of them: valgrind does not. */
static int modes_known(void)
{
    const unsigned usual = _mm_getcsr();
    int known = 1;
    for (unsigned mode = 0; mode < 16; mode++) {
        const unsigned asked = (usual & ~0xe040u) | mode_bits(mode);
        _mm_setcsr(asked);
        known &= _mm_getcsr() == asked;
    }
    _mm_setcsr(usual);
    return known;
}

/* Every 61st word straight through. */
static void try_words_in_mode(unsigned mode)
{
    static uint8_t memory[8192];
    static board b;
    uint8_t in[3 * MOST], out0[3 * MOST], out1[3 * MOST];
    const unsigned usual = _mm_getcsr();
    straight(&b);
    const size_t length = judged(&b).place;
    hold(is(plate_fresh(b.bytes, b.length, memory, length), 0, 0), "fresh");
    _mm_setcsr((usual & ~0xe040u) | mode);
    for (uint32_t from = 0; from < 1u << 24; from += 61 * MOST) {
        for (uint32_t i = 0; i < MOST; i++)
            put_word(in + 3 * i, from + 61 * i);
        hold(is(run(3, b.bytes, b.length, memory, length, in, out0, out1, MOST), 0, 0), "a packed block");
        hold(memcmp(in, out0, sizeof in) == 0 && memcmp(in, out1, sizeof in) == 0, "a word straight through, any mode");
    }
    _mm_setcsr(usual);
}

/* Rounded down, 0 + -0 is -0: the one way for it to come out. */
static void try_minus_zero(void)
{
    static board b;
    static uint8_t memory[8192];
    uint8_t in[4 * MOST] = {0}, out0[4 * MOST], out1[4 * MOST];
    const uint32_t minus_zero = 0x80000000u;
    const unsigned usual = _mm_getcsr();
    uint32_t bits;
    holding(&b);
    const size_t length = judged(&b).place;
    hold(is(plate_fresh(b.bytes, b.length, memory, length), 0, 0), "fresh");
    memcpy(memory + HELD, &minus_zero, 4);
    for (size_t width = 3; width <= 4; width++) {
        memset(out0, 0x5a, sizeof out0), memset(out1, 0x5a, sizeof out1);
        _mm_setcsr((usual & ~0xe040u) | mode_bits(1));
        const plate_answer a = run(width, b.bytes, b.length, memory, length, in, out0, out1, MOST);
        _mm_setcsr(usual);
        hold(is(a, 0, 0), "a block");
        memcpy(&bits, out0, 4);
        hold(width == 4 ? bits == minus_zero : word_at(out0) == 0 && word_at(out1) == 0, "a negative zero out as 0");
    }
}

static void try_modes(void)
{
    static board b;
    if (!modes_known()) {
        puts("floating-point modes left out: they cannot be set here");
        return;
    }
    fenced f[5] = {fence(PLATE_MOST_BOARD), fence(262144), fence(4 * MOST), fence(4 * MOST), fence(4 * MOST)};
    uint32_t r = 88172645u, differ[16] = {0};
    enum { BOARDS = 500 };
    for (int k = 0; k < BOARDS; k++) {
        const uint32_t n = 1 + noise(&r) % MOST, state = noise(&r);
        random_board(&b, n, &r);
        uint32_t usual = 0;
        for (unsigned mode = 0; mode < 16; mode++) {
            uint32_t sum = play_in_mode(mode_bits(mode), &b, n, f, 0, state);
            hold(play_in_mode(mode_bits(mode), &b, n, f, 1, state) == sum, "any place between the guard pages");
            if (mode == 0)
                usual = sum;
            differ[mode] += sum != usual;
        }
    }
    for (int k = 0; k < 5; k++)
        munmap(f[k].start - PAGE, f[k].length + 2 * PAGE);
    for (unsigned mode = 0; mode < 16; mode++)
        try_words_in_mode(mode_bits(mode));
    try_minus_zero();
    printf("%d random boards between guard pages, in 16 floating-point modes: nothing outside touched; samples differ on "
           "%u (rounding down), %u (up), %u (to zero), %u (flush to zero), %u (denormals are zero)\n",
           BOARDS, (unsigned)differ[1], (unsigned)differ[2], (unsigned)differ[3], (unsigned)differ[4],
           (unsigned)differ[8]);
    puts("packed words that go straight through are unchanged in all 16 modes, and a negative zero goes out as 0");
}

/* ---- outputs that blow up, and the words */

static void try_blow_up(void)
{
    static board b;
    static uint8_t memory[4096];
    uint8_t in[4] = {0, 0, 0x80, 0x3f}, out0[4], out1[4];
    uint32_t bits = 0, infinite = 0, not_a_number = 0;
    head(&b, 1, 1);
    node(&b, DESTINATION, 0, 0.0f), node(&b, PASS, 0, 0.0f), node(&b, SUM, 0, 0.0f);
    node(&b, MUL, 0, -1e30f), node(&b, DELAY, 3, 0.0f), node(&b, MUL, 0, -1e30f);
    wire(&b, 1, 2), wire(&b, 3, 2), wire(&b, 5, 2), wire(&b, 2, 3), wire(&b, 2, 4), wire(&b, 4, 5), wire(&b, 2, 0);
    end(&b);
    const plate_answer a = judged(&b);
    hold(a.number == 0 && a.place <= sizeof memory, "loops that amplify are a board");
    hold(is(plate_fresh(b.bytes, b.length, memory, a.place), 0, 0), "fresh");
    for (int k = 0; k < 10; k++) {
        hold(is(plate_block(b.bytes, b.length, memory, a.place, in, 4, out0, 4, out1, 4), 0, 0), "a blown-up block");
        memcpy(&bits, out0, 4);
        infinite += (bits & 0x7fffffffu) == 0x7f800000u, not_a_number += (bits & 0x7fffffffu) > 0x7f800000u;
        hold((bits & 0x7fffffffu) <= 0x7f800000u || bits == 0x7fc00000u, "one pattern for NaN");
    }
    hold(infinite > 0 && not_a_number > 0, "infinities and NaN come out");
    printf("a board of two loops that amplify: %u infinite and %u NaN samples of 10, each block answered with 0\n",
           (unsigned)infinite, (unsigned)not_a_number);
}

static void try_words(void)
{
    static const uint32_t numbers[] = {0, 1, 2, 3, 4, 5, 6, 7, 8, 9, 10, 11, 12, 13, 15, 16};
    enum { COUNT = sizeof numbers / sizeof *numbers };
    for (int i = 0; i < COUNT; i++) {
        hold(strcmp(plate_words(numbers[i]), plate_words(999)) != 0, "every answer has words of its own");
        hold((plate_place_words(numbers[i])[0] == 0) == (numbers[i] == 0), "every refusal's place has words");
        for (int j = 0; j < i; j++)
            hold(strcmp(plate_words(numbers[i]), plate_words(numbers[j])) != 0, "no two answers have the same words");
    }
    hold(plate_words(14)[0] != 0 && plate_words(PLATE_ENDLESS)[0] != 0, "any other number has words");
    puts("every answer has its words");
}

int main(void)
{
    const uint32_t expected = play(0, 200);
    try_lengths(), try_limits(), try_null();
    try_addresses(expected), try_threads(expected);
    try_every_word(), try_rounding(), try_any_float(), try_refused24(), try_beside();
    try_modes(), try_blow_up(), try_words();
    return 0;
}
