/* Writes a plate, makes its memory, and renders an impulse to a WAV file: two channels, 16 bits, two seconds. */
#include "plate.h"
#include "plate_words.h"

#include <stdio.h>
#include <stdlib.h>
#include <string.h>

enum { N = 64, RATE = 44100, BLOCKS = 2 * RATE / N };

static void check(const char *call, plate_answer a)
{
    if (a.number != PLATE_OK) {
        fprintf(stderr, "%s: refused %u: %s (%s %u)\n", call, (unsigned)a.number, plate_words(a.number),
                plate_place_words(a.number), (unsigned)a.place);
        exit(1);
    }
}

static void put(FILE *f, uint32_t v, int bytes)
{
    for (; bytes > 0; bytes--, v >>= 8)
        fputc((int)(v & 255), f);
}

static void put_header(FILE *f, uint32_t frames)
{
    fwrite("RIFF", 1, 4, f), put(f, 36 + 4 * frames, 4), fwrite("WAVEfmt ", 1, 8, f);
    put(f, 16, 4), put(f, 1, 2), put(f, 2, 2), put(f, RATE, 4), put(f, 4 * RATE, 4), put(f, 4, 2), put(f, 16, 2);
    fwrite("data", 1, 4, f), put(f, 4 * frames, 4);
}

/* The float at a block's sample i. */
static float float_at(const uint8_t *block, int i)
{
    const uint8_t *b = block + 4 * i;
    uint32_t bits = b[0] | (uint32_t)b[1] << 8 | (uint32_t)b[2] << 16 | (uint32_t)b[3] << 24;
    float x;
    memcpy(&x, &bits, 4);
    return x;
}

/* A sample as 16 bits, held at full scale; a NaN, which no whole number stands for, as 0. */
static uint32_t sixteen(float x)
{
    if (x != x)
        return 0;
    x = x > 1.0f ? 1.0f : x < -1.0f ? -1.0f : x;
    return (uint32_t)(int32_t)(x * 32767.0f);
}

int main(int argc, char **argv)
{
    const char *path = argc > 1 ? argv[1] : "impulse.wav";
    static uint8_t memory[PLATE_MEMORY(N)];
    uint8_t board[PLATE_BYTES], input[4 * N] = {0}, left[4 * N], right[4 * N];

    check("plate_write", plate_write(N, 0.5f, board, sizeof board));
    check("plate_fresh", plate_fresh(board, sizeof board, memory, sizeof memory));
    check("plate_mix", plate_mix(board, sizeof board, memory, sizeof memory, 0.7f));
    FILE *f = fopen(path, "wb");
    if (!f) {
        perror(path);
        return 1;
    }

    put_header(f, BLOCKS * N);
    input[2] = 0x80, input[3] = 0x3f; /* the float 1 */
    for (int b = 0; b < BLOCKS; b++) {
        check("plate_block", plate_block(board, sizeof board, memory, sizeof memory, input, sizeof input, left,
                                         sizeof left, right, sizeof right));
        memset(input, 0, sizeof input);
        for (int i = 0; i < N; i++)
            put(f, sixteen(float_at(left, i)), 2), put(f, sixteen(float_at(right, i)), 2);
    }
    int failed = ferror(f);
    if (fclose(f) != 0 || failed) {
        perror(path);
        return 1;
    }
    printf("%s: %d frames; memory %u bytes\n", path, BLOCKS * N, (unsigned)sizeof memory);
    return 0;
}
