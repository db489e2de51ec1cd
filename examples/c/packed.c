/* Plays a plate between converters that move packed words: 24 bits, signed, three bytes, the least significant first.
   What the input converter wrote is lent as it is, and what comes out goes to the output converters as it is: nothing
   is converted by hand. The converters are played by this program: an impulse comes in, and what goes out is written to
   a WAV file of 24 bits, whose samples are the same words. */
#include "plate.h"
#include "plate_words.h"

#include <stdio.h>
#include <string.h>

enum { N = 64, BYTES = 3 * N, RATE = 44100, BLOCKS = 2 * RATE / N };

/* Two halves of each buffer: the converters move one while the other is lent. */
static uint8_t in[2][BYTES], left[2][BYTES], right[2][BYTES];

static uint8_t board[PLATE_BYTES], memory[PLATE_MEMORY(N)];

/* The answer's number; a refusal is shown in words. */
static uint32_t shown(const char *call, plate_answer a)
{
    if (a.number != PLATE_OK)
        printf("%s: refused %u: %s (%s %u)\n", call, (unsigned)a.number, plate_words(a.number),
               plate_place_words(a.number), (unsigned)a.place);
    return a.number;
}

/* ---- the converters, which on a device are hardware */

static void put(FILE *f, uint32_t v, int bytes)
{
    for (; bytes > 0; bytes--, v >>= 8)
        fputc((int)(v & 255), f);
}

static void put_header(FILE *f, uint32_t frames)
{
    fwrite("RIFF", 1, 4, f), put(f, 36 + 6 * frames, 4), fwrite("WAVEfmt ", 1, 8, f);
    put(f, 16, 4), put(f, 1, 2), put(f, 2, 2), put(f, RATE, 4), put(f, 6 * RATE, 4), put(f, 6, 2), put(f, 24, 2);
    fwrite("data", 1, 4, f), put(f, 6 * frames, 4);
}

/* The input converter has filled a half: with an impulse of full scale, the word 7FFFFF, at the start. */
static void receive(uint8_t *half, int block)
{
    memset(half, 0, BYTES);
    if (block == 0)
        half[0] = 0xff, half[1] = 0xff, half[2] = 0x7f;
}

/* The output converters take a half of each side, a word of each in turn. */
static void give(FILE *f, const uint8_t *l, const uint8_t *r)
{
    for (int i = 0; i < N; i++)
        fwrite(l + 3 * i, 1, 3, f), fwrite(r + 3 * i, 1, 3, f);
}

/* ---- the firmware */

/* Once: the plate's board, its memory, and how much of it is heard. True if all went well. */
static int start(void)
{
    return shown("plate_write", plate_write(N, 0.5f, board, sizeof board)) == PLATE_OK &&
           shown("plate_fresh", plate_fresh(board, sizeof board, memory, sizeof memory)) == PLATE_OK &&
           shown("plate_mix", plate_mix(board, sizeof board, memory, sizeof memory, 0.7f)) == PLATE_OK;
}

/* Each time a half is full: the answer's number. A block that is refused changes nothing: silence goes out in its
   place, and the next block goes on where the last one ended. */
static uint32_t on_half(int half, size_t in_length)
{
    const uint32_t number =
        shown("plate_block24", plate_block24(board, sizeof board, memory, sizeof memory, in[half], in_length,
                                             left[half], BYTES, right[half], BYTES));
    if (number != PLATE_OK)
        memset(left[half], 0, BYTES), memset(right[half], 0, BYTES);
    return number;
}

/* The size of the word at a block's sample i, its sign aside. */
static int32_t size_of(const uint8_t *block, int i)
{
    const uint8_t *b = block + 3 * i;
    const int32_t pattern = (int32_t)(b[0] | (uint32_t)b[1] << 8 | (uint32_t)b[2] << 16);
    return pattern > PLATE_MOST_WORD ? 0x1000000 - pattern : pattern;
}

int main(int argc, char **argv)
{
    const char *path = argc > 1 ? argv[1] : "packed.wav";
    int32_t loudest = 0;
    if (!start())
        return 1;
    FILE *f = fopen(path, "wb");
    if (!f) {
        perror(path);
        return 1;
    }

    put_header(f, BLOCKS * N);
    for (int b = 0; b < BLOCKS; b++) {
        const int half = b % 2;
        receive(in[half], b);
        if (on_half(half, BYTES) != PLATE_OK)
            return 1;
        give(f, left[half], right[half]);
        for (int i = 0; i < N; i++) {
            loudest = size_of(left[half], i) > loudest ? size_of(left[half], i) : loudest;
            loudest = size_of(right[half], i) > loudest ? size_of(right[half], i) : loudest;
        }
    }
    int failed = ferror(f);
    if (fclose(f) != 0 || failed) {
        perror(path);
        return 1;
    }
    printf("%s: %d frames, the loudest word %ld of %ld\n", path, BLOCKS * N, (long)loudest, (long)PLATE_MOST_WORD);

    /* What a display shows of a block that is not of N words. */
    printf("a byte too few: ");
    return on_half(0, BYTES - 1) == PLATE_BLOCKS24 && loudest > 0 ? 0 : 1;
}
