/* The end of the line: drives a unit as the program rig does and holds what it gives to the 64 bytes that rig wrote.
   Here the unit is this program with the library linked to it, and rig's bytes are read from a file; on a device they
   stand in the firmware, or at the other end of a cable. */
#include "plate.h"
#include "plate_words.h"
#include "records.h"

#include <stdio.h>
#include <string.h>

enum { N = 2, BYTES = 4 * N, BLOCKS = 4, WRITTEN = 2 * BYTES * BLOCKS };

/* The noise: the 32-bit xorshift generator of Marsaglia's paper from its own start, a sample a step. A start that a rig
   sets itself may be any number but 0. */
static uint32_t state = 2463534242u;

static float noise(void)
{
    state ^= state << 13, state ^= state >> 17, state ^= state << 5;
    return (float)((int32_t)(state >> 8) - 0x800000) / 8388608.0f;
}

static void noise_block(uint8_t *block)
{
    for (int i = 0; i < N; i++) {
        const float x = noise();
        memcpy(block + 4 * i, &x, 4);
    }
}

/* The printed board of docs/REFERENCE.md. */
static void printed(board *b)
{
    head(b, N, 1);
    node(b, DESTINATION, 0, 0), node(b, PASS, 0, 0), node(b, ADD, 0, 0), node(b, DELAY, 1, 0), node(b, MUL, 0, 0.5f);
    wire(b, 1, 2), wire(b, 2, 3), wire(b, 3, 4), wire(b, 4, 2), wire(b, 3, 0);
    end(b);
}

static int done(const char *call, plate_answer a)
{
    if (a.number != PLATE_OK)
        printf("%s: refused %u: %s (%s %u)\n", call, (unsigned)a.number, plate_words(a.number),
               plate_place_words(a.number), (unsigned)a.place);
    return a.number == PLATE_OK;
}

/* Four blocks on fresh memory: of each the two output blocks, channel 0 first. */
static int driven(uint8_t *given)
{
    static board b;
    static uint8_t memory[112];
    uint8_t in[BYTES];
    printed(&b);
    if (!done("plate_fresh", plate_fresh(b.bytes, b.length, memory, sizeof memory)))
        return 0;
    for (int k = 0; k < BLOCKS; k++, given += 2 * BYTES) {
        noise_block(in);
        if (!done("plate_block", plate_block(b.bytes, b.length, memory, sizeof memory, in, BYTES, given, BYTES,
                                             given + BYTES, BYTES)))
            return 0;
    }
    return 1;
}

int main(int argc, char **argv)
{
    uint8_t wanted[WRITTEN + 1], given[WRITTEN];
    FILE *f = argc == 2 ? fopen(argv[1], "rb") : NULL;
    if (!f) {
        fprintf(stderr, "use: burst FILE, which has what rig wrote\n");
        return 1;
    }
    const size_t length = fread(wanted, 1, sizeof wanted, f);
    fclose(f);
    if (length != WRITTEN) {
        fprintf(stderr, "%s: not %d bytes\n", argv[1], WRITTEN);
        return 1;
    }
    if (!driven(given))
        return 1;
    for (int i = 0; i < WRITTEN; i++)
        if (given[i] != wanted[i]) {
            printf("the unit fails: byte %d is %02x and not %02x\n", i, given[i], wanted[i]);
            return 1;
        }
    printf("the unit passes: %d bytes as rig wrote them\n", WRITTEN);
    return 0;
}
