/* Rewires a plate between blocks while it plays, beside a plate that is left alone. Each wire comes or goes while it
   brings nothing but zeros, so no change clicks: the two give the same samples bit for bit, but for one block in which
   a new wire brings sound. Every answer and every byte lent is held to what plate.h says. */
#include "plate.h"
#include "plate_words.h"

#include <stdio.h>
#include <stdlib.h>
#include <string.h>

/* A second impulse comes at block SECOND. */
enum { N = 64, NODES = 51, ROOM = 24, SECOND = 300, BLOCKS = 600 };

/* A plate with its memory and its blocks; the board is the first `length` of its bytes. */
typedef struct {
    uint8_t bytes[PLATE_BYTES + ROOM], *memory, out[2][4 * N];
    size_t length, memory_length;
} tank;

static void fail(const char *what)
{
    fprintf(stderr, "not as plate.h says: %s\n", what);
    exit(1);
}

static void check(const char *call, plate_answer a)
{
    if (a.number != PLATE_OK) {
        fprintf(stderr, "%s: refused %u: %s (%s %u)\n", call, (unsigned)a.number, plate_words(a.number),
                plate_place_words(a.number), (unsigned)a.place);
        exit(1);
    }
}

/* Fully wet: the muls of the dry sound, 43 and 49, bring zeros. The bytes behind the board are the host's own. */
static void start(tank *t)
{
    memset(t->bytes, 0x5a, sizeof t->bytes);
    t->length = PLATE_BYTES;
    check("plate_write", plate_write(N, 1.0f, t->bytes, t->length));
    plate_answer judged = plate_judge(t->bytes, t->length);
    check("plate_judge", judged);
    t->memory_length = judged.place;
    t->memory = malloc(t->memory_length);
    if (!t->memory)
        exit(1);
    check("plate_fresh", plate_fresh(t->bytes, t->length, t->memory, t->memory_length));
}

static void play(tank *t, const uint8_t *input)
{
    check("plate_block", plate_block(t->bytes, t->length, t->memory, t->memory_length, input, 4 * N, t->out[0], 4 * N,
                                     t->out[1], 4 * N));
}

/* The list has each node once at most, ends with node 0, and has zeros behind it; a refusal's is empty. */
static void check_list(const plate_wiring *w)
{
    uint8_t seen[NODES] = {0};
    if (w->number != PLATE_OK ? w->count != 0 : w->count == 0 || w->count > NODES || w->listed[w->count - 1] != 0)
        fail("the list's length or end");
    for (uint32_t i = 0; i < 64; i++)
        if (i < w->count ? w->listed[i] >= NODES || seen[w->listed[i]]++ : w->listed[i] != 0)
            fail("the list");
}

/* The bytes after an accepted change: a record more before the end record, or the newest such record closed up. */
static void change_bytes(uint8_t *bytes, size_t length, int adding, const uint8_t *wire)
{
    const uint8_t end[4] = {4, 0, 4, 0};
    size_t at = length - 4;
    if (adding) {
        memcpy(bytes + at, wire, 8), memcpy(bytes + at + 8, end, 4);
        return;
    }
    do
        at -= 8;
    while (memcmp(bytes + at, wire, 8) != 0);
    memmove(bytes + at, bytes + at + 8, length - at - 8);
}

/* Adds or pulls a wire with `lent` bytes lent, and expects an answer and the bytes that belong to it. */
static void change(tank *t, int adding, uint16_t source, uint16_t target, size_t lent, uint32_t number, uint32_t place,
                   uint32_t count)
{
    const uint8_t wire[8] = {8, 0, 3, 0, (uint8_t)source, 0, (uint8_t)target, 0};
    uint8_t expected[sizeof t->bytes];
    memcpy(expected, t->bytes, sizeof expected);
    if (number == PLATE_OK)
        change_bytes(expected, t->length, adding, wire);

    plate_wiring w = adding ? plate_add_wire(t->bytes, lent, t->length, source, target)
                            : plate_pull_wire(t->bytes, lent, t->length, source, target);
    printf("  %s %2u to %2u: %u, place %u, %u nodes listed", adding ? "add " : "pull", source, target, w.number,
           w.place, w.count);
    if (w.number != number || w.place != place || w.count != count)
        fail("the answer");
    printf("%s%s\n", number == PLATE_OK ? "" : ": ", number == PLATE_OK ? "" : plate_words(number));
    check_list(&w);
    if (memcmp(expected, t->bytes, sizeof expected) != 0)
        fail("the bytes lent");
    if (number != PLATE_OK)
        return;
    t->length = adding ? t->length + 8 : t->length - 8;
    plate_answer judged = plate_judge(t->bytes, t->length);
    check("plate_judge", judged);
    if (judged.place != t->memory_length)
        fail("the memory stays as it is");
}

static void add(tank *t, uint16_t source, uint16_t target, uint32_t count)
{
    change(t, 1, source, target, sizeof t->bytes, PLATE_OK, 0, count);
}

static void pull(tank *t, uint16_t source, uint16_t target, uint32_t count)
{
    change(t, 0, source, target, sizeof t->bytes, PLATE_OK, 0, count);
}

/* What is done before a block, while the input is silent. The plate lists 50 of its nodes: node 1 leads nowhere. */
static void rewire(tank *t, int block)
{
    uint32_t length = (uint32_t)t->length;
    switch (block) {
    case 100:
        printf("block %d: the dry sound, at level 0, is taken out\n", block);
        pull(t, 43, 42, 49), pull(t, 49, 48, 48);
        break;
    case 200:
        printf("block %d: and put back\n", block);
        add(t, 43, 42, 49), add(t, 49, 48, 50);
        break;
    case 250:
        printf("block %d: the input goes to the right side at once\n", block);
        add(t, 2, 44, 50);
        break;
    case 400:
        printf("block %d: and no more\n", block);
        pull(t, 2, 44, 50);
        break;
    case 500:
        printf("block %d: refused changes leave every byte as found\n", block);
        change(t, 1, 2, 44, length + 7, PLATE_ROOM, length + 8, 0);
        change(t, 1, 44, 44, sizeof t->bytes, PLATE_WIRE, length - 4, 0);
        change(t, 1, 1, 2, sizeof t->bytes, PLATE_SOURCES, 2, 0);
        change(t, 0, 2, 44, sizeof t->bytes, PLATE_NO_WIRE, 44, 0);
        break;
    }
}

int main(void)
{
    static tank rewired, alone;
    uint8_t input[4 * N] = {0};
    start(&rewired), start(&alone);
    for (int b = 0; b < BLOCKS; b++) {
        rewire(&rewired, b);
        input[2] = b % SECOND ? 0 : 0x80, input[3] = b % SECOND ? 0 : 0x3f; /* an impulse: the float 1, or 0 */
        play(&rewired, input), play(&alone, input);
        int same = memcmp(rewired.out, alone.out, sizeof alone.out) == 0;
        if (same && b == SECOND)
            fail("a wire that brings sound is heard");
        if (!same && b != SECOND)
            fail("a wire that brings zeros is not");
    }
    printf("%d blocks of %d samples, all as without a change but block %d; memory %u bytes\n", BLOCKS, N, SECOND,
           (unsigned)rewired.memory_length);
    free(rewired.memory), free(alone.memory);
    return 0;
}
