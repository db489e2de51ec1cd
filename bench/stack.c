/* How much stack each call takes: it is run in a thread whose stack was painted before, on the plate and on a chain of
   64 nodes, the deepest walk that a board can ask for. Build and run: bench/stack.sh (after tools/build.sh plate_c). */
#include <pthread.h>
#include <stdio.h>
#include <stdlib.h>
#include <string.h>

#include "plate.h"

enum { SPACE = 1 << 20, PAINT = 0xA5, IDLE = 10 };

static uint8_t board[4096], in[512], out0[512], out1[512], written[PLATE_BYTES];
static size_t board_len, memory_len;
static uint8_t *memory;
static int which;
static uint16_t far;
static plate_answer answer;
static plate_wiring wiring;

static void u16(uint32_t v) { board[board_len++] = v & 255; board[board_len++] = v >> 8 & 255; }
static void u32(uint32_t v) { u16(v & 65535); u16(v >> 16); }

static void *call(void *unused)
{
    (void)unused;
    switch (which) {
    case 0: answer = plate_judge(board, board_len); break;
    case 1: answer = plate_tail(board, board_len); break;
    case 2: answer = plate_fresh(board, board_len, memory, memory_len); break;
    case 3: answer = plate_block(board, board_len, memory, memory_len, in, 512, out0, 512, out1, 512); break;
    case 4: answer = plate_message(board, board_len, memory, memory_len, 3, 0.5f); break;
    case 5: answer = plate_mix(board, board_len, memory, memory_len, 0.5f); break;
    case 6: answer = plate_write(128, 0.5f, written, sizeof written); break;
    /* From the input node to an all-pass at the far end of the walk; pulled again, so that the board is as before. */
    case 7: wiring = plate_add_wire(board, sizeof board, board_len, board[6], far); break;
    case 8: wiring = plate_pull_wire(board, sizeof board, board_len + 8, board[6], far); break;
    case 9: answer = plate_block24(board, board_len, memory, memory_len, in, 384, out0, 384, out1, 384); break;
    }
    return NULL;
}

/* The bytes of a thread's stack that call `c` has written to. */
static size_t used(int c)
{
    uint8_t *stack = aligned_alloc(4096, SPACE);
    pthread_attr_t attr;
    pthread_t thread;
    size_t clean = 0;
    memset(stack, PAINT, SPACE);
    pthread_attr_init(&attr);
    pthread_attr_setstack(&attr, stack, SPACE);
    which = c;
    if (pthread_create(&thread, &attr, call, NULL) != 0) exit(1);
    pthread_join(thread, NULL);
    if (wiring.number != 0) exit(1);
    while (clean < SPACE && stack[clean] == PAINT) clean++;
    free(stack);
    return SPACE - clean;
}

/* N 128: a destination, 62 delays and all-passes, and the input pass, each the source of the one before it. */
static void chain(void)
{
    board_len = 0;
    u16(8), u16(1), u16(128), u16(63);
    for (int i = 0; i < 64; i++) {
        int line = i != 0 && i != 63, filter = line && i % 3 == 0;
        u16(14), u16(2), u16(i == 0 ? 3 : i == 63 ? 1 : filter ? 8 : 7), u32(line ? 1000 : 0), u32(filter ? 0x3f000000 : 0);
    }
    for (int i = 63; i > 0; i--) u16(8), u16(3), u16(i), u16(i - 1);
    u16(4), u16(4);
}

int main(void)
{
    static const char *names[] = {"judge", "tail", "fresh", "block", "message", "mix", "write", "add wire", "pull wire", "block24"};
    size_t idle = used(IDLE);
    int too_much = 0;
    for (int deep = 0; deep < 2; deep++) {
        if (deep) chain();
        else board_len = sizeof written, plate_write(128, 0.5f, board, board_len);
        far = deep ? 60 : 5;
        memory_len = plate_judge(board, board_len).place;
        memory = malloc(memory_len);
        plate_fresh(board, board_len, memory, memory_len);
        printf("%s\n", deep ? "a chain of 64 nodes" : "the plate");
        for (int c = 0; c < IDLE; c++) {
            size_t bytes = used(c) - idle;
            printf("  %-9s %6zu bytes of stack%s\n", names[c], bytes, bytes > PLATE_STACK ? ": more than PLATE_STACK" : "");
            too_much |= bytes > PLATE_STACK;
        }
        free(memory);
    }
    return too_much;
}
