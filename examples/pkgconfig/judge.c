/* Judges a board and prints its memory and its tail; the board is read from standard input, or is a plate if there is
   none. A refusal is told in words. */
#include <plate.h>
#include <plate_words.h>

#include <stdio.h>

static int refused(plate_answer a)
{
    if (a.number == PLATE_OK)
        return 0;
    printf("refused %u %u: %s\n", (unsigned)a.number, (unsigned)a.place, plate_words(a.number));
    return 1;
}

int main(void)
{
    uint8_t board[PLATE_MOST_BOARD + 1];
    size_t length = fread(board, 1, sizeof board, stdin);
    if (length == 0) {
        length = PLATE_BYTES;
        if (refused(plate_write(PLATE_MOST_BLOCK, 0.5f, board, length)))
            return 1;
    }

    plate_answer judged = plate_judge(board, length), tail = plate_tail(board, length);
    if (refused(judged) || refused(tail))
        return 1;
    printf("plate.h %s: %u bytes of board, %u bytes of memory, ", PLATE_VERSION, (unsigned)length, (unsigned)judged.place);
    if (tail.place == PLATE_ENDLESS)
        puts("an endless tail");
    else
        printf("a tail of %u samples\n", (unsigned)tail.place);
    return 0;
}
