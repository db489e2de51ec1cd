/* plate.h and plate_words.h alone: compiled as C99 and as C++ by run.sh, and linked with the library. */
#include "plate_words.h"

int main(void)
{
    uint8_t board[PLATE_BYTES];
    plate_answer a = plate_write(PLATE_MOST_BLOCK, 0.5f, board, sizeof board);
    plate_answer none = plate_block24(NULL, 0, NULL, 0, NULL, 0, NULL, 0, NULL, 0);
    return a.number == PLATE_OK && plate_words(a.number)[0] == 's' && PLATE_MEMORY(1) == 236604u &&
                   none.number == PLATE_CUT && none.place == 0
               ? 0
               : 1;
}
