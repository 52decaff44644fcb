/* Replays a move log on the board `turn-with-6`. Its last move is forbidden, since 5 heads for point 1 and not for home.
 * Prints: 38 after 4 moves, zones free 5- free */
#include "nizkabel.h"
#include <inttypes.h>
#include <stdio.h>

int main(void) {
    const uint8_t board[] = {0x00, 0x10, 1, 3, 0, 3, 0, 1, 5, 0, 1, 2, 6, 1, 1, 2, 0, 0};
    const uint16_t log[] = {5, 4, 6, 1, 6, NIZKABEL_HOME, 5, 3, 5, NIZKABEL_HOME};
    uint32_t sheet[NIZKABEL_POSITION_ROOM];
    uint64_t moves;
    uint32_t number = nizkabel_replay(board, sizeof board, log, sizeof log / sizeof log[0], sheet, NIZKABEL_POSITION_ROOM, &moves);
    if (number != NIZKABEL_REPLAYED && number != NIZKABEL_FORBIDDEN) {
        printf("refused %u\n", number);
        return 1;
    }
    printf("%" PRIu32 " after %" PRIu64 " moves, zones", number, moves);
    for (int zone = 0; zone < board[5]; zone++) {
        if (sheet[zone] == 0) {
            printf(" free");
        } else {
            printf(" %u%c", sheet[zone] / 2, sheet[zone] % 2 == 0 ? '+' : '-');
        }
    }
    printf("\n");
    return 0;
}
