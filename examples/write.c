/* Replays a move log on the board `turn-with-6` and writes the fair copy of where it leads: 6 is home, and 5 has gone round into zone 1.
 * Prints: 00 10 01 03 00 03 00 01 00 00 01 02 05 01 01 02 00 00 */
#include "nizkabel.h"
#include <stdio.h>

int main(void) {
    const uint8_t board[] = {0x00, 0x10, 1, 3, 0, 3, 0, 1, 5, 0, 1, 2, 6, 1, 1, 2, 0, 0};
    const uint16_t log[] = {5, 4, 6, 1, 6, NIZKABEL_HOME, 5, 3};
    uint32_t sheet[NIZKABEL_POSITION_ROOM];
    uint64_t moves;
    uint32_t number = nizkabel_replay(board, sizeof board, log, sizeof log / sizeof log[0], sheet, NIZKABEL_POSITION_ROOM, &moves);
    if (number != NIZKABEL_REPLAYED) {
        printf("refused %u\n", number);
        return 1;
    }
    uint8_t copy[NIZKABEL_COPY_ROOM];
    uint32_t bytes;
    /* An accepted board has its count of zones in byte 5. */
    number = nizkabel_write(board, sizeof board, sheet, board[5], copy, NIZKABEL_COPY_ROOM, &bytes);
    if (number != NIZKABEL_WRITTEN) {
        printf("refused %u\n", number);
        return 1;
    }
    for (uint32_t i = 0; i < bytes; i++) {
        printf("%02X%c", copy[i], i + 1 < bytes ? ' ' : '\n');
    }
    return 0;
}
