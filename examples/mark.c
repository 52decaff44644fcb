/* Draws the key of board K and marks two sheets. Prints: verdict 0, plan 7 2 0 3, marks 0 and 35 */
#include "nizkabel.h"
#include <stdio.h>

int main(void) {
    const uint8_t board[] = {0x00, 0x0C, 1, 2, 0, 2, 0, 1, 7, 0, 0, 1, 0, 0};
    uint16_t plan[NIZKABEL_PLAN_ROOM];
    uint16_t list[NIZKABEL_LIST_ROOM];
    uint32_t out[3];
    uint32_t verdict = nizkabel_key(board, sizeof board, plan, NIZKABEL_PLAN_ROOM, list, NIZKABEL_LIST_ROOM, out);
    printf("verdict %u, plan", verdict);
    for (uint32_t i = 0; i < out[0]; i++) {
        printf(" %u", plan[i]);
    }
    const uint16_t right[] = {0, 7, 2, 0, 3};
    const uint16_t claim[] = {1, 7};
    printf(", marks %u and %u\n", nizkabel_mark(board, sizeof board, right, 5), nizkabel_mark(board, sizeof board, claim, 2));
    return 0;
}
