// Draws the key of the board `turn` in version 2, its carrier numbered 300, with room that is enough for every board, and prints each
// carrier's route and the search count. Prints: home 300: 0+ 1+ 2- 0-, 0 blocked, 6 searched
#include "nizkabel.h"
#include <cstdio>
#include <vector>

int main() {
    // A zone has five bytes: its two ends, the carrier's number, high byte first, and the heading.
    const std::vector<uint8_t> board = {0, 19, 2, 3, 0, 3, 0, 1, 0x01, 0x2C, 0, 1, 2, 0, 0, 0, 1, 2, 0, 0, 0};
    std::vector<uint16_t> plan(NIZKABEL_PLAN_ROOM);
    std::vector<uint16_t> list(NIZKABEL_LIST_ROOM);
    uint32_t out[3];
    const uint32_t verdict = nizkabel_key(board.data(), board.size(), plan.data(), plan.size(), list.data(), list.size(), out);
    if (verdict != NIZKABEL_ORDERED && verdict != NIZKABEL_BLOCKED) {
        std::printf("refused %u\n", verdict);
        return 1;
    }
    for (uint32_t entry = 0; entry < out[0]; entry += 2 + plan[entry + 1]) {
        std::printf("home %u:", plan[entry]);
        for (uint32_t i = entry + 2; i < entry + 2 + plan[entry + 1]; i++) {
            std::printf(" %u%c", plan[i] / 2, plan[i] % 2 == 0 ? '+' : '-');
        }
        std::printf(", ");
    }
    std::printf("%u blocked, %u searched\n", out[1], out[2]);
    return 0;
}
