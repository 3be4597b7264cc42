// Prints the kind of each input of a table, Chow's parameters, and how many corrections its verdict takes.
#include <array>
#include <cstdint>
#include <iostream>

#include "threshold.h"

int main() {
    // Three inputs, weights -2 1 1 and T 0: the first falls, the others rise.
    const std::array<std::uint8_t, 3> table = {THRESHOLD_RECORD_TABLE, 3, 0xd5};
    const char *const names[] = {"idle", "rising", "falling", "binate"};
    std::array<std::uint8_t, 8> kinds;
    std::array<std::uint8_t, 16> chow;
    std::array<std::uint8_t, THRESHOLD_ROOM> verdict;
    std::uint32_t made = 0;
    if (threshold_kinds(table.data(), table.size(), kinds.data(), kinds.size()) != 8 ||
        threshold_chow(table.data(), table.size(), chow.data(), chow.size()) != 16 ||
        threshold_decide(table.data(), table.size(), verdict.data(), verdict.size(), &made) < 0) {
        return 1;
    }
    for (int place = 0; place < table[1]; place++) {
        const auto q = static_cast<std::int16_t>(chow[2 * place] | chow[2 * place + 1] << 8);
        std::cout << "input " << place + 1 << ": " << names[kinds[place]] << ", q " << q << "\n";
    }
    std::cout << (verdict[0] == THRESHOLD_RECORD_GATE ? "a gate" : "no gate") << " after " << made << " corrections\n";
}
