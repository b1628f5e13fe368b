// nxdn.h is for C++ too: a key, a sender and a receiver, and what is said at the one end is heard at the other.
#include "nxdn.h"

#include <cstdio>
#include <cstring>

namespace {

int operations = 0, wrong = 0;

void must(uint8_t answer) {
    operations++;
    wrong += answer != NXDN_DONE;
}

}  // namespace

int main() {
    const uint8_t key[8] = {0xAB, 0xCD, 0xEF, 0x01, 0x23, 0x45, 0x67, 0x89}, name[NXDN_NAME] = {'W', 'A', 'R', 'D'};
    const uint8_t vector[NXDN_VECTOR] = {1};
    uint8_t book[NXDN_BOOK] = {}, sender[NXDN_CALL] = {}, receiver[NXDN_CALL] = {};
    uint8_t frame[NXDN_FRAME_FULL] = {}, spoken[NXDN_FRAME_FULL] = {};
    uint32_t counts[4];
    uint64_t sums[6];
    must(nxdn_begin(book, sizeof book, NXDN_DES, 7, name, sizeof name));
    must(nxdn_add(book, sizeof book, NXDN_DES, 7, key, sizeof key));
    must(nxdn_finish(book, sizeof book, NXDN_DES, 7));
    must(nxdn_start(sender, sizeof sender, NXDN_DES, 7, NXDN_FULL_RATE, vector, sizeof vector, book, sizeof book));
    must(nxdn_open(receiver, sizeof receiver, NXDN_DES, 7, NXDN_FULL_RATE, NXDN_HANDSET, vector, sizeof vector, book,
                   sizeof book));
    for (int slot = 0; slot < 20; slot++) {
        std::memset(spoken, slot, sizeof spoken);
        std::memcpy(frame, spoken, sizeof frame);
        must(nxdn_voice(sender, sizeof sender, 15, frame, sizeof frame));
        wrong += std::memcmp(frame, spoken, sizeof frame) == 0;
        must(nxdn_voice(receiver, sizeof receiver, 15, frame, sizeof frame));
        wrong += std::memcmp(frame, spoken, sizeof frame) != 0;
    }
    must(nxdn_end(receiver, sizeof receiver, counts, 4));
    must(nxdn_report(counts, 4, sums, 6));
    wrong += sums[4] != 80 || sums[5] != 80;
    std::printf("%d operations, %d wrong\n", operations, wrong);
    return wrong != 0;
}
