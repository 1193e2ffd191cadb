// README's first example in C++: a shadow window that is open for writes alone. Writes its log.
#include "board.h"
#include <iostream>
#include <stdexcept>
#include <string>
#include <vector>

namespace {

void must(uint32_t status) {
    if (status != BOARD_OK) throw std::runtime_error("status " + std::to_string(status));
}

// a board that is closed where it ends
class Board {
public:
    Board(uint32_t mib, const std::vector<uint8_t> &rom) {
        board_card none{};
        must(board_open(&handle, mib, &none, 0, rom.data(), rom.size(), rom.data(), 0));
    }
    Board(const Board &) = delete;
    Board &operator=(const Board &) = delete;
    ~Board() { board_close(&handle); }

    // does an event, and gives its line of the log
    std::string step(uint8_t what, uint8_t kind, uint32_t addr, uint8_t bytes, uint64_t value = 0) {
        board_event event{};
        event.what = what, event.kind = kind, event.addr = addr, event.bytes = bytes, event.value = value;
        board_reply reply;
        must(board_step(&handle, &event, &reply));
        uint8_t line[BOARD_LONGEST_LINE];
        size_t length;
        number++;
        must(board_text(&event, &reply, number, 0, number, line, sizeof line, &length));
        return std::string(line, line + length);
    }

private:
    board handle{};
    uint32_t number = 0;
};

} // namespace

int main() {
    Board b(8, std::vector<uint8_t>(65536));
    std::cout << "access log 1\n";
    std::cout << b.step(BOARD_PORT, BOARD_WRITE, 0xCF8, 4, 0x80000058);
    std::cout << b.step(BOARD_PORT, BOARD_WRITE, 0xCFF, 1, 0x20);
    std::cout << b.step(BOARD_MEMORY, BOARD_WRITE, 0xCC000, 1, 2);
    std::cout << b.step(BOARD_MEMORY, BOARD_READ, 0xCC000, 1);
}
