/* README's first example in C: a shadow window that is open for writes alone. Writes its log. */
#include "board.h"
#include <stdio.h>

static board b;
static uint32_t number;

/* does an event, and writes its line of the log */
static int step(uint8_t what, uint8_t kind, uint32_t addr, uint8_t bytes, uint64_t value) {
    board_event event = {.what = what, .kind = kind, .addr = addr, .bytes = bytes, .value = value};
    board_reply reply;
    uint8_t line[BOARD_LONGEST_LINE];
    size_t length;
    number++;
    if (board_step(&b, &event, &reply) || board_text(&event, &reply, number, 0, number, line, sizeof line, &length)) return 0;
    return fwrite(line, 1, length, stdout) == length;
}

int main(void) {
    static uint8_t rom[65536];
    static board_card none;
    if (board_open(&b, 8, &none, 0, rom, sizeof rom, rom, 0)) return 1;
    puts("access log 1");
    int done = step(BOARD_PORT, BOARD_WRITE, 0xCF8, 4, 0x80000058) && step(BOARD_PORT, BOARD_WRITE, 0xCFF, 1, 0x20)
        && step(BOARD_MEMORY, BOARD_WRITE, 0xCC000, 1, 2) && step(BOARD_MEMORY, BOARD_READ, 0xCC000, 1, 0);
    board_close(&b);
    return !done;
}
