/* Tries what board.h has for a monitor that keeps the guest's memory itself, beside the slots (slots.c): board_prepare,
 * board_access and board_run_until. Exit status 1, with a line for each fault. */
#include "board.h"
#include <stdio.h>
#include <string.h>

enum { ROM_BYTES = 1 << 16, PAM2_WRITES = 0x20, FIRST = 0xCC005, PIT_HERTZ = 1193182, COUNT = 10 };
#define SECOND 1000000000ull

static uint8_t rom[ROM_BYTES], guest[16 << 20];
static board_reply reply;
static int faults;

static void want(const char *what, uint64_t got, uint64_t wanted) {
    if (got == wanted) return;
    printf("inline: %s: %llX and not %llX\n", what, (unsigned long long)got, (unsigned long long)wanted);
    faults++;
}

static board opened(uint32_t mib) {
    static board_card none[1];
    board b = {0};
    for (size_t k = 0; k < ROM_BYTES; k++) rom[k] = (uint8_t)(k * 7);
    want("board_open", board_open(&b, mib, none, 0, rom, sizeof rom, rom, 0), BOARD_OK);
    return b;
}

static uint8_t config(board *b, uint32_t function, uint8_t offset) {
    board_out(b, 0xCF8, 4, 0x80000000u | function << 8 | (offset & 0xFCu), &reply);
    board_in(b, (uint16_t)(0xCFC + offset % 4), 1, &reply);
    return (uint8_t)reply.value;
}

/* Two bytes of the clock, the low one first. */
static uint32_t clock_word(board *b, uint8_t address) {
    uint8_t low = 0, high = 0;
    board_cmos_read(b, address, &low);
    board_cmos_read(b, address + 1, &high);
    return low | (uint32_t)high << 8;
}

/* At power-on and after a hard reset alike: DRB in 8 MiB, KiB from 1 MiB on, and 64 KiB from 16 MiB on. */
static void prepare(uint32_t mib, const uint8_t *boundaries, uint32_t kib, uint32_t rest) {
    board b = opened(mib);
    for (int k = 0; k < 2; k++) {
        want("board_prepare", board_prepare(&b, &reply), BOARD_OK);
        want("CONFADD", (board_in(&b, 0xCF8, 4, &reply), reply.value), 0);
        want("XBCS", config(&b, 0x08, 0x4E), 0xC3);
        for (uint8_t row = 0; row < 8; row++) want("DRB", config(&b, 0x00, 0x60 + row), boundaries[row]);
        want("base memory", clock_word(&b, 0x15), 640);
        want("17h", clock_word(&b, 0x17), kib);
        want("30h", clock_word(&b, 0x30), kib);
        want("34h", clock_word(&b, 0x34), rest);
        board_read(&b, 0xE0000, 1, false, &reply);
        want("E0000h", reply.part[0].target, BOARD_ROM);
        board_out(&b, 0xCF9, 1, 2, &reply);
        board_out(&b, 0xCF9, 1, 6, &reply);
        want("reset", reply.reset, BOARD_HARD_RESET);
    }
    board_close(&b);
}

/* Seven bytes from an odd address on, where writes alone reach main memory; the ends of memory and of the ports. */
static void access_bytes(void) {
    static const uint8_t seven[7] = {1, 2, 3, 4, 5, 6, 7};
    uint8_t data[7];
    board b = opened(16);
    board_config_write(&b, 0x00, 0x5B, PAM2_WRITES, &reply);
    memcpy(data, seven, sizeof data);
    want("write", board_access(&b, BOARD_MEMORY, BOARD_WRITE, FIRST, data, 7, guest, 16, &reply), BOARD_OK);
    want("the guest's bytes", memcmp(guest + FIRST, seven, 7), 0);
    want("before and behind", guest[FIRST - 1] | guest[FIRST + 7], 0);
    want("read", board_access(&b, BOARD_MEMORY, BOARD_READ, FIRST, data, 7, guest, 16, &reply), BOARD_OK);
    for (int k = 0; k < 7; k++) want("read of nobody", data[k], 0xFF);
    board_access(&b, BOARD_MEMORY, BOARD_READ, 0xFFFFFFFD, data, 7, guest, 16, &reply);
    for (int k = 0; k < 7; k++) want("over 4 GiB", data[k], k < 3 ? rom[ROM_BYTES - 3 + k] : 0xFF);
    memset(data, 0, sizeof data);
    board_access(&b, BOARD_MEMORY, BOARD_READ, 1ull << 32, data, 7, guest, 16, &reply);
    for (int k = 0; k < 7; k++) want("from 4 GiB on", data[k], 0xFF);
    memset(data, 0, sizeof data);
    want("port", board_access(&b, BOARD_PORT, BOARD_READ, 0xFFFF, data, 4, guest, 16, &reply), BOARD_OK);
    for (int k = 0; k < 4; k++) want("over port FFFFh", data[k], 0xFF);
    memset(data, 'A', sizeof data);
    board_access(&b, BOARD_PORT, BOARD_WRITE, 0x3F8, data, 1, guest, 16, &reply);
    want("sent", reply.has_sent ? reply.sent : 0, 'A');
    board_close(&b);
}

/* Mode 2 with a count of 10: line 0 rises each ten pulses, and a call ends at each rise; one second has all pulses. */
static void run_until(void) {
    board b = opened(16);
    board_clocks clocks = {0, 0};
    uint64_t calls = 0, before;
    board_out(&b, 0x43, 1, 0x34, &reply);
    board_out(&b, 0x40, 1, COUNT, &reply);
    board_out(&b, 0x40, 1, 0, &reply);
    do {
        before = clocks.pulses;
        want("board_run_until", board_run_until(&b, &clocks, SECOND, &reply), BOARD_OK);
        calls++;
    } while (clocks.pulses != before);
    want("pulses of a second", clocks.pulses, PIT_HERTZ);
    want("seconds", clocks.seconds, 1);
    want("a call for each rise", calls >= PIT_HERTZ / COUNT && calls <= PIT_HERTZ / COUNT + 3, true);
    board_run_until(&b, &clocks, 1000 * SECOND, &reply);
    want("at most a minute in a call", clocks.seconds, 61);
    board_close(&b);
}

int main(void) {
    prepare(1, (const uint8_t[]){1, 1, 1, 1, 1, 1, 1, 1}, 0, 0);
    prepare(8, (const uint8_t[]){1, 1, 1, 1, 1, 1, 1, 1}, 7 * 1024, 0);
    prepare(20, (const uint8_t[]){1, 2, 3, 3, 3, 3, 3, 3}, 19 * 1024, 4 * 16);
    prepare(100, (const uint8_t[]){1, 2, 3, 4, 5, 6, 7, 13}, 0xFFFF, 84 * 16);
    prepare(512, (const uint8_t[]){1, 2, 3, 4, 5, 6, 7, 64}, 0xFFFF, 496 * 16);
    access_bytes();
    run_until();
    printf("inline: %d faults\n", faults);
    return faults > 0;
}
