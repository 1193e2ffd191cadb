/* The calls that `bench/library/instructions` counts: a function for each row, which makes CALLS of them. The row `loop`
 * makes none: what it costs, the script takes off. Compiled with SAID, it writes the status and the reply of each call.
 *
 *   instructions ROW */
#include "board.h"
#include <stdio.h>
#include <stdlib.h>
#include <string.h>

#ifndef CALLS
#define CALLS 10000
#endif

enum { SECTORS = 8, SECTOR = 512, ROM = 65536, MIB = 8, KNOWN = 0x80000 };

static board b;
static board_reply r;
static uint32_t at;

/* What a BIOS writes before it boots: both 8259A with their vectors and masks, counter 0 of the 8254, command and timing of
 * the IDE function, so that the disk answers, and PAM. */
static const struct { uint16_t port; uint8_t bytes; uint32_t value; } bios[] = {
    {0x20, 1, 0x11}, {0x21, 1, 0x08}, {0x21, 1, 0x04}, {0x21, 1, 0x01}, {0xA0, 1, 0x11}, {0xA1, 1, 0x70},
    {0xA1, 1, 0x02}, {0xA1, 1, 0x01}, {0x21, 1, 0xB8}, {0xA1, 1, 0x8F}, {0x43, 1, 0x34}, {0x40, 1, 0x00},
    {0x40, 1, 0x00}, {0xCF8, 4, 0x80000904}, {0xCFC, 1, 0x05}, {0xCF8, 4, 0x80000940}, {0xCFC, 2, 0x8000},
    {0xCF8, 4, 0x80000058},
};

/* A board as a BIOS leaves it, with all pages of the first 512 KiB written. */
static void open_board(void) {
    static uint8_t rom[ROM], disk[SECTORS * SECTOR];
    if (board_open(&b, MIB, NULL, 0, rom, sizeof rom, disk, sizeof disk)) exit(1);
    for (size_t k = 0; k < sizeof bios / sizeof *bios; k++) {
        if (board_out(&b, bios[k].port, bios[k].bytes, bios[k].value, &r)) exit(1);
    }
    for (uint32_t page = 0; page < KNOWN; page += 4096) {
        if (board_write(&b, page, 4, false, page, &r)) exit(1);
    }
}

#ifdef SAID
static void say(uint32_t status) {
    fwrite(&status, sizeof status, 1, stdout);
    fwrite(&r, sizeof r, 1, stdout);
}
#else
#define say(status) ((void)0)
#endif

static uint32_t next(void) { return at = at * 1664525u + 1013904223u; }

#define ROW(name, call)                                                                                               \
    static __attribute__((noinline)) void row_##name(void) {                                                          \
        for (uint32_t n = 0; n < CALLS; n++) {                                                                        \
            uint32_t a = next(), status = call;                                                                       \
            __asm__ volatile("" : : "r"(a), "r"(status), "r"(n) : "memory");                                          \
            say(status);                                                                                              \
        }                                                                                                             \
    }

ROW(loop, 0)
ROW(dram_read, board_read(&b, a & 0x7FFFC, 4, false, &r))
ROW(dram_write, board_write(&b, a & 0x7FFFC, 4, false, a, &r))
ROW(rom_fetch, board_fetch(&b, 0xFFFF0000u | (a & 0xFFFC), 4, false, &r))
ROW(look, board_look(&b, BOARD_READ, a & 0xFFFFC, false, &r))
ROW(config_dword, board_in(&b, 0xCFC, 4, &r))
ROW(uart_status, board_in(&b, 0x3FD, 1, &r))
ROW(ata_status, board_in(&b, 0x1F7, 1, &r))
ROW(port_61h, board_in(&b, 0x61, 1, &r))
ROW(mask_8259a, board_out(&b, 0x21, 1, n % 2 ? 0xB8 : 0xBC, &r))
ROW(acknowledge, board_ack(&b, &r))
ROW(write_8254, board_out(&b, 0x40, 1, n % 2 ? 0x12 : 0x34, &r))
ROW(pulses_100, board_pulse(&b, 100, &r))
ROW(odd_8_bytes, board_read(&b, (a & 0x7FFF0) + 3, 8, false, &r))
ROW(across, board_read(&b, 0xA0000 - 1 - n % 7, 8, false, &r))
ROW(pam_write, board_out(&b, 0xCFE, 1, n % 2 ? 0x10 : 0x33, &r))

static const struct { const char *name; void (*make)(void); } rows[] = {
    {"loop", row_loop}, {"dram_read", row_dram_read}, {"dram_write", row_dram_write}, {"rom_fetch", row_rom_fetch},
    {"look", row_look}, {"config_dword", row_config_dword}, {"uart_status", row_uart_status},
    {"ata_status", row_ata_status}, {"port_61h", row_port_61h}, {"mask_8259a", row_mask_8259a},
    {"acknowledge", row_acknowledge}, {"write_8254", row_write_8254}, {"pulses_100", row_pulses_100},
    {"odd_8_bytes", row_odd_8_bytes}, {"across", row_across}, {"pam_write", row_pam_write},
};

int main(int argc, char **argv) {
    for (size_t k = 0; argc == 2 && k < sizeof rows / sizeof *rows; k++) {
        if (strcmp(rows[k].name, argv[1])) continue;
        open_board();
        rows[k].make();
        board_close(&b);
        return 0;
    }
    return 1;
}
