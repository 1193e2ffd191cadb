/* Nanoseconds of each kind of call, the best of fifteen rounds: `NAME:NANOSECONDS`. calls.txt makes the same calls in
 * Rattle.
 *
 *   calls CALLS     so many calls a round */
#define _POSIX_C_SOURCE 199309L
#include "board.h"
#include <stdio.h>
#include <stdlib.h>
#include <time.h>

enum { ROUNDS = 15 };

static board b, shut;
static board_reply r;
static board_map map;
static board_range ranges[BOARD_MOST_RANGES];
static board_window windows[BOARD_MOST_WINDOWS];
static uint32_t at;

static void closed(void) { board_ack(&shut, &r); }
static void nothing(void) { board_ask(&b, 0, 0, 0, 0, 0, 0, &r); }
static void dram_read(void) { board_read(&b, at & 0x7FFFC, 4, false, &r); }
static void dram_write(void) { board_write(&b, at & 0x7FFFC, 4, false, at, &r); }
static void rom_fetch(void) { board_fetch(&b, 0xFFFF0000u | (at & 0xFFFC), 4, false, &r); }
static void wide_read(void) { board_read(&b, (at & 0x7FFF0) + 3, 8, false, &r); }
static void port_61(void) { board_in(&b, 0x61, 1, &r); }
static void config_read(void) { board_in(&b, 0xCFC, 4, &r); }
static void uart_read(void) { board_in(&b, 0x3FD, 1, &r); }
static void uart_write(void) { board_out(&b, 0x3F8, 1, at & 0xFF, &r); }
static void pam_write(void) { board_out(&b, 0xCFE, 1, (at & 4) ? 0x33 : 0x10, &r); }
static void look(void) { board_look(&b, BOARD_READ, at & 0xFFFFC, false, &r); }
static void ack(void) { board_ack(&b, &r); }
static void pulse(void) { board_pulse(&b, 100, &r); }
static void all_ranges(void) { board_ranges(&b, &map, ranges, BOARD_MOST_RANGES, windows, BOARD_MOST_WINDOWS); }
static void rise(void) { uint32_t pulses; board_pulses_to_rise(&b, &pulses); }

static void line(void) {
    static const board_event event = {.what = BOARD_MEMORY, .kind = BOARD_READ, .bytes = 4, .addr = 0x1000};
    static uint8_t into[BOARD_LONGEST_LINE];
    size_t bytes;
    board_text(&event, &r, at, 0, at, into, sizeof into, &bytes);
}

static void decode(void) {
    board_part part;
    board_event event = {.what = BOARD_MEMORY, .kind = BOARD_READ, .bytes = 4, .addr = at & 0xFFFFC};
    board_decode(&b, &event, &part);
}

static const struct { const char *name; void (*call)(void); } rows[] = {
    {"closed handle", closed}, {"no event", nothing}, {"DRAM read", dram_read}, {"DRAM write", dram_write}, {"ROM fetch", rom_fetch},
    {"wide read", wide_read}, {"port 61h", port_61}, {"UART read", uart_read}, {"UART write", uart_write}, {"configuration read", config_read}, {"PAM write", pam_write}, {"look", look},
    {"decode", decode}, {"acknowledge", ack}, {"line of a log", line}, {"100 pulses", pulse}, {"pulses to rise", rise}, {"ranges", all_ranges},
};

static double now(void) {
    struct timespec t;
    clock_gettime(CLOCK_MONOTONIC, &t);
    return (double)t.tv_sec * 1e9 + (double)t.tv_nsec;
}

int main(int argc, char **argv) {
    long calls = argc > 1 ? atol(argv[1]) : 200000;
    static uint8_t rom[65536];
    static board_card cards[1];
    if (board_open(&b, 8, cards, 0, rom, sizeof rom, rom, 0)) return 1;
    board_out(&b, 0xCF8, 4, 0x80000058, &r);
    for (size_t k = 0; k < sizeof rows / sizeof *rows; k++) {
        double best = 1e18;
        for (int round = 0; round < ROUNDS; round++) {
            double from = now();
            for (long n = 0; n < calls; n++) { at = at * 1664525u + 1013904223u; rows[k].call(); }
            double took = (now() - from) / (double)calls;
            if (took < best) best = took;
        }
        printf("%s:%.1f\n", rows[k].name, best);
    }
    board_close(&b);
    return 0;
}
