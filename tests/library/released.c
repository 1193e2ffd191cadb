/* The bytes that released libraries wrote of a running board: those of kept.released, which the libraries of interface
 * 5, 6 and 7 wrote alike of the board that is brought about here. It is saved as these bytes; they are loaded, and then
 * it is what the events made it, goes on, and is saved as the same bytes again. Values are by hand, from the events and
 * the datasheets.
 *
 *   released <kept.released      exit status 1 where something differs, which is told
 *   released --write             writes the bytes as kept.released has them
 *
 * Bytes are hexadecimal digits; `00*FD` are so many equal ones. */
#include "board.h"
#include <stdio.h>
#include <stdlib.h>
#include <string.h>

enum { ROM = 0x10000, DISK = 1024, MIB = 1, MOST_BYTES = 1 << 15, LINE_BYTES = 24, LINE = 4096 };
enum { VERSION_AT = 8, CARD = 3, COUNT = 10, PULSES = 95, TO_RISE = 6 };

static uint8_t kept[MOST_BYTES], saved[MOST_BYTES];
static board_reply reply;
static int faults;

static void want(const char *what, uint64_t got, uint64_t wanted) {
    if (got == wanted) return;
    printf("released: %s: %llX and not %llX\n", what, (unsigned long long)got, (unsigned long long)wanted);
    faults++;
}

static void out(board *b, uint16_t port, uint8_t value) { want("out", board_out(b, port, 1, value, &reply), BOARD_OK); }

static uint8_t in(board *b, uint16_t port) {
    want("in", board_in(b, port, 1, &reply), BOARD_OK);
    return (uint8_t)reply.value;
}

/* One card with 64 ports, a ROM and a disk of two sectors. */
static void open_board(board *b) {
    static uint8_t rom[ROM], disk[DISK];
    board_card card = {.device = CARD, .bases = 1, .base = {{BOARD_IO_BASE, 6}}};
    rom[0x1007] = 0xC7;
    for (size_t k = 0; k < DISK; k++) disk[k] = (uint8_t)(k < DISK / 2 ? 0xD0 : k);
    want("open", board_open(b, MIB, &card, 1, rom, ROM, disk, DISK), BOARD_OK);
}

/* A window for writes alone with a byte behind it, the 8259As with line 0 pending, the 8254 amid its count, the clock
 * with a date, two bytes that COM1 received, sector 1 read as far as its first word, and sector 0 bad. */
static void happen(board *b) {
    static const uint8_t set_up[][2] = {
        {0x20, 0x11}, {0x21, 8}, {0x21, 4}, {0x21, 1}, {0x21, 0xFE}, {0xA0, 0x11}, {0xA1, 0x70}, {0xA1, 2}, {0xA1, 1},
    };
    want("the window", board_out(b, 0xCF8, 4, 0x80000058, &reply), BOARD_OK);
    out(b, 0xCFF, 0x20);
    want("w CC000", board_write(b, 0xCC000, 1, false, 0x5A, &reply), BOARD_OK);
    want("w 2003", board_write(b, 0x2003, 1, false, 0xE1, &reply), BOARD_OK);
    for (size_t k = 0; k < sizeof set_up / sizeof *set_up; k++) out(b, set_up[k][0], set_up[k][1]);
    out(b, 0x43, 0x34);
    out(b, 0x40, COUNT);
    out(b, 0x40, 0);
    want("pulses", board_pulse(b, PULSES, &reply), BOARD_OK);
    want("the date", board_ask(b, BOARD_TIME, 0, 0, 0, 0, 20260307112233, &reply), BOARD_OK);
    out(b, 0x3FF, 0x77), out(b, 0x3FA, 1); /* SCR, and the queues of COM1 */
    want("a byte", board_ask(b, BOARD_SERIAL, 0, 0, 0, 0, 'k', &reply), BOARD_OK);
    want("a byte", board_ask(b, BOARD_SERIAL, 0, 0, 0, 0, 'l', &reply), BOARD_OK);
    want("IDETIM", board_out(b, 0xCF8, 4, 0x80000940, &reply), BOARD_OK);
    out(b, 0xCFD, 0x80);
    want("command", board_out(b, 0xCF8, 4, 0x80000904, &reply), BOARD_OK);
    out(b, 0xCFC, 1);
    out(b, 0x1F2, 1), out(b, 0x1F3, 1), out(b, 0x1F4, 0), out(b, 0x1F5, 0), out(b, 0x1F6, 0xE0), out(b, 0x1F7, 0x20);
    want("a word", board_in(b, 0x1F0, 2, &reply), BOARD_OK);
    want("sector 0", board_ask(b, BOARD_BAD_SECTOR, 0, 0, 0, 0, 0, &reply), BOARD_OK);
}

/* What the events made of it: PAM2 denies, line 0 is pending, the next word of sector 1 is 02h and 03h. */
static void ask(board *b) {
    uint8_t byte = 0, sector[DISK / 2];
    uint32_t pulses = 0;
    board_look(b, BOARD_READ, 0, false, &reply);
    want("INT", reply.interrupt, 1);
    want("r CC000", board_read(b, 0xCC000, 1, false, &reply), BOARD_OK);
    want("nobody", reply.part[0].target, BOARD_ABORT);
    want("PAM2", reply.part[0].denial_off, 0x5B);
    want("DRAM", (board_dram_read(b, 0xCC000, &byte, 1), byte), 0x5A);
    want("DRAM", (board_dram_read(b, 0x2003, &byte, 1), byte), 0xE1);
    want("ROM", (board_fetch(b, 0xFFFF1007, 1, false, &reply), reply.value), 0xC7);
    want("a sector", board_disk_read(b, 1, sector, sizeof sector), BOARD_OK);
    want("its bytes", sector[0xA5], 0xA5);
    want("the rise", (board_pulses_to_rise(b, &pulses), pulses), TO_RISE);
    want("minutes", (board_cmos_read(b, 2, &byte), byte), 0x22);
    want("years", (board_cmos_read(b, 9, &byte), byte), 0x26);
    want("a scratch register", in(b, 0x3FF), 0x77);
    want("the next word", (board_in(b, 0x1F0, 2, &reply), reply.value), 0x0302);
    want("a byte", in(b, 0x3F8), 'k');
    want("a byte", in(b, 0x3F8), 'l');
    want("a vector", (board_ack(b, &reply), reply.value), 8);
    want("a date", board_second(b, &(board_event){0}, &reply), BOARD_OK);
    want("seconds", (board_cmos_read(b, 0, &byte), byte), 0x34);
}

static size_t read_kept(void) {
    static char line[LINE];
    size_t count = 0;
    while (fgets(line, sizeof line, stdin)) {
        if (line[0] == '#') continue;
        for (char *word = strtok(line, " \n"); word; word = strtok(NULL, " \n")) {
            char *end;
            uint8_t byte = (uint8_t)strtoul(word, &end, 16);
            size_t times = *end == '*' ? strtoul(end + 1, NULL, 16) : 1;
            for (; times > 0 && count < MOST_BYTES; times--) kept[count++] = byte;
        }
    }
    return count;
}

static void write_kept(const uint8_t *bytes, size_t count) {
    for (size_t k = 0, words = 0, times; k < count; k += times) {
        for (times = 1; k + times < count && bytes[k + times] == bytes[k];) times++;
        if (times < 4) times = 1;
        printf(times > 1 ? "%02X*%zX" : "%02X", bytes[k], times);
        putchar(++words % LINE_BYTES == 0 || k + times == count ? '\n' : ' ');
    }
}

int main(int count, char **words) {
    board made = {0}, loaded = {0}, other = {0};
    size_t bytes = 0, again = 0;
    open_board(&made), happen(&made);
    want("save", board_save(&made, saved, sizeof saved, &bytes), BOARD_OK);
    if (count > 1 && strcmp(words[1], "--write") == 0) return write_kept(saved, bytes), faults > 0;
    size_t wanted = read_kept();
    want("how many bytes", bytes, wanted);
    for (size_t k = 0; k < bytes && k < wanted && faults == 0; k++)
        if (saved[k] != kept[k]) printf("released: at %zXh %02X, and not %02X\n", k, saved[k], kept[k]), faults++;
    want("load", board_load(&loaded, kept, wanted), BOARD_OK);
    if (faults) return 1;
    want("save again", board_save(&loaded, saved, sizeof saved, &again), BOARD_OK);
    want("as many bytes", again, wanted);
    want("the same bytes", (uint64_t)memcmp(saved, kept, wanted), 0);
    ask(&made), ask(&loaded);
    kept[VERSION_AT]++;
    want("another version", board_load(&other, kept, wanted), BOARD_OTHER_VERSION);
    board_close(&made), board_close(&loaded);
    printf("released: %d faults\n", faults);
    return faults > 0;
}
