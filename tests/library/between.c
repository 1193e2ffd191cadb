/* The calls between and beside steps: sizes that are looked at before a byte is read, seconds of the clock, the interrupt
 * lines, what COM1 holds, and string instructions. Numbers are those of the datasheets: MC146818, 8254, PC16550D. */
#define _GNU_SOURCE
#include "board.h"
#include <stdio.h>
#include <string.h>
#include <sys/mman.h>

static int failed;

static void expect(const char *what, uint64_t got, uint64_t wanted) {
    if (got == wanted) return;
    printf("between: %s: %llu, not %llu\n", what, (unsigned long long)got, (unsigned long long)wanted);
    failed = 1;
}

static const board_card no_card;
static uint8_t rom[65536], disk[1024];
static board b, closed;
static board_reply r;

/* ---- sizes: of what is refused nothing is read, so addresses that nobody may read do */

static void sizes(void) {
    static const struct { const char *what; uint32_t mib, status; size_t rom, disk; } rows[] = {
        {"a disk of 40,000 MiB", 8, BOARD_BAD_DISK, 65536, 40000ull << 20},
        {"a disk of half a sector more", 8, BOARD_BAD_DISK, 524288, 65536 * 512 + 256},
        {"a ROM of 40,000 MiB, and such a disk", 8, BOARD_BAD_ROM, 40000ull << 20, 40000ull << 20},
        {"no memory, and no ROM", 0, BOARD_BAD_SIZE, 0, 40000ull << 20},
        {"513 MiB, and no ROM", 513, BOARD_BAD_SIZE, 0, 0},
    };
    board_card many[9];
    void *nothing = mmap(NULL, 40000ull << 20, PROT_NONE, MAP_PRIVATE | MAP_ANONYMOUS | MAP_NORESERVE, -1, 0);
    if (nothing == MAP_FAILED) return (void)(failed = puts("between: no addresses"));
    for (size_t k = 0; k < sizeof rows / sizeof *rows; k++)
        expect(rows[k].what, board_open(&b, rows[k].mib, &no_card, 0, nothing, rows[k].rom, nothing, rows[k].disk), rows[k].status);
    for (uint8_t k = 0; k < 9; k++) many[k] = (board_card){.device = (uint8_t)(k + 2)};
    expect("nine cards", board_open(&b, 8, many, 9, nothing, 0, nothing, 1), BOARD_BAD_CARDS);
    expect("nine cards, and no memory", board_open(&b, 0, many, 9, nothing, 0, nothing, 1), BOARD_BAD_SIZE);
    many[8].reserved = 1;
    expect("no ninth card, and no memory", board_open(&b, 0, many, 9, nothing, 0, nothing, 1), BOARD_BAD_CARDS);
    expect("a refused open made a board", b.open, 0);
    munmap(nothing, 40000ull << 20);
}

/* ---- seconds */

enum { BCD_24 = 0x02, BCD_12 = 0x00, BINARY_24 = 0x06, BINARY_12 = 0x04, SET = 0x80, UPDATE_INTERRUPTS = 0x10 };

/* second, minute, hour, day, month and year, as they stand at 0, 2, 4, 7, 8 and 9 */
static const uint8_t at[6] = {0, 2, 4, 7, 8, 9};

static const struct { const char *what; uint8_t control, from[6], to[6], weekday; uint64_t digits; } seconds[] = {
    {"within a minute", BCD_24, {0x09, 0x59, 0x23, 0x31, 0x12, 0x99}, {0x10, 0x59, 0x23, 0x31, 0x12, 0x99}, 6, 19991231235910},
    {"a century ends", BCD_24, {0x59, 0x59, 0x23, 0x31, 0x12, 0x99}, {0x00, 0x00, 0x00, 0x01, 0x01, 0x00}, 7, 20000101000000},
    {"a leap day comes", BCD_24, {0x59, 0x59, 0x23, 0x28, 0x02, 0x24}, {0x00, 0x00, 0x00, 0x29, 0x02, 0x24}, 5, 20240229000000},
    {"and none", BINARY_24, {59, 59, 23, 28, 2, 26}, {0, 0, 0, 1, 3, 26}, 1, 20260301000000},
    {"a minute in binary", BINARY_24, {59, 9, 9, 30, 4, 80}, {0, 10, 9, 30, 4, 80}, 4, 19800430091000},
    {"noon", BCD_12, {0x59, 0x59, 0x11, 0x30, 0x11, 0x26}, {0x00, 0x00, 0x92, 0x30, 0x11, 0x26}, 2, 20261130120000},
    {"midnight", BCD_12, {0x59, 0x59, 0x91, 0x30, 0x11, 0x26}, {0x00, 0x00, 0x12, 0x01, 0x12, 0x26}, 3, 20261201000000},
    {"one o'clock", BINARY_12, {59, 59, 12, 1, 12, 26}, {0, 0, 1, 1, 12, 26}, 3, 20261201010000},
    {"one in the afternoon", BINARY_12, {59, 59, 0x8C, 1, 12, 26}, {0, 0, 0x81, 1, 12, 26}, 3, 20261201130000},
    {"the last year", BINARY_24, {59, 59, 23, 31, 12, 79}, {0, 0, 0, 1, 1, 80}, 2, 20800101000000},
};

static const struct { const char *what; uint8_t control, from[6]; } none[] = {
    {"SET", BCD_24 | SET, {0, 0, 0, 0x01, 0x01, 0x26}},
    {"no decimal digit", BCD_24, {0x0A, 0, 0, 0x01, 0x01, 0x26}},
    {"60 seconds", BCD_24, {0x60, 0, 0, 0x01, 0x01, 0x26}},
    {"hour 24", BINARY_24, {0, 0, 24, 1, 1, 26}},
    {"hour 0 of 12", BINARY_12, {0, 0, 0, 1, 1, 26}},
    {"hour 13 of 12", BINARY_12, {0, 0, 13, 1, 1, 26}},
    {"31 April", BINARY_24, {0, 0, 0, 31, 4, 26}},
    {"29 February", BINARY_24, {0, 0, 0, 29, 2, 26}},
    {"day 0", BINARY_24, {0, 0, 0, 0, 1, 26}},
    {"month 13", BINARY_24, {0, 0, 0, 1, 13, 26}},
    {"year 100", BINARY_24, {0, 0, 0, 1, 1, 100}},
};

static uint8_t cmos(uint8_t address) {
    uint8_t byte = 0xA5;
    expect("a byte of the clock", board_cmos_read(&b, address, &byte), BOARD_OK);
    return byte;
}

static void set_clock(uint8_t control, const uint8_t from[6]) {
    board_cmos_write(&b, 11, control);
    board_cmos_write(&b, 6, 0xEE); /* the weekday's is not read */
    for (int k = 0; k < 6; k++) board_cmos_write(&b, at[k], from[k]);
}

static void clock_runs(void) {
    board_event event;
    for (size_t k = 0; k < sizeof seconds / sizeof *seconds; k++) {
        set_clock(seconds[k].control, seconds[k].from);
        expect(seconds[k].what, board_second(&b, &event, &r), BOARD_OK);
        for (int n = 0; n < 6; n++) expect(seconds[k].what, cmos(at[n]), seconds[k].to[n]);
        expect(seconds[k].what, event.value, seconds[k].digits);
        expect(seconds[k].what, event.what == BOARD_TIME && event.reserved == 0, 1);
        expect("a weekday", cmos(6), seconds[k].weekday);
    }
    for (size_t k = 0; k < sizeof none / sizeof *none; k++) {
        board_reply before = r;
        board_event event_before = event;
        set_clock(none[k].control, none[k].from);
        expect(none[k].what, board_second(&b, &event, &r), BOARD_NO_TIME);
        for (int n = 0; n < 6; n++) expect(none[k].what, cmos(at[n]), none[k].from[n]);
        expect("a refused second told something", memcmp(&before, &r, sizeof r) || memcmp(&event_before, &event, sizeof event), 0);
    }
    expect("a second of a closed handle", board_second(&closed, &event, &r), BOARD_BAD_HANDLE);
}

/* Register C: the update's flag, with IRQF where it interrupts; a look leaves it, a guest's read clears it. */
static void flags(void) {
    const uint8_t date[6] = {0, 0, 0, 0x01, 0x01, 0x26};
    board_event event;
    board_out(&b, 0x70, 1, 12, &r), board_in(&b, 0x71, 1, &r);
    expect("no flag", cmos(12), 0);
    expect("VRT", cmos(13), 0x80);
    set_clock(BCD_24 | UPDATE_INTERRUPTS, date);
    board_second(&b, &event, &r);
    expect("UF and IRQF", cmos(12), 0x90);
    expect("UF and IRQF, looked at twice", cmos(12), 0x90);
    uint16_t lines = 0;
    expect("lines", board_lines(&b, &lines), BOARD_OK);
    expect("line 8", lines >> 8 & 1, 1);
    board_in(&b, 0x71, 1, &r);
    expect("what the guest reads", r.value, 0x90);
    expect("and has cleared", cmos(12), 0);
    board_lines(&b, &lines);
    expect("line 8 fell", lines >> 8 & 1, 0);
}

/* ---- lines, and COM1 */

static void lines_stand(void) {
    uint16_t lines = 0xA5A5;
    expect("lines of a closed handle", board_lines(&closed, &lines), BOARD_BAD_HANDLE);
    expect("a refused call told lines", lines, 0xA5A5);
    board_out(&b, 0x43, 1, 0x36, &r); /* counter 0 in mode 3: OUT is high */
    board_irq(&b, 3, true, &r), board_irq(&b, 15, true, &r);
    board_lines(&b, &lines);
    expect("lines 0, 3 and 15", lines, 0x8009);
    board_out(&b, 0x43, 1, 0x30, &r); /* in mode 0: OUT is low */
    board_irq(&b, 3, false, &r), board_irq(&b, 15, false, &r), board_irq(&b, 4, true, &r);
    board_lines(&b, &lines);
    expect("line 4", lines, 0x0010);
}

static void com1(void) {
    board_com1 s;
    memset(&s, 0xA5, sizeof s);
    expect("COM1 of a closed handle", board_serial_state(&closed, &s), BOARD_BAD_HANDLE);
    expect("a refused call told a state", s.count, 0xA5);
    expect("COM1", board_serial_state(&b, &s), BOARD_OK);
    expect("its registers", s.count == 0 && s.ier == 0 && s.iir == 1 && s.lsr == 0x60 && s.msr == 0xB0 && s.emptied == 0, 1);
    expect("line 4 from outside", s.irq4, 1);
    board_out(&b, 0x3FB, 1, 0x83, &r), board_out(&b, 0x3F8, 1, 12, &r), board_out(&b, 0x3F9, 1, 1, &r), board_out(&b, 0x3FB, 1, 3, &r);
    board_out(&b, 0x3FA, 1, 1, &r), board_out(&b, 0x3FF, 1, 0x5A, &r), board_out(&b, 0x3F9, 1, 3, &r), board_out(&b, 0x3FC, 1, 0x0B, &r);
    board_receive(&b, 'a', &r), board_receive(&b, 'b', &r);
    for (int k = 0; k < 2; k++) { /* twice the same: nothing was taken or cleared */
        board_serial_state(&b, &s);
        expect("what came", s.count == 2 && !memcmp(s.received, "ab\0\0\0\0\0\0\0\0\0\0\0\0\0\0", 16), 1);
        expect("set registers", s.lcr == 3 && s.dll == 12 && s.dlm == 1 && s.scr == 0x5A && s.ier == 3 && s.mcr == 0x0B, 1);
        expect("told registers", s.iir == 0xC4 && s.lsr == 0x61 && s.emptied == 1 && s.reserved == 0, 1);
    }
    board_in(&b, 0x3F8, 1, &r);
    expect("the first that came", r.value, 'a');
    board_serial_state(&b, &s);
    expect("the second is next", s.count == 1 && s.received[0] == 'b' && s.received[1] == 0, 1);
}

/* ---- string instructions */

static void select_disk(void) {
    board_out(&b, 0xCF8, 4, 0x80000904, &r), board_out(&b, 0xCFC, 1, 1, &r);
    board_out(&b, 0xCF8, 4, 0x80000940, &r), board_out(&b, 0xCFC, 2, 0x8000, &r), board_out(&b, 0x1F6, 1, 0xE0, &r);
    for (uint16_t port = 0x1F2; port <= 0x1F5; port++) board_out(&b, port, 1, port <= 0x1F3, &r); /* one sector, sector 1 */
}

static void strings(void) {
    uint32_t words[300];
    size_t done = 77;
    memset(words, 0xA5, sizeof words);
    expect("of a closed handle", board_in_many(&closed, 0x1F0, 2, words, 256, &done, &r), BOARD_BAD_HANDLE);
    expect("three bytes", board_in_many(&b, 0x1F0, 3, words, 256, &done, &r), BOARD_NO_EVENT);
    expect("not aligned", board_in_many(&b, 0xCF9, 4, words, 256, &done, &r), BOARD_ALIGNMENT);
    expect("a refused call told something", done == 77 && words[0] == 0xA5A5A5A5, 1);
    board_reply before = r;
    expect("none", board_in_many(&b, 0x1F0, 2, words, 0, &done, &r), BOARD_OK);
    expect("none was made", done == 0 && !memcmp(&before, &r, sizeof r), 1);
    select_disk();
    board_out(&b, 0x1F7, 1, 0x20, &r);
    expect("rep insw", board_in_many(&b, 0x1F0, 2, words, 256, &done, &r), BOARD_OK);
    expect("all words", done, 256);
    for (size_t k = 0; k < 256; k++) expect("a word", words[k], disk[512 + 2 * k] | disk[513 + 2 * k] << 8);
    expect("what was not read", words[256], 0xA5A5A5A5);
    select_disk();
    board_out(&b, 0x1F7, 1, 0x30, &r);
    for (uint32_t k = 0; k < 256; k++) words[k] = k * 257 & 0xFFFF;
    expect("rep outsw", board_out_many(&b, 0x1F0, 2, words, 256, &done, &r), BOARD_OK);
    uint8_t sector[512];
    expect("the sector", board_disk_read(&b, 1, sector, 512), BOARD_OK);
    for (size_t k = 0; k < 256; k++) expect("a word written", sector[2 * k] | sector[2 * k + 1] << 8, words[k]);
}

static void stops(void) {
    const uint32_t hello[5] = {'h', 'e', 'l', 'l', 'o'}, wide[3] = {1, 256, 2}, map[2] = {0x20, 0x30}, reset[3] = {2, 6, 2};
    size_t done = 0;
    expect("a byte sent", board_out_many(&b, 0x3F8, 1, hello, 5, &done, &r), BOARD_OK);
    expect("one byte", done == 1 && r.has_sent == 1 && r.sent == 'h', 1);
    expect("a value of 9 bits second", board_out_many(&b, 0x80, 1, wide, 3, &done, &r), BOARD_OK);
    expect("before it", done, 1);
    expect("a value of 9 bits first", board_out_many(&b, 0x80, 1, wide + 1, 2, &done, &r), BOARD_VALUE);
    board_out(&b, 0xCF8, 4, 0x80000058, &r);
    uint32_t version = r.version;
    expect("PAM", board_out_many(&b, 0xCFF, 1, map, 2, &done, &r), BOARD_OK);
    expect("two changes of the map", done == 2 && r.version == version + 2, 1);
    expect("CF9h", board_out_many(&b, 0xCF9, 1, reset, 3, &done, &r), BOARD_OK);
    expect("a hard reset", done == 2 && r.reset == BOARD_HARD_RESET, 1);
}

/* INT comes up while a sector is written: the disk's interrupt after its last word. */
static void interrupts(void) {
    static const struct { uint16_t port; uint8_t value; } pair[] = {
        {0x20, 0x11}, {0x21, 0x08}, {0x21, 0x04}, {0x21, 0x01}, {0xA0, 0x11}, {0xA1, 0x70}, {0xA1, 0x02}, {0xA1, 0x01}, {0x21, 0xFB}, {0xA1, 0xBF},
    };
    uint32_t words[300] = {0};
    size_t done = 0;
    board_irq(&b, 4, false, &r);
    for (size_t k = 0; k < sizeof pair / sizeof *pair; k++) board_out(&b, pair[k].port, 1, pair[k].value, &r);
    select_disk();
    board_out(&b, 0x1F7, 1, 0x30, &r);
    expect("no INT before the words", r.interrupt, 0);
    expect("more words than a sector has", board_out_many(&b, 0x1F0, 2, words, 300, &done, &r), BOARD_OK);
    expect("INT after the last", done == 256 && r.interrupt == 1, 1);
    expect("while INT stands", board_in_many(&b, 0x80, 1, words, 300, &done, &r), BOARD_OK);
    expect("one a call", done == 1 && r.interrupt == 1, 1);
}

int main(void) {
    board_map map;
    board_range range;
    board_window window;
    for (size_t k = 0; k < sizeof disk; k++) disk[k] = (uint8_t)(k * 7 + k / 256);
    sizes();
    expect("open", board_open(&b, 8, &no_card, 0, rom, sizeof rom, disk, sizeof disk), BOARD_OK);
    board_ranges(&b, &map, &range, 1, &window, 0);
    expect("the memory", map.mib, 8);
    clock_runs();
    flags();
    lines_stand();
    com1();
    strings();
    stops();
    interrupts();
    board_close(&b);
    return failed;
}
