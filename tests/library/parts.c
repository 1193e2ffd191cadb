/* Parts of a board, by the calls of the library: each line of standard input is a word and what it is given, and is
 * told with what it answers. `#` begins a comment, which is told as it is. Each line has a new board of 1 MiB with a card
 * at device 4, which has 16 ports, and a disk of one sector, unless it says another. Numbers are hexadecimal, but for
 * the pulses and the moments.
 *
 *     timer STEP..    the 8254: `w10` writes the control word 10h, `c3` the byte 3 of a count of counter 0, `p5` gives
 *                     five pulses at once, `rose5` tells how often OUT of counter 0 rises in five, and its level, and
 *                     `?` after how many it next rises
 *     timer-runs      how often many pulses at once and single ones differ: in all modes, in binary and in decimal, of
 *                     counts from 0 to 63, at both levels of gate 2, over runs of pulses and new counts
 *     clock ADDRESS.. FFh is written to each: what is kept of it, what port 71h gives, and the index as it was
 *     disk SECTORS STEP..   a disk of bytes 02h: `bad1` marks a sector, `ok1` is whether it can be read, `1.FF=ABCD`
 *                     sets a word and `1.1FD:0103` bytes, `1.FF?` tells a word, `id54` one of IDENTIFY DEVICE; `c30`
 *                     writes the command register, and `dABCD` a word to the data port. At last come its size and
 *                     last bytes
 *     disk-state SECTORS STEP..   the same, and then the disk's state in the saved board; `02*1FE` are as many bytes
 *     dram MIB STEP.. `4.100=11223344` writes four bytes by the bus, and `4.100?` reads them; `FFFFC=0102` writes a
 *                     stretch by it, `FFFFC+0102` puts one whole or not at all, `FFFFC?` tells eight bytes
 *     width BYTES NUMBER..   the largest value of an access, and whether a number fits and whether it is aligned
 *     cycles read|write PORT BYTES VALUE   how an access to ports is cut: the port, the bytes and what is written
 *     ports STEP..    `21.2=55AA` writes two bytes from port 21h on, `21.2?` reads them: what is read, and the reset
 *     event WORD BYTES PLACE VALUE   whether an event is in range, and what is not
 *     time YEAR MONTH DAY WEEKDAY HOUR   the same of a moment, which has this weekday, 1 for Sunday
 *     setup MIB ROM DISK CARD..   whether a board is opened; a card is its device, 1 for a base of memory or 0 for one
 *                     of ports, log2 of its size and that of its expansion ROM, or 0, as `2:1:4:0` */
#include "board.h"
#include <stdio.h>
#include <stdlib.h>
#include <string.h>

enum { LINE = 1024, SECTOR = 512, ROM = 0x10000, CONFADD = 0xCF8, CONFDATA = 0xCFC };
enum { MOST_SETUP_CARDS = 8, LARGEST_DISK = 0x2000200, LARGEST_ROM = 0x80000 };

static board b;
static board_reply after;

static void must(uint32_t status) {
    if (status != BOARD_OK) exit(8);
}

static void *room_for(size_t bytes) {
    void *room = calloc(bytes ? bytes : 1, 1);
    if (!room) exit(8);
    return room;
}

static uint32_t hex(const char *digits) {
    return (uint32_t)strtoul(digits, NULL, 16);
}

static uint32_t decimal(const char *digits) {
    return (uint32_t)strtoul(digits, NULL, 10);
}

static char *next_word(void) {
    return strtok(NULL, " ");
}

/* The number of the next word, 0 where there is none. */
static uint32_t next_hex(void) {
    const char *word = next_word();
    return word ? hex(word) : 0;
}

/* ---- boards */

static void open_with(uint32_t mib, const board_card *cards, size_t count, const uint8_t *disk, size_t bytes) {
    static const uint8_t rom[ROM];
    must(board_open(&b, mib, cards, count, rom, sizeof rom, disk, bytes));
}

static void open_board(void) {
    static const board_card card = {.device = 4, .bases = 1, .base = {{BOARD_IO_BASE, 4}}};
    static const uint8_t disk[SECTOR];
    open_with(1, &card, 1, disk, sizeof disk);
}

static void out(uint16_t port, uint8_t bytes, uint32_t value) {
    must(board_out(&b, port, bytes, value, &after));
}

static uint32_t in(uint16_t port, uint8_t bytes) {
    must(board_in(&b, port, bytes, &after));
    return (uint32_t)after.value;
}

/* Writes bytes of the register of a function of bus 0. */
static void configure(uint32_t dev, uint32_t fun, uint32_t off, uint8_t bytes, uint32_t value) {
    out(CONFADD, 4, 0x80000000 | dev << 11 | fun << 8 | (off & 0xFC));
    out((uint16_t)(CONFDATA + off % 4), bytes, value);
}

/* The board as bytes, without those of its disk where `disk` is false. */
static uint8_t *save(bool disk, size_t *bytes) {
    uint32_t told = board_save_without(&b, false, !disk, NULL, 0, bytes);
    if (told != BOARD_NO_ROOM) exit(8);
    uint8_t *into = room_for(*bytes);
    must(board_save_without(&b, false, !disk, into, *bytes, bytes));
    return into;
}

/* ---- the timer */

enum { COUNTER_0 = 0x40, COUNTER_2 = 0x42, CONTROL_WORD = 0x43, PORT_61 = 0x61, READ_BACK = 0xCA };

static bool out0(board *of) {
    uint16_t lines = 0;
    must(board_lines(of, &lines));
    return lines & 1;
}

static void pulse(board *of, uint32_t pulses) {
    if (pulses) must(board_pulse(of, pulses, &after));
}

/* How often OUT of counter 0 rises in so many pulses: they are given in stretches, each of which ends with a rise. */
static uint32_t rises(board *of, uint32_t pulses) {
    uint32_t rose = 0, next = 0;
    for (must(board_pulses_to_rise(of, &next)); next && next <= pulses; must(board_pulses_to_rise(of, &next))) {
        pulse(of, next);
        if (!out0(of)) exit(8);
        pulses -= next, rose++;
    }
    pulse(of, pulses);
    return rose;
}

static void tell_rise(void) {
    uint32_t pulses = 0;
    must(board_pulses_to_rise(&b, &pulses));
    if (pulses) printf(" %u", pulses);
    else printf(" never");
}

static void timer_step(const char *step) {
    if (*step == '?') {
        tell_rise();
    } else if (!strncmp(step, "rose", 4)) {
        uint32_t rose = rises(&b, decimal(step + 4));
        printf(" %u,%s", rose, out0(&b) ? "high" : "low");
    } else {
        if (*step == 'w') out(CONTROL_WORD, 1, hex(step + 1));
        if (*step == 'c') out(COUNTER_0, 1, hex(step + 1));
        if (*step == 'p') pulse(&b, decimal(step + 1));
        printf(" -");
    }
}

static void timer(void) {
    open_board();
    for (char *step; (step = next_word());) timer_step(step);
}

/* The same board done three times: many pulses at once, in stretches that end with a rise, and single ones. */
enum { AT_ONCE, IN_STRETCHES, SINGLE, WAYS };
static board ways[WAYS];

static void out_each(uint16_t port, uint32_t value) {
    for (int k = 0; k < WAYS; k++) must(board_out(&ways[k], port, 1, value, &after));
}

static void rewrite(uint32_t count) {
    out_each(COUNTER_0, count), out_each(COUNTER_2, count);
}

/* Counters 0 and 2 at a mode, 0 to 5, and a count, in binary or in decimal, and gate 2 at a level. */
static void program(uint32_t mode, bool is_decimal, uint32_t count, bool gate) {
    uint32_t word = 0x10 | mode << 1 | is_decimal;
    out_each(CONTROL_WORD, word), out_each(CONTROL_WORD, word | 0x80);
    rewrite(count);
    out_each(PORT_61, 1), out_each(PORT_61, gate);
}

/* How often OUT of counter 0 rises in so many pulses, by its level after each. */
static uint32_t single_rises(board *of, uint32_t pulses) {
    uint32_t rose = 0;
    for (bool before = out0(of); pulses; pulses--) {
        pulse(of, 1);
        bool now = out0(of);
        rose += now && !before, before = now;
    }
    return rose;
}

/* Status and count of counters 0 and 2, and the level of OUT of counter 0. */
static uint64_t read_back(board *of) {
    static const uint16_t from[4] = {COUNTER_0, COUNTER_0, COUNTER_2, COUNTER_2};
    uint64_t told = out0(of);
    must(board_out(of, CONTROL_WORD, 1, READ_BACK, &after));
    for (int k = 0; k < 4; k++) {
        must(board_in(of, from[k], 1, &after));
        told = told << 8 | after.value;
    }
    return told;
}

static uint32_t differences(uint32_t mode, bool is_decimal, uint32_t count, bool gate) {
    static const uint32_t runs[][2] = {{0, 9}, {1, 7}, {40, 64}, {3, 3}, {131, 5}, {77, 1}};
    uint32_t found = 0;
    program(mode, is_decimal, count, gate);
    for (size_t k = 0; k < sizeof runs / sizeof *runs; k++) {
        pulse(&ways[AT_ONCE], runs[k][0]);
        bool same = rises(&ways[IN_STRETCHES], runs[k][0]) == single_rises(&ways[SINGLE], runs[k][0]);
        uint64_t told = read_back(&ways[SINGLE]);
        found += !same || read_back(&ways[AT_ONCE]) != told || read_back(&ways[IN_STRETCHES]) != told;
        rewrite(runs[k][1]);
    }
    return found;
}

static void timer_runs(void) {
    uint32_t found = 0;
    open_board();
    size_t bytes;
    uint8_t *fresh = save(true, &bytes);
    for (uint32_t which = 0; which < 1536; which++) {
        for (int k = 0; k < WAYS; k++) must(board_load(&ways[k], fresh, bytes));
        found += differences(which % 6, which / 6 % 2 == 0, which / 24, which / 12 % 2 == 0);
        for (int k = 0; k < WAYS; k++) board_close(&ways[k]);
    }
    free(fresh);
    printf(" %u differences", found);
}

/* ---- the clock and the disk, of which some fields are told of the saved board alone (docs/FORMATS.md) */

enum { CLOCK_INDEX = 0x70, CLOCK_DATA = 0x71, CLOCK_BYTES = 128, ELSEWHERE = 0x33 };
/* The bytes of COM1, to which none came; those between it and the clock, without a disk; and those of the clock. */
enum { COM1_STATE = 15, AFTER_THE_CLOCK = 8, CLOCK_STATE = 131, CLOCK_FLAGS = 3 };
/* Where the number of the map's windows is in a chipset's state, what stands behind the windows, and all devices. */
enum { WINDOWS_AT = 49, BEHIND_THE_WINDOWS = 7, PAGES = 256, DEVICES = 263 };

/* What is kept of an address, after which the index is elsewhere. */
static void tell_kept(uint8_t address) {
    size_t bytes;
    must(board_cmos_write(&b, address, 0xFF));
    uint8_t *saved = save(false, &bytes);
    const uint8_t *state = saved + bytes - COM1_STATE - AFTER_THE_CLOCK - CLOCK_STATE;
    out(CLOCK_INDEX, 1, address);
    uint32_t read = in(CLOCK_DATA, 1);
    out(CLOCK_INDEX, 1, ELSEWHERE);
    printf(" %02X=%02X,%02X,%02X", address, state[CLOCK_FLAGS + address], read, state[0]);
    free(saved);
}

static void clock(void) {
    uint8_t byte;
    open_with(1, NULL, 0, (const uint8_t *)"", 0);
    out(CLOCK_INDEX, 1, ELSEWHERE);
    for (char *address; (address = next_word());) tell_kept((uint8_t)hex(address));
    must(board_cmos_read(&b, CLOCK_BYTES - 1, &byte));
    if (board_cmos_read(&b, CLOCK_BYTES, &byte) == BOARD_NO_BYTE) printf(" of %d", CLOCK_BYTES);
}

enum { ATA_DATA = 0x1F0, ATA_COUNT = 0x1F2, ATA_LBA = 0x1F3, ATA_DEVICE = 0x1F6, ATA_COMMAND = 0x1F7 };
enum { READ_SECTORS = 0x20, IDENTIFY_DEVICE = 0xEC, ERROR_BIT = 1 };

static uint32_t sectors;

/* A board with a disk of bytes 02h, and its ports where the disk answers. */
static void open_disk(void) {
    sectors = next_hex();
    uint8_t *disk = room_for((size_t)sectors * SECTOR);
    memset(disk, 2, (size_t)sectors * SECTOR);
    open_with(1, NULL, 0, disk, (size_t)sectors * SECTOR);
    free(disk);
    configure(1, 1, 0x04, 1, 0x01);
    configure(1, 1, 0x41, 1, 0x80);
}

static void read_sector(uint32_t lba, uint8_t *into) {
    must(board_disk_read(&b, lba, into, SECTOR));
}

/* Puts bytes where the disk has them, beside its ports: the board goes on with other bytes of its sectors. */
static void put(uint32_t lba, uint32_t at, const uint8_t *from, size_t count) {
    size_t bytes, size = (size_t)sectors * SECTOR;
    uint8_t *saved = save(false, &bytes), *fitted = room_for(size), *now = room_for(size);
    memset(fitted, 2, size);
    for (uint32_t k = 0; k < sectors; k++) read_sector(k, now + SECTOR * k);
    memcpy(now + SECTOR * lba + at, from, count);
    board_close(&b);
    must(board_load_with(&b, saved, bytes, (const uint8_t *)"", 0, fitted, size, now, size));
    free(saved), free(fitted), free(now);
}

/* Whether a sector can be read, by the status register; then its words are. */
static bool is_readable(uint32_t lba) {
    out(ATA_COUNT, 1, 1);
    for (int k = 0; k < 3; k++) out((uint16_t)(ATA_LBA + k), 1, lba >> 8 * k & 0xFF);
    out(ATA_DEVICE, 1, 0xE0);
    out(ATA_COMMAND, 1, READ_SECTORS);
    if (in(ATA_COMMAND, 1) & ERROR_BIT) return false;
    for (int k = 0; k < SECTOR / 2; k++) in(ATA_DATA, 2);
    return true;
}

static void tell_identity(uint32_t index) {
    uint32_t word = 0;
    out(ATA_COMMAND, 1, IDENTIFY_DEVICE);
    for (uint32_t k = 0; k <= index; k++) word = in(ATA_DATA, 2);
    printf(" %X", word);
}

/* A step at a place of a sector. */
static void disk_place(uint32_t lba, char *place) {
    char *sign = strpbrk(place, "=:?");
    uint32_t at = hex(place), value = hex(sign + 1);
    uint8_t bytes[SECTOR];
    if (*sign == '?') {
        read_sector(lba, bytes);
        printf(" %04X", bytes[2 * at] | bytes[2 * at + 1] << 8);
    } else {
        bool is_word = *sign == '=';
        put(lba, is_word ? 2 * at : at, (uint8_t[]){(uint8_t)(is_word ? value : value >> 8),
                                                    (uint8_t)(is_word ? value >> 8 : value)}, 2);
        printf(" -");
    }
}

static void disk_step(char *step) {
    char *point = strchr(step, '.');
    if (!strncmp(step, "id", 2)) {
        tell_identity(hex(step + 2));
    } else if (!strncmp(step, "ok", 2)) {
        printf(" %s", is_readable(hex(step + 2)) ? "readable" : "not readable");
    } else if (point) {
        disk_place(hex(step), point + 1);
    } else {
        if (!strncmp(step, "bad", 3)) must(board_ask(&b, BOARD_BAD_SECTOR, 0, hex(step + 3), 0, 0, 0, &after));
        else if (*step == 'c') out(ATA_COMMAND, 1, hex(step + 1));
        else out(ATA_DATA, 2, hex(step + 1));
        printf(" -");
    }
}

static void disk_steps(void) {
    open_disk();
    for (char *step; (step = next_word());) disk_step(step);
}

static void disk(void) {
    uint8_t bytes[SECTOR];
    disk_steps();
    if (board_disk_read(&b, sectors, bytes, SECTOR) != BOARD_NO_SECTOR) exit(8);
    read_sector(sectors - 1, bytes);
    const uint8_t *last = bytes + SECTOR - 4;
    printf(" of %X:%02X%02X%02X%02X", sectors * SECTOR, last[0], last[1], last[2], last[3]);
}

/* Where the state of the disk begins in a saved board without cards, whose DRAM is zeros: behind all other devices. */
static const uint8_t *disk_in(const uint8_t *saved, size_t bytes) {
    const uint8_t *state = saved;
    while (memcmp(state, "BOARDSTA", 8)) {
        if (++state == saved + bytes - 8) exit(8);
    }
    return state + WINDOWS_AT + 1 + 8 * state[WINDOWS_AT] + BEHIND_THE_WINDOWS + PAGES + DEVICES;
}

/* Bytes, run by run. */
static void tell_runs(const uint8_t *from, const uint8_t *end) {
    while (from < end) {
        size_t run = 1;
        while (from + run < end && from[run] == *from) run++;
        printf(run == 1 ? " %02X" : " %02X*%zX", *from, run);
        from += run;
    }
}

static void disk_state(void) {
    size_t bytes;
    disk_steps();
    uint8_t *saved = save(true, &bytes);
    tell_runs(disk_in(saved, bytes), saved + bytes - COM1_STATE);
    free(saved);
}

/* ---- memory */

static void tell_bytes(const uint8_t *bytes, size_t count) {
    printf(" ");
    for (size_t k = 0; k < count; k++) printf("%02X", bytes[k]);
}

/* The bytes of digits, of which there are at most eight. */
static size_t bytes_of(const char *digits, uint8_t *into) {
    size_t count = strlen(digits) / 2;
    for (size_t k = 0; k < count && k < 8; k++) into[k] = (uint8_t)hex((char[]){digits[2 * k], digits[2 * k + 1], 0});
    return count;
}

/* An access of the bus: a read, or a write of a value. */
static uint64_t access_memory(uint32_t addr, uint8_t bytes, bool writes, uint64_t value) {
    must(writes ? board_write(&b, addr, bytes, false, value, &after) : board_read(&b, addr, bytes, false, &after));
    return after.value;
}

static void stretch(char *step) {
    char *sign = strpbrk(step, "=+?");
    uint32_t addr = hex(step);
    uint8_t bytes[8] = {0};
    if (*sign == '?') {
        must(board_dram_read(&b, addr, bytes, sizeof bytes));
        tell_bytes(bytes, sizeof bytes);
        return;
    }
    size_t count = bytes_of(sign + 1, bytes);
    if (*sign == '+') {
        printf(" %s", board_dram_write(&b, addr, bytes, count) == BOARD_OK ? "loaded" : "refused");
        return;
    }
    uint64_t value = 0;
    for (int k = 7; k >= 0; k--) value = value << 8 | bytes[k];
    access_memory(addr, 8, true, value);
    printf(" -");
}

static void dram_step(char *step) {
    char *point = strchr(step, '.'), *value = strchr(step, '=');
    if (!point) {
        stretch(step);
        return;
    }
    uint64_t told = access_memory(hex(point + 1), (uint8_t)hex(step), value != NULL, value ? hex(value + 1) : 0);
    if (value) printf(" -");
    else printf(" %X", (uint32_t)told);
}

/* The system BIOS is shadowed, so that the last bytes of a MiB are DRAM. */
static void dram(void) {
    open_with(next_hex(), NULL, 0, (const uint8_t *)"", 0);
    configure(0, 0, 0x59, 1, 0x30);
    for (char *step; (step = next_word());) dram_step(step);
}

/* ---- accesses and events */

/* Whether a value of a write fits. */
static bool fits(uint8_t bytes, uint64_t value) {
    return board_write(&b, 0, bytes, false, value, &after) == BOARD_OK;
}

static void width(void) {
    open_board();
    uint8_t bytes = (uint8_t)next_hex();
    uint64_t largest = (1ull << 8 * bytes) - 1;
    if (!fits(bytes, largest) || fits(bytes, largest + 1)) exit(8);
    printf(" %X %llX", bytes, (unsigned long long)largest);
    for (char *word; (word = next_word());) {
        board_part part;
        bool is_aligned = board_decode_master(&b, hex(word), bytes, false, &part) == BOARD_OK;
        printf(" %s,%s", fits(bytes, hex(word)) ? "fits" : "large", is_aligned ? "aligned" : "odd");
    }
}

static void cycles(void) {
    open_board();
    bool writes = !strcmp(next_word(), "write");
    uint32_t port = next_hex(), bytes = next_hex(), value = next_hex(), done = 0;
    while (done < bytes) {
        uint8_t cycle = board_cycle(port + done, bytes - done);
        printf(" %X %u", port + done, cycle);
        if (writes) printf(" %llX", (unsigned long long)(value >> 8 * done & ((1ull << 8 * cycle) - 1)));
        must(board_ask(&b, BOARD_PORT, BOARD_READ, port + done, cycle, 0, 0, &after));
        done += cycle;
    }
}

/* What a call refuses. */
static const char *refusal(uint32_t status) {
    switch (status) {
    case BOARD_BAD_SIZE: return "Memory";
    case BOARD_BAD_CARDS: return "Cards";
    case BOARD_BAD_ROM: return "Rom";
    case BOARD_BAD_DISK: return "Disk";
    case BOARD_ALIGNMENT: return "Alignment";
    case BOARD_VALUE: return "Value";
    case BOARD_END: return "End";
    case BOARD_PULSES: return "Pulses";
    case BOARD_DEVICE: return "Device";
    case BOARD_LINE: return "Line";
    default: return board_status_text(status);
    }
}

/* Reads as the bus does; the first cycle of a read that has a value is refused for it. */
static uint32_t read_port(uint16_t port, uint8_t bytes, uint32_t value) {
    if (!value) return board_in(&b, port, bytes, &after);
    return board_ask(&b, BOARD_PORT, BOARD_READ, port, board_cycle(port, bytes), 0, value, &after);
}

static void port_step(char *step) {
    char *point = strchr(step, '.'), *sign = strpbrk(step, "=?");
    uint16_t port = (uint16_t)hex(step);
    uint8_t bytes = (uint8_t)hex(point + 1);
    uint32_t value = hex(sign + 1);
    uint32_t status = *sign == '=' ? board_out(&b, port, bytes, value, &after) : read_port(port, bytes, value);
    if (status != BOARD_OK) {
        printf(" %s", status == BOARD_NO_EVENT ? "End" : refusal(status));
        return;
    }
    if (after.has_value) printf(" %X", (uint32_t)after.value);
    else printf(" -");
    if (after.reset != BOARD_NO_RESET) printf(" %s", after.reset == BOARD_SOFT_RESET ? "soft" : "hard");
}

static void ports(void) {
    open_board();
    for (char *step; (step = next_word());) port_step(step);
}

static void tell_range(uint32_t status, const char *other) {
    if (status == BOARD_OK) printf(" in range, good");
    else printf(" not in range, %s", status == BOARD_NO_EVENT ? other : refusal(status));
}

static const struct { const char *word; uint8_t what, kind; } events[] = {
    {"read", BOARD_MEMORY, BOARD_READ}, {"fetch", BOARD_MEMORY, BOARD_FETCH}, {"write", BOARD_MEMORY, BOARD_WRITE},
    {"wide-read", BOARD_MEMORY, BOARD_READ}, {"wide-write", BOARD_MEMORY, BOARD_WRITE},
    {"in", BOARD_PORT, BOARD_READ}, {"out", BOARD_PORT, BOARD_WRITE},
    {"pulse", BOARD_PULSE, 0}, {"wire", BOARD_WIRE, 0}, {"irq", BOARD_IRQ, 0},
};

static void tell_event(void) {
    open_board();
    const char *word = next_word();
    uint8_t bytes = (uint8_t)next_hex();
    uint32_t addr = next_hex();
    uint64_t value = strtoull(next_word(), NULL, 16);
    for (size_t k = 0; k < sizeof events / sizeof *events; k++)
        if (!strcmp(word, events[k].word))
            tell_range(board_ask(&b, events[k].what, events[k].kind, addr, bytes, 0, value, &after), "no event");
}

enum { WEEKDAY = 6 };

static void tell_time(void) {
    uint32_t n[5] = {0};
    uint8_t weekday = 0;
    open_board();
    for (int k = 0; k < 5; k++) n[k] = decimal(next_word());
    uint32_t status = board_time(&b, n[0], n[1], n[2], n[4], 0, 0, &after);
    tell_range(status, "Date");
    must(board_cmos_read(&b, WEEKDAY, &weekday));
    if (status == BOARD_OK && weekday != n[3]) printf(", another weekday");
}

static board_card card_of(const char *text) {
    unsigned dev = 0, memory = 0, bits = 0, rom = 0;
    if (sscanf(text, "%x:%x:%x:%x", &dev, &memory, &bits, &rom) != 4) exit(8);
    return (board_card){.device = (uint8_t)dev, .rom = (uint8_t)rom, .bases = 1,
                        .base = {{memory ? BOARD_MEMORY_BASE : BOARD_IO_BASE, (uint8_t)bits}}};
}

static void setup(void) {
    uint32_t mib = next_hex(), rom_bytes = next_hex(), disk_bytes = next_hex(), count = 0;
    board_card cards[MOST_SETUP_CARDS];
    for (char *card; count < MOST_SETUP_CARDS && (card = next_word());) cards[count++] = card_of(card);
    uint8_t *bytes = room_for(LARGEST_DISK);
    if (rom_bytes > LARGEST_ROM || disk_bytes > LARGEST_DISK) exit(8);
    uint32_t status = board_open(&b, mib, cards, count, bytes, rom_bytes, bytes, disk_bytes);
    printf(" %s", status == BOARD_OK ? "good" : refusal(status));
    free(bytes);
}

/* ---- lines */

static const struct { const char *word; void (*tell)(void); } parts[] = {
    {"timer", timer}, {"timer-runs", timer_runs}, {"clock", clock}, {"disk", disk}, {"disk-state", disk_state},
    {"dram", dram}, {"width", width}, {"cycles", cycles}, {"ports", ports}, {"event", tell_event}, {"time", tell_time},
    {"setup", setup},
};

static void tell(const char *word) {
    for (size_t k = 0; word && k < sizeof parts / sizeof *parts; k++)
        if (!strcmp(word, parts[k].word)) {
            parts[k].tell();
            board_close(&b);
            return;
        }
    printf(" no such part");
}

int main(void) {
    static char line[LINE];
    while (fgets(line, sizeof line, stdin)) {
        line[strcspn(line, "\n")] = 0;
        printf("%s", line);
        if (*line != '#') {
            printf(":");
            tell(strtok(line, " "));
        }
        printf("\n");
    }
    return 0;
}
