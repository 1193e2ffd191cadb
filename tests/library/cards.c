/* Where a bus master's accesses land, by the address map without its line of SMRAM (82441FX, System Address Map; 82371SB,
 * XBCS; PCI Local Bus 2.1, section 6.2.5), and beside board_decode; and bytes of cards, out and in, beside a guest's. */
#include "board.h"
#include <stdio.h>
#include <string.h>

enum { VGA = 2, DISK = 3, NONE = 4, EVENTS = 100000, ADDRESS = 0xCF8, DATA = 0xCFC, MEMORY_AND_PORTS = 3 };

static int failed;

static void expect(const char *what, uint64_t at, uint64_t got, uint64_t wanted) {
    if (got == wanted) return;
    printf("cards: %s at %llXh: %llX, not %llX\n", what, (unsigned long long)at, (unsigned long long)got, (unsigned long long)wanted);
    failed = 1;
}

static uint8_t rom[65536];
static const board_card cards[] = {
    {.device = VGA, .vga = 1, .rom = 15, .bases = 1, .base = {{BOARD_MEMORY_BASE, 16}}},
    {.device = DISK, .bases = 2, .base = {{BOARD_MEMORY_BASE, 12}, {BOARD_IO_BASE, 4}}},
};
static board_reply r;
static board closed;

static void open_board(board *b) {
    expect("open", 0, board_open(b, 16, cards, 2, rom, sizeof rom, rom, 0), BOARD_OK);
}

static void set(board *b, uint32_t device, uint32_t at, uint8_t bytes, uint32_t value) {
    expect("the address", at, board_out(b, ADDRESS, 4, 0x80000000u | device << 11 | (at & 0xFC), &r), BOARD_OK);
    expect("the register", at, board_out(b, (uint16_t)(DATA + at % 4), bytes, value, &r), BOARD_OK);
}

/* ---- a bus master's accesses */

/* SMRAM's byte is that of register 72h: 48h opens it to all, 02h shuts it. */
enum { SHUT = 0x02, OPEN = 0x48, SMRAM = 0x72, PAM1 = 0x5A, FDHC = 0x68, COMMAND = 4, BASE0 = 0x10, BASE1 = 0x14, XBCS = 0x4E };

typedef struct { const char *name; uint32_t addr; bool is_write; uint8_t target, unit, base; uint32_t offset; uint8_t denial, dev, fun, off; } place;

static void placed(board *b, const place *rows, size_t count) {
    for (size_t k = 0; k < count; k++) {
        const place *row = &rows[k];
        for (uint8_t bytes = 1; bytes <= 4; bytes *= 2) {
            board_part p;
            memset(&p, 0xA5, sizeof p);
            expect(row->name, row->addr, board_decode_master(b, row->addr, bytes, row->is_write, &p), BOARD_OK);
            expect("its target", row->addr, p.target, row->target);
            expect("its unit", row->addr, p.unit, row->unit);
            expect("its base", row->addr, p.base, row->base);
            expect("its offset", row->addr, p.offset, row->offset);
            expect("its denial", row->addr, (uint64_t)p.denial << 24 | p.denial_dev << 16 | p.denial_fun << 8 | p.denial_off,
                   (uint64_t)row->denial << 24 | row->dev << 16 | row->fun << 8 | row->off);
            expect("its reserved byte", row->addr, p.reserved, 0);
        }
    }
}
#define PLACED(b, rows) placed(b, rows, sizeof rows / sizeof *rows)

static const place power_on[] = {
    {"the first byte", 0, false, BOARD_DRAM},
    {"memory below A0000h", 0x9FFFC, true, BOARD_DRAM},
    {"A0000h, read", 0xA0000, false, BOARD_ABORT, .denial = BOARD_BY_REGISTER, .off = SMRAM},
    {"BFFFCh, written", 0xBFFFC, true, BOARD_ABORT, .denial = BOARD_BY_REGISTER, .off = SMRAM},
    {"C0000h", 0xC0000, false, BOARD_ABORT, .denial = BOARD_BY_REGISTER, .off = PAM1},
    {"the BIOS, read", 0xF0010, false, BOARD_ROM, .offset = 0x10},
    {"the BIOS, written", 0xF0010, true, BOARD_ROM, .offset = 0x10, .denial = BOARD_BY_REGISTER, .dev = 1, .off = XBCS},
    {"above 1 MiB", 0x100000, true, BOARD_DRAM},
    {"past the boundaries", 0x800000, false, BOARD_ABORT, .denial = BOARD_BY_REGISTER, .off = 0x67},
    {"above the largest boundary", 0x90000000, false, BOARD_ABORT, .denial = BOARD_BY_NO_REGISTER},
    {"the reset vector", 0xFFFFFFF0, false, BOARD_ROM, .offset = 0xFFF0},
};
/* PAM1's low nibble opens C0000h to C3FFFh for reads alone, its high one C4000h to C7FFFh for writes. */
static const place open_to_processors[] = {
    {"SMRAM, read", 0xA8000, false, BOARD_ABORT, .denial = BOARD_BY_REGISTER, .off = SMRAM},
    {"SMRAM, written", 0xA8000, true, BOARD_ABORT, .denial = BOARD_BY_REGISTER, .off = SMRAM},
    {"C0000h, read", 0xC0000, false, BOARD_SHADOW},
    {"C0000h, written", 0xC0000, true, BOARD_ABORT, .denial = BOARD_BY_REGISTER, .off = PAM1},
    {"C4000h, read", 0xC4000, false, BOARD_ABORT, .denial = BOARD_BY_REGISTER, .off = PAM1},
    {"C4000h, written", 0xC4000, true, BOARD_SHADOW},
    {"the hole at 512 KiB", 0x80000, true, BOARD_ABORT, .denial = BOARD_BY_REGISTER, .off = FDHC},
};
static const place with_cards[] = {
    {"the VGA window over SMRAM", 0xA8000, false, BOARD_CARD, VGA, 7, 0x8000},
    {"its last bytes", 0xBFFFC, true, BOARD_CARD, VGA, 7, 0x1FFFC},
    {"a base", 0xE0001230, true, BOARD_CARD, VGA, 0, 0x1230},
    {"the base of a card that is off", 0xF0000000, false, BOARD_ABORT, .denial = BOARD_BY_REGISTER, .dev = DISK, .off = COMMAND},
};

static uint8_t processor(board *b, uint32_t addr) {
    board_part p;
    board_event e = {.what = BOARD_MEMORY, .kind = BOARD_READ, .addr = addr, .bytes = 1};
    expect("a processor's", addr, board_decode(b, &e, &p), BOARD_OK);
    return p.target;
}

static void masters(void) {
    static const struct { uint32_t addr; uint8_t bytes; } none[] = {{0, 0}, {0, 3}, {0, 8}, {1, 2}, {0x1002, 4}, {0xFFFFFFFF, 2}};
    board b = {0};
    board_part p, untouched;
    memset(&p, 0xA5, sizeof p), untouched = p;
    open_board(&b);
    expect("of a closed handle", 0, board_decode_master(&closed, 0, 4, false, &p), BOARD_BAD_HANDLE);
    for (size_t k = 0; k < sizeof none / sizeof *none; k++)
        expect("no cycle", none[k].addr, board_decode_master(&b, none[k].addr, none[k].bytes, false, &p), BOARD_NO_CYCLE);
    expect("a part that was refused", 0, (uint64_t)memcmp(&p, &untouched, sizeof p), 0);
    PLACED(&b, power_on);
    set(&b, 0, SMRAM, 1, OPEN);
    set(&b, 0, PAM1, 1, 0x21);
    set(&b, 0, FDHC, 1, 0x40);
    expect("a processor's in SMRAM", 0xA8000, processor(&b, 0xA8000), BOARD_SMRAM);
    PLACED(&b, open_to_processors);
    set(&b, VGA, BASE0, 4, 0xE0000000);
    set(&b, VGA, COMMAND, 1, MEMORY_AND_PORTS);
    set(&b, DISK, BASE0, 4, 0xF0000000);
    expect("a processor's in SMRAM", 0xA8000, processor(&b, 0xA8000), BOARD_SMRAM);
    PLACED(&b, with_cards);
    board_close(&b);
}

static uint64_t state = 88172645463325252u;

static uint32_t next(uint32_t below) {
    state ^= state << 13, state ^= state >> 7, state ^= state << 17;
    return (uint32_t)(state >> 33) % below;
}

static uint32_t some_address(void) {
    static const uint32_t from[] = {0, 0x80000, 0xA0000, 0xC0000, 0xF0000, 0x700000, 0xE0000000, 0xFFF70000};
    return (from[next(8)] + next(0x20000)) & ~3u;
}

/* Outside A0000h to BFFFFh a bus master reaches what a processor does; inside never memory. */
static void beside_processors(void) {
    static const struct { uint32_t device, at; } registers[] = {
        {0, SMRAM}, {0, 0x59}, {0, PAM1}, {0, 0x5F}, {0, 0x60}, {0, 0x67}, {0, FDHC}, {1, XBCS}, {VGA, COMMAND}, {DISK, COMMAND}, {VGA, BASE0 + 3}, {DISK, BASE0 + 3}};
    board b = {0};
    size_t inside = 0;
    open_board(&b);
    for (size_t k = 0; k < EVENTS && !failed; k++) {
        if (k % 16 == 0) {
            size_t one = next(sizeof registers / sizeof *registers);
            set(&b, registers[one].device, registers[one].at, 1, next(256));
        }
        uint32_t addr = some_address();
        bool is_write = next(2), is_inside = addr >= 0xA0000 && addr <= 0xBFFFF;
        board_part master, other;
        memset(&master, 0, sizeof master), memset(&other, 0, sizeof other);
        board_event e = {.what = BOARD_MEMORY, .kind = is_write ? BOARD_WRITE : BOARD_READ, .addr = addr, .bytes = 4};
        expect("a bus master's", addr, board_decode_master(&b, addr, 4, is_write, &master), BOARD_OK);
        expect("a processor's", addr, board_decode(&b, &e, &other), BOARD_OK);
        inside += is_inside;
        if (is_inside) expect("memory", addr, master.target == BOARD_CARD || master.target == BOARD_ABORT, 1);
        else expect("both", addr, (uint64_t)memcmp(&master, &other, sizeof master), 0);
    }
    expect("accesses inside", 0, inside > EVENTS / 20, 1);
    board_close(&b);
}

/* ---- bytes of cards */

static void refused(board *b) {
    static const struct { uint8_t device, base; uint32_t offset; size_t bytes; } past[] = {
        {DISK, 0, 0xFFE, 3}, {DISK, 0, 0x1000, 1}, {DISK, 0, 0xFFFFFFFF, 2}, {DISK, 1, 15, 2}, {DISK, 2, 0, 1}, {DISK, 7, 0, 1}, {DISK, 6, 0, 1},
        {VGA, 6, 0x7FFF, 2}, {VGA, 6, 0x8000, 1}, {NONE, 6, 0, 1}, {255, 6, 0, 1},
        {VGA, 7, 0x1FFFF, 2}, {VGA, 8, 0, 1}, {NONE, 0, 0, 1}, {0, 0, 0, 1}, {255, 255, 0, 1}, {NONE, 0, 1, 0}};
    uint8_t bytes[3] = {0xA5, 0xA5, 0xA5};
    for (size_t k = 0; k < sizeof past / sizeof *past; k++) {
        expect("bytes that are not there", k, board_card_read(b, past[k].device, past[k].base, past[k].offset, bytes, past[k].bytes), BOARD_PAST_END);
        expect("a place that is not there", k, board_card_write(b, past[k].device, past[k].base, past[k].offset, bytes, past[k].bytes), BOARD_PAST_END);
    }
    expect("bytes of a closed handle", 0, board_card_read(&closed, DISK, 0, 0, bytes, 1), BOARD_BAD_HANDLE);
    expect("bytes into a closed handle", 0, board_card_write(&closed, DISK, 0, 0, bytes, 1), BOARD_BAD_HANDLE);
    expect("bytes after refusals", 0, bytes[0] << 16 | bytes[1] << 8 | bytes[2], 0xA5A5A5);
    expect("no bytes of a base", 0, board_card_read(b, DISK, 0, 0x1000, bytes, 0), BOARD_OK);
    expect("no bytes of no card", 0, board_card_write(b, NONE, 9, 0, bytes, 0), BOARD_OK);
}

static void bytes_of_cards(void) {
    static const uint8_t given[] = {0x11, 0x22, 0x33, 0x44};
    uint8_t told[6];
    board b = {0};
    open_board(&b);
    refused(&b);
    expect("the end of a base", 0xFFC, board_card_write(&b, DISK, 0, 0xFFC, given, 4), BOARD_OK);
    expect("a base of ports", 1, board_card_write(&b, DISK, 1, 1, given, 2), BOARD_OK);
    expect("the VGA window", 0x18000, board_card_write(&b, VGA, 7, 0x18000, given, 4), BOARD_OK);
    set(&b, DISK, BASE0, 4, 0xF0000000);
    set(&b, DISK, BASE1, 4, 0xC000);
    set(&b, DISK, COMMAND, 1, MEMORY_AND_PORTS);
    set(&b, VGA, COMMAND, 1, MEMORY_AND_PORTS);
    expect("read by a guest", 0, board_read(&b, 0xF0000FFC, 4, false, &r), BOARD_OK);
    expect("what it reads", 0xFFC, r.value, 0x44332211);
    expect("read at a port", 0, board_in(&b, 0xC000, 4, &r), BOARD_OK);
    expect("what it reads there", 0, r.value, 0x00221100);
    expect("read in the window", 0, board_read(&b, 0xB8000, 4, false, &r), BOARD_OK);
    expect("what it reads there", 0x18000, r.value, 0x44332211);
    expect("written by a guest", 0, board_write(&b, 0xF0000FFA, 2, false, 0xBEEF, &r), BOARD_OK);
    expect("told", 0, board_card_read(&b, DISK, 0, 0xFFA, told, 6), BOARD_OK);
    expect("what was told", 0xFFA, (uint64_t)memcmp(told, "\xEF\xBE\x11\x22\x33\x44", 6), 0);
    expect("a hard reset", 0, board_out(&b, 0xCF9, 1, 6, &r), BOARD_OK);
    expect("which it was", 0, r.reset, BOARD_HARD_RESET);
    expect("told after it", 0, board_card_read(&b, DISK, 0, 0xFFA, told, 6), BOARD_OK);
    expect("what was told after it", 0xFFA, (uint64_t)memcmp(told, "\xEF\xBE\x11\x22\x33\x44", 6), 0);
    board_close(&b);
}

/* A sector that a monitor writes before the guest's first instruction, as a guest does; a hard reset keeps it (ATA, WRITE
 * SECTORS; 82371SB, IDETIM and the command of its function 1). */
static void before_the_guest(void) {
    enum { IDE = 1 << 11 | 1 << 8, IDETIM = 0x41, SECTOR = 2, WORDS = 256 };
    static uint8_t disk[4 * 512], told[512];
    static uint32_t words[WORDS];
    size_t done = 0;
    board b = {0};
    for (size_t k = 0; k < WORDS; k++) words[k] = (uint32_t)(k * 259 % 65536);
    expect("open", 0, board_open(&b, 16, cards, 2, rom, sizeof rom, disk, sizeof disk), BOARD_OK);
    board_out(&b, ADDRESS, 4, 0x80000000u | IDE | COMMAND, &r), board_out(&b, DATA, 1, 1, &r);
    board_out(&b, ADDRESS, 4, 0x80000000u | IDE | (IDETIM & 0xFC), &r), board_out(&b, DATA + 1, 1, 0x80, &r);
    static const uint8_t task[] = {1, SECTOR, 0, 0, 0xE0, 0x30};
    for (size_t k = 0; k < sizeof task; k++) board_out(&b, (uint16_t)(0x1F2 + k), 1, task[k], &r);
    expect("the words", 0, board_out_many(&b, 0x1F0, 2, words, WORDS, &done, &r), BOARD_OK);
    expect("how many", 0, done, WORDS);
    expect("a hard reset", 0, board_out(&b, 0xCF9, 1, 6, &r), BOARD_OK);
    expect("INT after it", 0, r.interrupt, 0);
    expect("the sector", 0, board_disk_read(&b, SECTOR, told, sizeof told), BOARD_OK);
    for (size_t k = 0; k < WORDS; k++) expect("a word", k, told[2 * k] | (uint64_t)told[2 * k + 1] << 8, words[k]);
    board_close(&b);
}

/* A board whose bytes a guest wrote, and one that was given them, answer alike. */
static void beside_guest(void) {
    board guest = {0}, given = {0};
    board *both[] = {&guest, &given};
    for (size_t k = 0; k < 2; k++) {
        open_board(both[k]);
        set(both[k], DISK, BASE0, 4, 0xF0000000);
        set(both[k], DISK, COMMAND, 1, MEMORY_AND_PORTS);
    }
    for (size_t k = 0; k < EVENTS && !failed; k++) {
        uint32_t at = next(0x1000), count = 1 + next(8);
        uint8_t bytes[8], one[8], other[8];
        if (at + count > 0x1000) count = 0x1000 - at;
        for (uint32_t i = 0; i < count; i++) {
            bytes[i] = (uint8_t)next(256);
            expect("a guest's byte", at, board_write(&guest, 0xF0000000 + at + i, 1, false, bytes[i], &r), BOARD_OK);
        }
        expect("bytes given", at, board_card_write(&given, DISK, 0, at, bytes, count), BOARD_OK);
        at = next(0x1000 - 8);
        for (size_t i = 0; i < 2; i++) expect("bytes told", at, board_card_read(both[i], DISK, 0, at, i ? one : other, 8), BOARD_OK);
        expect("both", at, (uint64_t)memcmp(one, other, 8), 0);
        uint64_t values[2];
        for (size_t i = 0; i < 2; i++) {
            expect("a read", at, board_read(both[i], 0xF0000000 + (at & ~3u), 4, false, &r), BOARD_OK);
            values[i] = r.value;
        }
        expect("both reads", at, values[0], values[1]);
    }
    for (size_t k = 0; k < 2; k++) board_close(both[k]);
}

/* ---- expansion ROMs */

enum { ROM_SIZE = 0x8000, ROM_BASE = 0x30, GIVEN = 300 };

static uint8_t fixed(uint32_t at) { return (uint8_t)(at + VGA); }

/* The ROM's base at an address that the card decodes, below 1 MiB where PAM shuts the memory out. */
static void show_rom(board *b, uint32_t at) {
    set(b, VGA, ROM_BASE, 4, at | 1);
    set(b, VGA, COMMAND, 1, MEMORY_AND_PORTS);
}

static uint64_t read_rom(board *b, uint32_t at, uint8_t bytes) {
    expect("a read of the ROM", at, board_read(b, at, bytes, false, &r), BOARD_OK);
    return r.value;
}

/* Each width at each offset round both ends of what was given: bytes of it, and the board's beside them. */
static void at_each_offset(board *b, const uint8_t *rom_bytes, uint32_t from, uint32_t to) {
    for (uint32_t at = from; at < to; at++)
        for (uint8_t bytes = 1; bytes <= 8; bytes *= 2) {
            uint64_t wanted = 0;
            for (uint8_t k = 0; k < bytes; k++) wanted |= (uint64_t)rom_bytes[at + k] << 8 * k;
            expect("bytes of a ROM", at, read_rom(b, 0xD0000000 + at, bytes), wanted);
            expect("its target", at, r.part[0].target << 16 | r.part[0].unit << 8 | r.part[0].base, BOARD_CARD << 16 | VGA << 8 | 6);
        }
}

static void roms(void) {
    static uint8_t bytes[ROM_SIZE], given[GIVEN], told[ROM_SIZE];
    board b = {0}, other = {0};
    open_board(&b);
    for (uint32_t at = 0; at < ROM_SIZE; at++) bytes[at] = fixed(at);
    expect("the board's own bytes", 0, board_card_read(&b, VGA, 6, 0, told, ROM_SIZE), BOARD_OK);
    expect("which they are", 0, (uint64_t)memcmp(told, bytes, ROM_SIZE), 0);
    show_rom(&b, 0xD0000000);
    at_each_offset(&b, bytes, 0, 16);
    for (uint32_t k = 0; k < GIVEN; k++) given[k] = bytes[256 + k] = (uint8_t)(k * 7 + 1);
    expect("bytes of a ROM given", 256, board_card_write(&b, VGA, 6, 256, given, GIVEN), BOARD_OK);
    at_each_offset(&b, bytes, 240, 272);
    at_each_offset(&b, bytes, 256 + GIVEN - 16, 256 + GIVEN + 16);
    expect("a write of the guest", 0, board_write(&b, 0xD0000100, 4, false, 0xFFFFFFFF, &r), BOARD_OK);
    expect("a hard reset", 0, board_out(&b, 0xCF9, 1, 6, &r), BOARD_OK);
    expect("all of it", 0, board_card_read(&b, VGA, 6, 0, told, ROM_SIZE), BOARD_OK);
    expect("which it is", 0, (uint64_t)memcmp(told, bytes, ROM_SIZE), 0);
    expect("bytes of another card", 0, board_card_write(&b, DISK, 6, 0, given, 1), BOARD_PAST_END);
    /* a saved board has none of them, and they are put again */
    static uint8_t image[1 << 20];
    size_t size = 0;
    expect("save", 0, board_save(&b, image, sizeof image, &size), BOARD_OK);
    expect("load", 0, board_load(&other, image, size), BOARD_OK);
    show_rom(&other, 0xD0000000);
    expect("not given", 0, read_rom(&other, 0xD0000100, 4), 0x05040302);
    expect("given again", 256, board_card_write(&other, VGA, 6, 256, given, GIVEN), BOARD_OK);
    at_each_offset(&other, bytes, 248, 264);
    board_close(&b), board_close(&other);
}

/* Parts of one access before, in and behind a ROM that was given bytes: those alone are its. */
static void beside_roms(void) {
    static const board_card both[] = {{.device = VGA, .rom = 11, .bases = 1, .base = {{BOARD_MEMORY_BASE, 11}}}};
    board b = {0};
    uint8_t given[2048];
    memset(given, 0xEE, sizeof given);
    expect("open", 0, board_open(&b, 16, both, 1, rom, sizeof rom, rom, 0), BOARD_OK);
    set(&b, VGA, BASE0, 4, 0xD0000000);
    show_rom(&b, 0xD0000800);
    expect("a base's bytes", 0, board_card_write(&b, VGA, 0, 0, rom, 2048), BOARD_OK);
    expect("a ROM's bytes", 0, board_card_write(&b, VGA, 6, 0, given, 2048), BOARD_OK);
    expect("into the ROM", 0, read_rom(&b, 0xD0000800 - 3, 8), 0xEEEEEEEEEE000000u | rom[2047] << 16 | rom[2046] << 8 | rom[2045]);
    expect("out of it", 0, read_rom(&b, 0xD0001000 - 3, 8), 0xFFFFFFFFFFEEEEEEu);
    expect("its parts", 0, r.parts, 4);
    board_close(&b);
}

/* A base whose bytes the monitor keeps (PCI Local Bus 2.1, section 6.2.5.1): 256 MiB that decode, read as ones and keep
 * nothing, beside 4 KiB that the board keeps. Behind it is nobody. */
static void outside_bases(void) {
    enum { FRAME = 5 };
    static const board_card frame[] = {{.device = FRAME, .bases = 2, .base = {{BOARD_OUTSIDE, 28}, {BOARD_MEMORY_BASE, 12}}}};
    static uint8_t image[1 << 20];
    board b = {0}, other = {0};
    uint8_t byte = 0x55;
    size_t size = 0;
    expect("open", 0, board_open(&b, 16, frame, 1, rom, sizeof rom, rom, 0), BOARD_OK);
    set(&b, FRAME, BASE0, 4, 0xFFFFFFFF);
    expect("its size", 0, board_in(&b, DATA, 4, &r), BOARD_OK);
    expect("its size", 0, r.value, 0xF0000000);
    set(&b, FRAME, BASE0, 4, 0xC0000000), set(&b, FRAME, BASE1, 4, 0xB0000000), set(&b, FRAME, COMMAND, 1, MEMORY_AND_PORTS);
    for (uint32_t offset = 0; offset < 0x10000000; offset += 0x00FFFFFC) {
        expect("a write", offset, board_write(&b, 0xC0000000 + offset, 4, false, offset, &r), BOARD_OK);
        expect("a read", offset, board_read(&b, 0xC0000000 + offset, 4, false, &r), BOARD_OK);
        expect("its value", offset, r.value, 0xFFFFFFFF);
        expect("its target", offset, r.part[0].target, BOARD_CARD);
        expect("its card", offset, r.part[0].unit, FRAME);
        expect("its base", offset, r.part[0].base, 0);
        expect("its offset", offset, r.part[0].offset, offset);
    }
    expect("past its end", 0, board_read(&b, 0xD0000000, 4, false, &r), BOARD_OK);
    expect("past its end", 0, r.part[0].target, BOARD_ABORT);
    expect("bytes out", 0, board_card_read(&b, FRAME, 0, 0, &byte, 1), BOARD_PAST_END);
    expect("bytes in", 0, board_card_write(&b, FRAME, 0, 0, &byte, 1), BOARD_PAST_END);
    expect("bytes of the base beside", 0xFFF, board_card_write(&b, FRAME, 1, 0xFFF, &byte, 1), BOARD_OK);
    expect("save", 0, board_save(&b, image, sizeof image, &size), BOARD_OK);
    expect("load", 0, board_load(&other, image, size), BOARD_OK);
    expect("a read after it", 0, board_read(&other, 0xCFFFFFFC, 4, false, &r), BOARD_OK);
    expect("its value", 0, r.value, 0xFFFFFFFF);
    expect("its offset", 0, r.part[0].offset, 0xFFFFFFC);
    expect("a read beside", 0, board_read(&other, 0xB0000FFF, 1, false, &r), BOARD_OK);
    expect("its value", 0, r.value, 0x55);
    board_close(&b), board_close(&other);
}

int main(void) {
    for (size_t k = 0; k < sizeof rom; k++) rom[k] = (uint8_t)(k * 7 + k / 256);
    masters();
    beside_processors();
    bytes_of_cards();
    roms();
    beside_roms();
    outside_bases();
    before_the_guest();
    beside_guest();
    return failed;
}
