/* busmaster.c on transfers whose ends are written beside them (82371SB, 2.7; Programming Interface for Bus Master IDE
 * Controller), and on random tables, regions and registers beside a bus master that moves one word at a time, each by
 * board_decode_master, over a second board, memory and disk. And numbers that are those of no transfer. */
#include "busmaster.c"
#include <stdio.h>
#include <stdlib.h>
#include <string.h>

enum { MIB = 1, BYTES = MIB << 20, ROM = 65536, SECTORS = 64, SECTOR = 512, TABLE = 0x3000, VGA = 2, DISK = 3, RANDOM = 300 };
enum { ADDRESS = 0xCF8, DATA = 0xCFC, PAM1 = 0x5A, COMMAND = 4, BASE0 = 0x10, TO_MEMORY = 9, TO_DISK = 1 };

static const board_card cards[] = {
    {.device = VGA, .vga = 1, .rom = 15, .bases = 1, .base = {{BOARD_MEMORY_BASE, 16}}},
    {.device = DISK, .bases = 1, .base = {{BOARD_MEMORY_BASE, 12}}},
};
static board closed, second;
static board_reply r;
static uint8_t *memory, *disk; /* of the second board */
static int failed;

static void expect(const char *what, uint64_t at, uint64_t got, uint64_t wanted) {
    if (got == wanted) return;
    if (failed++ < 20) printf("busmaster: %s at %llX: %llX, not %llX\n", what, (unsigned long long)at, (unsigned long long)got, (unsigned long long)wanted);
}

static void set(uint32_t device, uint32_t at, uint8_t bytes, uint32_t value) {
    board *both[] = {&b, &second};
    for (int k = 0; k < 2; k++) {
        board_out(both[k], ADDRESS, 4, 0x80000000u | device << 11 | (at & 0xFC), &r);
        board_out(both[k], (uint16_t)(DATA + at % 4), bytes, value, &r);
    }
}

static void put32(uint32_t at, uint32_t value) {
    for (uint32_t k = 0; k < 4; k++) guest[at + k] = memory[at + k] = (uint8_t)(value >> 8 * k);
}

static void open_all(void) {
    expect("open", 0, board_open(&b, MIB, cards, 2, rom, ROM, rom, 0), BOARD_OK);
    expect("open", 1, board_open(&second, MIB, cards, 2, rom, ROM, rom, 0), BOARD_OK);
}

static void close_all(void) { board_close(&b), board_close(&second); }

static void fill(void) {
    for (uint32_t k = 0; k < BYTES; k++) guest[k] = memory[k] = (uint8_t)(k * 5 + k / 256);
    for (uint32_t k = 0; k < SECTORS * SECTOR; k++) drive[k] = disk[k] = (uint8_t)(k / SECTOR + k * 3);
}

/* ---- ends that are known */

/* The table has up to three descriptors. At the end: the status, the bytes of the first region and where they are on the disk,
 * and how far the table was read. */
typedef struct { const char *name; uint32_t table, d[6], lba, sectors; uint8_t command, status; uint32_t bytes, read; } row;
#define LAST 0x80000000u

static const row rows[] = {
    {"exact", TABLE, {0x5000, LAST | 0x200}, 7, 1, TO_MEMORY, 0x04, 0x200, 8},
    {"exact, to the disk", TABLE, {0x5000, LAST | 0x200}, 7, 1, TO_DISK, 0x04, 0x200, 8},
    {"a table that is longer", TABLE, {0x5000, 0x200, 0x6000, LAST | 0x200}, 7, 1, TO_MEMORY, 0x05, 0x200, 8},
    {"a region that is longer", TABLE, {0x5000, LAST | 0x400}, 7, 1, TO_MEMORY, 0x05, 0x200, 8},
    {"a table that is shorter", TABLE, {0x5000, LAST | 0x100}, 7, 1, TO_MEMORY, 0x00, 0x100, 8},
    {"a count of 0 is 64 KiB", TABLE, {0x10000, LAST}, 0, 64, TO_MEMORY, 0x05, 0x8000, 8},
    {"a count of 1 is 64 KiB", TABLE, {0x10000, LAST | 1}, 0, 64, TO_MEMORY, 0x05, 0x8000, 8},
    {"an odd base and count", TABLE, {0x5001, LAST | 0x201}, 7, 1, TO_MEMORY, 0x04, 0x200, 8},
    {"two regions", TABLE, {0x5000, 0x100, 0x6000, LAST | 0x100}, 7, 1, TO_MEMORY, 0x04, 0x100, 16},
    {"no sector from the second on", TABLE, {0x5000, LAST | 0x400}, SECTORS - 1, 2, TO_MEMORY, 0x02, 0x200, 8},
    {"no sector at all", TABLE, {0x5000, LAST | 0x400}, SECTORS, 2, TO_MEMORY, 0x02, 0, 0},
    {"A0000h, to memory", TABLE, {0x9FF00, LAST | 0x200}, 7, 1, TO_MEMORY, 0x02, 0x100, 8},
    {"A0000h, to the disk", TABLE, {0x9FF00, LAST | 0x200}, 7, 1, TO_DISK, 0x02, 0x100, 8},
    {"a region of nobody", TABLE, {0xE0000000, LAST | 0x200}, 7, 1, TO_MEMORY, 0x02, 0, 8},
    {"a table of nobody", 0xA0000, {0}, 7, 1, TO_MEMORY, 0x02, 0, 0},
    {"half a descriptor of nobody", 0x9FFFC, {0x5000}, 7, 1, TO_MEMORY, 0x02, 0, 0},
    {"a table in the ROM", 0xFFFF0000, {0}, 7, 1, TO_MEMORY, 0x02, 0, 8}, /* its region is at 03020100h */
};

static void known(const row *w) {
    fill();
    for (uint32_t k = 0; k < 6 && w->d[k]; k++) put32(w->table + 4 * k, w->d[k]);
    master.command = w->command, master.status = 0x67, master.table = w->table;
    move(w->lba, w->sectors);
    expect(w->name, 0, master.status, 0x60u | w->status);
    expect("start", 0, master.command, w->command & 8u);
    expect(w->name, 1, master.table, w->table + w->read);
    uint32_t base = w->d[0] & ~1u, at = w->lba * SECTOR;
    const uint8_t *from = w->command == TO_DISK ? memory : disk, *to = w->command == TO_DISK ? drive : guest;
    if (w->command == TO_DISK) expect(w->name, 2, (uint64_t)memcmp(to + at, from + base, w->bytes), 0);
    else expect(w->name, 2, w->bytes ? (uint64_t)memcmp(to + base, from + at, w->bytes) : 0, 0);
}

/* ---- one word at a time */

static uint32_t table, addr, left, moved;
static bool is_last;

static bool is_answered(uint32_t at, uint8_t bytes, bool write, board_part *part) {
    expect("a place", at, board_decode_master(&second, at, bytes, write, part), BOARD_OK);
    expect("SMRAM", at, part->target == BOARD_SMRAM, 0);
    bool memory_there = part->target == BOARD_DRAM || part->target == BOARD_SHADOW;
    expect("memory at A0000h to BFFFFh", at, memory_there && at >= 0xA0000 && at < 0xC0000, 0);
    return part->target != BOARD_ABORT;
}

static void one(const board_part *p, uint32_t at, uint8_t *data, uint32_t bytes, bool write) {
    for (uint32_t k = 0; k < bytes; k++) {
        bool here = (p->target == BOARD_DRAM || p->target == BOARD_SHADOW) && at + k < BYTES;
        if (write && here) memory[at + k] = data[k];
        if (write && p->target == BOARD_CARD && p->base != 6) board_card_write(&second, p->unit, p->base, p->offset + k, data + k, 1);
        if (write) continue;
        data[k] = here ? memory[at + k] : 0xFF;
        if (p->target == BOARD_ROM) data[k] = rom[(p->offset + k) % ROM];
        if (p->target == BOARD_CARD) board_card_read(&second, p->unit, p->base, p->offset + k, data + k, 1);
    }
}

static bool take(void) {
    board_part base, count;
    uint8_t d[8];
    if (!is_answered(table, 4, false, &base) || !is_answered(table + 4, 4, false, &count)) return false;
    one(&base, table, d, 4, false), one(&count, table + 4, d + 4, 4, false);
    addr = (d[0] | d[1] << 8 | d[2] << 16 | (uint32_t)d[3] << 24) & ~1u;
    left = (d[4] | d[5] << 8) & ~1u ? (d[4] | d[5] << 8) & ~1u : 65536;
    is_last = d[7] >> 7, table += 8;
    return true;
}

/* Bits 2 to 0 of the status at the end. */
static uint8_t by_words(uint32_t lba, uint32_t sectors, bool to_memory) {
    board_part part;
    for (addr = left = moved = is_last = 0; moved < sectors * SECTOR; moved += 2, addr += 2, left -= 2) {
        uint32_t sector = lba + moved / SECTOR;
        if (left == 0 && is_last) return 0;
        if (moved % SECTOR == 0 && sector >= SECTORS) return 2;
        if (left == 0 && !take()) return 2;
        if (!is_answered(addr, 2, to_memory, &part)) return 2;
        one(&part, addr, disk + lba * SECTOR + moved, 2, to_memory);
    }
    return left == 0 && is_last ? 4 : 5;
}

static uint64_t state = 88172645463325252u;

static uint32_t next(uint32_t below) {
    state ^= state << 13, state ^= state >> 7, state ^= state << 17;
    return (uint32_t)(state >> 33) % below;
}

static uint32_t some_address(void) {
    static const uint32_t from[] = {0x1000, 0x9F000, 0xA0000, 0xBF000, 0xC0000, 0xF0000, 0xFF000, 0x100000, 0x7FF000, 0xE0000000, 0xE0010000, 0xE1000000, 0xFFFEF000, 0xFFFFF000};
    return from[next(14)] + next(0x1000);
}

static void same_cards(void) {
    static uint8_t here[0x20000], there[sizeof here];
    static const struct { uint8_t device, base; uint32_t bytes; } held[] = {{VGA, 0, 0x10000}, {VGA, 7, 0x20000}, {DISK, 0, 0x1000}};
    for (int k = 0; k < 3; k++) {
        board_card_read(&b, held[k].device, held[k].base, 0, here, held[k].bytes);
        board_card_read(&second, held[k].device, held[k].base, 0, there, held[k].bytes);
        expect("bytes of a card", held[k].device, (uint64_t)memcmp(here, there, held[k].bytes), 0);
    }
}

static void random_one(uint32_t k) {
    bool to_memory = next(2);
    uint32_t lba = next(SECTORS + 2), sectors = 1 + next(4), at = next(8) ? TABLE : some_address() & ~3u;
    for (uint32_t d = 0; d < 8; d++)
        put32(TABLE + 8 * d, some_address()), put32(TABLE + 8 * d + 4, (next(4) ? 0 : LAST) | next(next(2) ? 0x300 : 0x10000));
    set(0, PAM1 + next(6), 1, next(256));
    set(next(2) ? VGA : DISK, COMMAND, 1, next(4));
    table = master.table = at, master.command = to_memory ? TO_MEMORY : TO_DISK, master.status = 0;
    move(lba, sectors);
    expect("a status", k, by_words(lba, sectors, to_memory), master.status);
    expect("a table pointer", k, master.table, table);
    expect("memory", k, (uint64_t)memcmp(guest, memory, BYTES), 0);
    expect("the disk", k, (uint64_t)memcmp(drive, disk, SECTORS * SECTOR), 0);
    if (k % 50 == 0) same_cards();
}

static void beside(uint32_t count) {
    fill();
    set(VGA, BASE0, 4, 0xE0000000), set(DISK, BASE0, 4, 0xE0010000);
    for (uint32_t k = 0; k < count && failed == 0; k++) random_one(k);
    same_cards();
}

/* ---- numbers of no transfer */

static void refused(const char *what, board_transfer t) {
    board_transfer before = t;
    board_piece p, untouched;
    memset(&p, 0xA5, sizeof p), untouched = p;
    expect(what, 0, board_transfer_next(&b, &t, &p), BOARD_NO_TRANSFER);
    expect(what, 1, board_transfer_region(&t, 0, 0), BOARD_NO_TRANSFER);
    expect(what, 2, (uint64_t)memcmp(&t, &before, sizeof t), 0);
    expect(what, 3, (uint64_t)memcmp(&p, &untouched, sizeof p), 0);
}

static void refusals(void) {
    static const struct { uint32_t table, lba, sectors; } none[] = {{2, 0, 1}, {TABLE, 1u << 28, 1}, {TABLE, 0, 0}, {TABLE, 0, 257}, {TABLE, 0, UINT32_MAX}};
    board_transfer good, t, before;
    board_piece p;
    memset(&t, 0xA5, sizeof t), before = t;
    for (size_t k = 0; k < sizeof none / sizeof *none; k++)
        expect("no beginning", k, board_transfer_begin(&t, none[k].table, none[k].lba, none[k].sectors, 1, true), BOARD_NO_TRANSFER);
    expect("a beginning that was refused", 0, (uint64_t)memcmp(&t, &before, sizeof t), 0);
    expect("the last sector", 0, board_transfer_begin(&good, 0xFFFFFFFC, 0x0FFFFFFF, 256, UINT32_MAX, true), BOARD_OK);
    expect("a beginning", 0, board_transfer_begin(&good, TABLE, 3, 2, 2, true), BOARD_OK);
    expect("a closed handle", 0, board_transfer_next(&closed, &good, &p), BOARD_BAD_HANDLE);
    t = good, t.table = 2, refused("a table at 2", t);
    t = good, t.addr = 1, refused("an odd address", t);
    t = good, t.left = 1, refused("an odd count", t);
    t = good, t.moved = 1, refused("an odd number of bytes", t);
    t = good, t.words = 65537, refused("too many words", t);
    t = good, t.moved = 0x1FE02, refused("too many bytes", t);
    t = good, t.words = UINT32_MAX, refused("all words", t);
    t = good, t.lba = 1u << 28, refused("a sector of 29 bits", t);
    t = good, t.is_last = 2, refused("a flag of 2", t);
    t = good, t.to_memory = 2, refused("a direction of 2", t);
    t = good, t.moved = 2, t.readable = 0, refused("a sector that was not there", t);
    t = good, t.reserved = 1, refused("a reserved byte", t);
    expect("a region", 0, board_transfer_region(&good, 0x5000, LAST | 0x400), BOARD_OK);
    expect("a second region", 0, board_transfer_region(&good, 0x5000, LAST | 0x400), BOARD_NO_TRANSFER);
}

/* ---- what a piece says */

static void said(void) {
    board_transfer t;
    board_piece p;
    board_part part;
    set(VGA, BASE0, 4, 0xE0000000), set(VGA, COMMAND, 1, 2);
    expect("begin", 0, board_transfer_begin(&t, TABLE, 5, 2, 2, true), BOARD_OK);
    expect("next", 0, board_transfer_next(&b, &t, &p), BOARD_OK);
    expect("a descriptor", p.addr, (uint64_t)p.what << 32 | p.bytes, (uint64_t)BOARD_DESCRIPTOR << 32 | 8);
    expect("its address", 0, p.addr, TABLE);
    expect("its parts", 0, p.part[0].target << 8 | p.part[1].target, BOARD_DRAM << 8 | BOARD_DRAM);
    expect("region", 0, board_transfer_region(&t, 0xE000FF00, 0x100), BOARD_OK);
    expect("next", 1, board_transfer_next(&b, &t, &p), BOARD_OK);
    expect("words of a card", p.addr, (uint64_t)p.what << 32 | p.bytes, (uint64_t)BOARD_WORDS << 32 | 0x100);
    expect("where they are", 0, p.part[0].target << 24 | p.part[0].unit << 16 | p.part[0].base, BOARD_CARD << 24 | VGA << 16);
    expect("their offset", 0, p.part[0].offset, 0xFF00);
    expect("their place on the disk", 0, p.disk, 5 * SECTOR);
    expect("next", 2, board_transfer_next(&b, &t, &p), BOARD_OK);
    expect("the second descriptor", 0, p.addr, TABLE + 8);
    expect("again", 0, board_transfer_next(&b, &t, &p), BOARD_OK);
    expect("the same", 0, p.addr, TABLE + 8);
    expect("region", 1, board_transfer_region(&t, 0x9FFFE, LAST | 0x300), BOARD_OK);
    expect("next", 3, board_transfer_next(&b, &t, &p), BOARD_OK);
    expect("a word before A0000h", p.addr, (uint64_t)p.what << 32 | p.bytes, (uint64_t)BOARD_WORDS << 32 | 2);
    expect("its place on the disk", 0, p.disk, 5 * SECTOR + 0x100);
    expect("next", 4, board_transfer_next(&b, &t, &p), BOARD_OK);
    board_decode_master(&b, 0xA0000, 2, true, &part);
    expect("the VGA window", p.addr, (uint64_t)memcmp(&p.part[0], &part, sizeof part), 0);
    expect("its word", p.addr, (uint64_t)p.what << 32 | p.bytes, (uint64_t)BOARD_WORDS << 32 | 2);
    set(VGA, COMMAND, 1, 0);
    expect("next", 5, board_transfer_next(&b, &t, &p), BOARD_OK);
    expect("nobody", p.addr, (uint64_t)p.what << 16 | p.end << 8 | p.status, (uint64_t)BOARD_ENDED << 16 | BOARD_ABORTED << 8 | 2);
    board_decode_master(&b, 0xA0002, 2, true, &part);
    expect("what denies it", 0, (uint64_t)memcmp(&p.part[0], &part, sizeof part), 0);
    expect("bytes moved", 0, p.bytes, 0x104);
}

int main(int argc, char **argv) {
    mib = MIB, rom_bytes = ROM, drive_sectors = SECTORS;
    guest = malloc(BYTES), memory = malloc(BYTES), rom = malloc(ROM), drive = malloc(SECTORS * SECTOR), disk = malloc(SECTORS * SECTOR);
    for (uint32_t k = 0; k < ROM; k++) rom[k] = (uint8_t)k;
    open_all();
    for (size_t k = 0; k < sizeof rows / sizeof *rows; k++) known(&rows[k]);
    refusals();
    said();
    close_all(), open_all();
    beside(argc > 1 ? (uint32_t)atoi(argv[1]) : RANDOM);
    close_all();
    free(guest), free(memory), free(rom), free(drive), free(disk);
    return failed != 0;
}
