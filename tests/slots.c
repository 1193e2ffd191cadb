/* Tries board_slots_follow over random maps, and over those of boards whose registers are written at random:
 *
 *     slots ROUNDS SEED
 *
 * After each change of a processor's slots no two overlap and none is of another's number. After the last of a map each
 * page is the guest's memory, read-only or not, the ROM or an exit, as the ranges say of it, and a slot that was right
 * before was not taken away. Exit status 1, with a line, where that does not hold. */
#include "board.h"
#include <stdio.h>
#include <stdlib.h>
#include <string.h>

enum { MIB = 16, ROM_BYTES = 512 << 10, LOW_PAGES = 8192, MOST_RANGES = 60 };
enum { FEW = BOARD_MOST_SLOTS / 3 };   /* slots that stay, of which none is taken away for want of numbers */
enum { EXIT, MEMORY, READ_ONLY, ROM }; /* what a page is */

#define TOP 0xFFF80000u /* the ROM's */

static board_slots slots; /* as they are told */
static board_slot had[BOARD_MOST_SLOTS]; /* as the processor has them */
static uint64_t state;

static uint32_t random_below(uint32_t limit) {
    state = state * 6364136223846793005u + 1442695040888963407u;
    return (uint32_t)(state >> 33) % limit;
}

static _Noreturn void fail(const char *what, uint32_t addr) {
    printf("slots: %s at %08X\n", what, addr);
    exit(1);
}

static void want(bool is_so, const char *what, uint32_t addr) {
    if (!is_so) fail(what, addr);
}

static bool is_memory(uint8_t target) { return target == BOARD_DRAM || target == BOARD_SHADOW; }

/* What a page has to be: what all ranges make of it that have bytes of it. */
static int kind_of(const board_range *ranges, size_t count, uint32_t page, uint32_t mib) {
    uint64_t first = (uint64_t)page * BOARD_PAGE, last = first + BOARD_PAGE - 1;
    int kind = -1;
    for (size_t k = 0; k < count; k++) {
        if (ranges[k].hi < first || ranges[k].lo > last) continue;
        uint8_t fetch = ranges[k].area[0].target, read = ranges[k].area[1].target, write = ranges[k].area[2].target;
        bool is_there = is_memory(read) && is_memory(fetch) && last < (uint64_t)mib << 20;
        int here = EXIT;
        if (read == BOARD_ROM && fetch == BOARD_ROM) here = ROM;
        else if (is_there) here = is_memory(write) ? MEMORY : READ_ONLY;
        if (kind >= 0 && kind != here) return EXIT;
        kind = here;
    }
    return kind;
}

static int kind_had(const board_slot *slot) {
    if (slot->is_rom) return ROM;
    return slot->is_read_only ? READ_ONLY : MEMORY;
}

static const board_slot *slot_at(uint64_t addr) {
    for (size_t k = 0; k < BOARD_MOST_SLOTS; k++)
        if (had[k].is_used && had[k].lo <= addr && addr <= had[k].hi) return &had[k];
    return NULL;
}

static void check_page(const board_range *ranges, size_t count, uint32_t page, uint32_t mib) {
    uint32_t addr = page * BOARD_PAGE;
    const board_slot *slot = slot_at(addr);
    int kind = kind_of(ranges, count, page, mib);
    want(kind == (slot ? kind_had(slot) : EXIT), "a page is not what the map says", addr);
    uint32_t place = kind == ROM ? addr % ROM_BYTES : addr;
    if (slot) want(slot->offset + (addr - slot->lo) == place, "another place of the bytes", addr);
}

/* Whether a slot is right of a map: then it may not be taken away. */
static bool is_right(const board_range *ranges, size_t count, const board_slot *slot, uint32_t mib) {
    for (uint64_t addr = slot->lo; addr <= slot->hi; addr += BOARD_PAGE)
        if (kind_of(ranges, count, (uint32_t)(addr / BOARD_PAGE), mib) != kind_had(slot)) return false;
    return true;
}

static void do_change(const board_slot_change *change) {
    const board_slot *slot = &change->slot;
    if (!change->is_added) {
        want(had[change->number].is_used && had[change->number].lo == slot->lo, "none to take away", slot->lo);
        had[change->number].is_used = 0;
        return;
    }
    want(!had[change->number].is_used, "a number that is taken", slot->lo);
    want(slot->lo % BOARD_PAGE == 0 && (slot->hi + 1) % BOARD_PAGE == 0, "no whole pages", slot->lo);
    want(slot->lo < slot->hi, "a slot without pages", slot->lo);
    for (size_t k = 0; k < BOARD_MOST_SLOTS; k++)
        want(!had[k].is_used || had[k].hi < slot->lo || slot->hi < had[k].lo, "two slots overlap", slot->lo);
    had[change->number] = *slot;
}

/* One map: how many changes it took. */
static uint32_t follow(const board_range *ranges, size_t count, uint32_t mib) {
    static board_slot_change changes[BOARD_MOST_CHANGES];
    uint32_t made = board_slots_follow(&slots, ranges, count, mib, ROM_BYTES, changes), kept = 0;
    for (size_t k = 0; k < BOARD_MOST_SLOTS; k++) kept += had[k].is_used && is_right(ranges, count, &had[k], mib);
    for (uint32_t k = 0; k < made; k++) {
        bool is_taken = !changes[k].is_added && kept < FEW;
        bool is_lost = is_taken && is_right(ranges, count, &changes[k].slot, mib);
        want(!is_lost, "a slot that is right was taken away", changes[k].slot.lo);
        do_change(&changes[k]);
    }
    want(memcmp(had, slots.slot, sizeof had) == 0, "other slots than are told", 0);
    for (size_t k = 0; k < count; k++) { /* the pages at the ends of each range, and one in it */
        uint32_t lo = ranges[k].lo / BOARD_PAGE, hi = ranges[k].hi / BOARD_PAGE;
        check_page(ranges, count, lo, mib);
        check_page(ranges, count, hi, mib);
        check_page(ranges, count, lo + random_below(hi - lo + 1), mib);
    }
    check_page(ranges, count, mib * 256 - 1, mib);
    check_page(ranges, count, mib * 256, mib);
    return made;
}

/* Ranges over all addresses, with ends in pages and between them, of which some lie past the memory. */
static size_t random_ranges(board_range *into) {
    static const uint8_t targets[] = {BOARD_DRAM, BOARD_SHADOW, BOARD_ROM, BOARD_CARD, BOARD_ABORT, BOARD_SMRAM};
    size_t count = 0;
    uint64_t lo = 0;
    while (count < MOST_RANGES - 2 && lo < (uint64_t)LOW_PAGES * BOARD_PAGE) {
        uint64_t bytes = (1 + (uint64_t)random_below(LOW_PAGES / 16)) * BOARD_PAGE;
        if (random_below(4) == 0) bytes -= random_below(BOARD_PAGE);
        uint8_t one = targets[random_below(6)];
        into[count] = (board_range){.lo = (uint32_t)lo, .hi = (uint32_t)(lo + bytes - 1)};
        for (int k = 0; k < 6; k++) into[count].area[k].target = random_below(6) ? one : targets[random_below(6)];
        lo += bytes;
        count++;
    }
    into[count] = (board_range){.lo = (uint32_t)lo, .hi = TOP - 1};
    for (int k = 0; k < 6; k++) into[count].area[k].target = BOARD_ABORT;
    into[count + 1] = (board_range){.lo = TOP, .hi = UINT32_MAX};
    for (int k = 0; k < 6; k++) into[count + 1].area[k].target = BOARD_ROM;
    return count + 2;
}

/* Some ranges of a map again with other areas, as a register changes them. */
static void change_some(board_range *ranges, size_t count) {
    for (uint32_t k = random_below(4); k > 0; k--) {
        uint32_t from = random_below((uint32_t)count), to = random_below((uint32_t)count - 2); /* not the long ones */
        memcpy(ranges[to].area, ranges[from].area, sizeof ranges[to].area);
    }
}

static void write_register(board *b) {
    static const uint8_t offsets[] = {0x59, 0x5A, 0x5B, 0x5C, 0x5D, 0x5E, 0x5F, /* PAM0 to PAM6 */
                                      0x60, 0x64, 0x67, 0x68, 0x72};            /* DRB0, 4, 7; FDHC; SMRAM */
    board_reply reply;
    uint32_t status, kind = random_below(14);
    if (kind == 12) status = board_config_write(b, 0x08, 0x4E, (uint8_t)random_below(256), &reply); /* XBCS */
    else if (kind == 13) status = board_prepare(b, &reply);
    else status = board_config_write(b, 0x00, offsets[kind], (uint8_t)random_below(256), &reply);
    want(status == BOARD_OK, board_status_text(status), kind);
}

static void follow_board(board *b) {
    static board_range ranges[BOARD_MOST_RANGES];
    board_window window;
    board_map map;
    want(board_ranges(b, &map, ranges, BOARD_MOST_RANGES, &window, 0) == BOARD_OK, "board_ranges", 0);
    follow(ranges, map.ranges, map.mib);
    want(follow(ranges, map.ranges, map.mib) == 0, "the same map again is a change", 0);
}

int main(int count, char **words) {
    static uint8_t rom[1 << 17];
    static board_card none[1];
    static board_range ranges[MOST_RANGES];
    if (count != 3) return fprintf(stderr, "usage: slots ROUNDS SEED\n"), 2;
    uint32_t rounds = (uint32_t)strtoul(words[1], NULL, 10), changes = 0;
    state = strtoul(words[2], NULL, 10);
    for (uint32_t round = 0; round < rounds; round++) {
        size_t made = random_ranges(ranges);
        for (int k = 0; k < 8; k++, change_some(ranges, made)) changes += follow(ranges, made, MIB);
    }
    board b = {0};
    if (board_open(&b, MIB, none, 0, rom, sizeof rom, rom, 0)) return 1;
    for (uint32_t round = 0; round < 8 * rounds; round++) {
        write_register(&b);
        follow_board(&b);
    }
    board_close(&b);
    printf("slots: %u maps, %u changes of random ones\n", 16 * rounds, changes);
}
