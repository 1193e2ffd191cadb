/* The board's map as the processor can use it: stretches of addresses behind which plain memory of the host lies. */
#include "machine.h"
#include <stdio.h>
#include <stdlib.h>

static bool is_memory(board_area a) { return a.target == BOARD_DRAM || a.target == BOARD_SHADOW; }

static bool is_same(board_area a, board_area b) { return a.target == b.target && a.unit == b.unit && a.base == b.base; }

/* Adds a slot, or lengthens the one before it where both are one stretch. */
static void add(machine *m, uint32_t first, uint32_t last, uint8_t *host, bool read_only) {
    memory_slot *before = m->slot_count ? &m->slots[m->slot_count - 1] : NULL;
    if (first % GUEST_PAGE || (last + 1) % GUEST_PAGE) return;
    if (before && before->last + 1 == first && before->host + (first - before->first) == host && before->read_only == read_only) {
        before->last = last;
        return;
    }
    if (m->slot_count == MOST_SLOTS) {
        fprintf(stderr, "monitor: more than %d slots\n", MOST_SLOTS);
        exit(1);
    }
    m->slots[m->slot_count++] = (memory_slot){first, last, host, read_only};
}

/* Main memory, as far as it is installed: past that a row is decoded and nothing is there. */
static void add_memory(machine *m, board_range range, bool read_only) {
    if (board_range_clip(&range, m->options.mib)) add(m, range.lo, range.hi, m->memory + range.lo, read_only);
}

/* The ROM, which stands in a long range again and again. */
static void add_rom(machine *m, const board_range *range) {
    uint64_t at = range->lo;
    while (at <= range->hi) {
        size_t offset = at % m->rom_bytes;
        uint64_t last = at + (m->rom_bytes - offset) - 1;
        if (last > range->hi) last = range->hi;
        add(m, (uint32_t)at, (uint32_t)last, m->rom + offset, true);
        at = last + 1;
    }
}

/* No slot where a fetch and a read reach different things, nor for cards, SMRAM and nobody: there each access exits.
 * Where only writes reach elsewhere the slot is read-only: a write exits, and the board says where it lands. */
static void add_range(machine *m, const board_range *range) {
    board_area fetch = board_area_of(range, BOARD_FETCH, false), read = board_area_of(range, BOARD_READ, false);
    if (!is_same(fetch, read)) return;
    if (is_memory(read)) add_memory(m, *range, !is_memory(board_area_of(range, BOARD_WRITE, false)));
    else if (read.target == BOARD_ROM) add_rom(m, range);
}

void slots_follow_map(machine *m) {
    static board_range ranges[BOARD_MOST_RANGES];
    static board_window windows[BOARD_MOST_WINDOWS];
    board_map map;
    uint32_t status = board_ranges(&m->board, &map, ranges, BOARD_MOST_RANGES, windows, BOARD_MOST_WINDOWS);
    if (status != BOARD_OK) {
        fprintf(stderr, "monitor: board_ranges: status %u\n", status);
        exit(1);
    }
    m->slot_count = 0;
    for (size_t k = 0; k < map.ranges; k++) add_range(m, &ranges[k]);
    m->map_version = map.version;
    m->slots_moved = true;
    m->counts.maps++;
}

uint8_t *slots_find(machine *m, uint64_t addr, bool write) {
    for (size_t k = 0; k < m->slot_count; k++) {
        const memory_slot *s = &m->slots[k];
        if (s->first <= addr && addr <= s->last) return write && s->read_only ? NULL : s->host + (addr - s->first);
    }
    return NULL;
}
