/* Wrong arguments: each gives its status, and leaves the board and the reply as they were. */
#include "board.h"
#include <stdio.h>
#include <stdlib.h>
#include <string.h>

static int failed;

static void expect(const char *what, uint32_t got, uint32_t status) {
    if (got == status) return;
    printf("%s: %u, not %u\n", what, got, status);
    failed = 1;
}

static const struct { const char *name; board_event event; uint32_t status; } events[] = {
    {"zeros", {0}, BOARD_NO_EVENT},
    {"no such event", {.what = 11}, BOARD_NO_EVENT},
    {"a byte of 9 bits", {.what = BOARD_SERIAL, .value = 256}, BOARD_NO_EVENT},
    {"an unaligned port of 4 bytes past the end", {.what = BOARD_PORT, .kind = BOARD_READ, .bytes = 4, .addr = 0xFFFD}, BOARD_ALIGNMENT},
    {"reserved", {.what = BOARD_ACK, .reserved = 1}, BOARD_NO_EVENT},
    {"a flag of 2", {.what = BOARD_ACK, .smm = 2}, BOARD_NO_EVENT},
    {"no kind", {.what = BOARD_MEMORY, .bytes = 1}, BOARD_NO_EVENT},
    {"no kind of 4", {.what = BOARD_LOOK, .kind = 4}, BOARD_NO_EVENT},
    {"three bytes", {.what = BOARD_MEMORY, .kind = BOARD_READ, .bytes = 3}, BOARD_NO_EVENT},
    {"fetch of a port", {.what = BOARD_PORT, .kind = BOARD_FETCH, .bytes = 1}, BOARD_NO_EVENT},
    {"a port of three bytes", {.what = BOARD_PORT, .kind = BOARD_READ, .bytes = 3}, BOARD_NO_EVENT},
    {"a port of 17 bits", {.what = BOARD_PORT, .kind = BOARD_READ, .bytes = 1, .addr = 0x10000}, BOARD_NO_EVENT},
    {"a port of 8 bytes", {.what = BOARD_PORT, .kind = BOARD_READ, .bytes = 8}, BOARD_NO_EVENT},
    {"a value of 33 bits", {.what = BOARD_MEMORY, .kind = BOARD_WRITE, .bytes = 4, .value = 1ull << 32}, BOARD_NO_EVENT},
    {"a level of 2", {.what = BOARD_IRQ, .addr = 1, .value = 2}, BOARD_NO_EVENT},
    {"line 256", {.what = BOARD_IRQ, .addr = 256}, BOARD_NO_EVENT},
    {"no such day", {.what = BOARD_TIME, .value = 20260229000000}, BOARD_NO_EVENT},
    {"a port not aligned", {.what = BOARD_PORT, .kind = BOARD_READ, .bytes = 4, .addr = 0xCF9}, BOARD_ALIGNMENT},
    {"a value that does not fit", {.what = BOARD_MEMORY, .kind = BOARD_WRITE, .bytes = 1, .value = 256}, BOARD_VALUE},
    {"a value read", {.what = BOARD_MEMORY, .kind = BOARD_READ, .bytes = 1, .value = 1}, BOARD_VALUE},
    {"past the last address", {.what = BOARD_MEMORY, .kind = BOARD_READ, .bytes = 8, .addr = 0xFFFFFFFC}, BOARD_END},
    {"no pulses", {.what = BOARD_PULSE}, BOARD_PULSES},
    {"too many pulses", {.what = BOARD_PULSE, .value = 1000001}, BOARD_PULSES},
    {"no such card", {.what = BOARD_WIRE, .addr = 2}, BOARD_DEVICE},
    {"the timer's line", {.what = BOARD_IRQ, .addr = 0}, BOARD_LINE},
};

/* bytes that a refused call, or one with less room, leaves alone */
static int is_untouched(const void *bytes, size_t from, size_t to) {
    for (size_t k = from; k < to; k++) if (((const uint8_t *)bytes)[k] != 0xA5) return 0;
    return 1;
}

static void must(const char *what, int holds) {
    if (holds) return;
    printf("%s\n", what);
    failed = 1;
}

/* The map after power-on, as docs/FORMATS.md has it. */
static void ranges(board *b, board *closed) {
    static const struct { uint32_t lo, hi; uint8_t target; } rows[] = {
        {0x00000000, 0x0009FFFF, BOARD_DRAM}, {0x000A0000, 0x000EFFFF, BOARD_ABORT}, {0x000F0000, 0x000FFFFF, BOARD_ROM},
        {0x00100000, 0x007FFFFF, BOARD_DRAM}, {0x00800000, 0xFFFEFFFF, BOARD_ABORT}, {0xFFFF0000, 0xFFFFFFFF, BOARD_ROM},
    };
    board_map map;
    board_range range[BOARD_MOST_RANGES];
    board_window window[BOARD_MOST_WINDOWS];
    board_reply r;
    memset(&map, 0xA5, sizeof map);
    memset(range, 0xA5, sizeof range);
    memset(window, 0xA5, sizeof window);
    expect("ranges of a closed handle", board_ranges(closed, &map, range, 6, window, 1), BOARD_BAD_HANDLE);
    must("a closed handle told a map", is_untouched(&map, 0, sizeof map) && is_untouched(range, 0, sizeof range) && is_untouched(window, 0, sizeof window));
    expect("ranges without room", board_ranges(b, &map, range, 0, window, 0), BOARD_OK);
    must("counts without room", map.ranges == 6 && map.windows == 0 && map.version == 0 && map.mib == 8);
    must("ranges were told without room", is_untouched(range, 0, sizeof range));
    expect("ranges, room for two", board_ranges(b, &map, range, 2, window, BOARD_MOST_WINDOWS), BOARD_OK);
    must("two ranges", map.ranges == 6 && range[1].hi == rows[1].hi && is_untouched(range, 2 * sizeof *range, sizeof range));
    expect("ranges", board_ranges(b, &map, range, BOARD_MOST_RANGES, window, BOARD_MOST_WINDOWS), BOARD_OK);
    for (size_t k = 0; k < 6; k++) {
        must("a range", range[k].lo == rows[k].lo && range[k].hi == rows[k].hi);
        for (int kind = 0; kind < 6; kind++)
            must("an area", range[k].area[kind].target == rows[k].target && !range[k].area[kind].unit && !range[k].area[kind].base && !range[k].area[kind].reserved);
    }
    must("a range past the last", is_untouched(range, 6 * sizeof *range, sizeof range) && is_untouched(window, 0, sizeof window));
    expect("PAM2", board_out(b, 0xCF8, 4, 0x80000058, &r), BOARD_OK);
    expect("PAM2", board_out(b, 0xCFF, 1, 0x20, &r), BOARD_OK);
    expect("ranges after a write", board_ranges(b, &map, range, BOARD_MOST_RANGES, window, BOARD_MOST_WINDOWS), BOARD_OK);
    must("the window CC000h to CFFFFh for writes", map.ranges == 8 && range[2].lo == 0xCC000 && range[2].hi == 0xCFFFF
        && board_area_of(&range[2], BOARD_WRITE, false).target == BOARD_SHADOW && board_area_of(&range[2], BOARD_WRITE, true).target == BOARD_SHADOW
        && board_area_of(&range[2], BOARD_READ, false).target == BOARD_ABORT && board_area_of(&range[2], BOARD_FETCH, false).target == BOARD_ABORT);
    must("the windows of PAM2", map.version == 1 && map.windows >= 1 && window[0].lo <= 0xCC000 && window[map.windows - 1].hi >= 0xCFFFF
        && window[0].lo >= 0xC8000 && window[map.windows - 1].hi <= 0xCFFFF);
}

static void asked(board *b, board *closed) {
    static const struct { const char *name; board_event event; uint32_t status; uint8_t target, denial; } places[] = {
        {"DRAM", {.what = BOARD_MEMORY, .kind = BOARD_READ, .bytes = 4, .addr = 0x1000}, BOARD_OK, BOARD_DRAM, BOARD_NOT_DENIED},
        {"a write to the ROM", {.what = BOARD_MEMORY, .kind = BOARD_WRITE, .bytes = 1, .addr = 0xFFFFFFF0, .value = 1}, BOARD_OK, BOARD_ROM, BOARD_BY_REGISTER},
        {"the 8254", {.what = BOARD_PORT, .kind = BOARD_READ, .bytes = 1, .addr = 0x40}, BOARD_OK, BOARD_IS_DEVICE, BOARD_NOT_DENIED},
        {"nobody", {.what = BOARD_PORT, .kind = BOARD_READ, .bytes = 1, .addr = 0x2F8}, BOARD_OK, BOARD_ABORT, BOARD_BY_NO_REGISTER},
        {"the serial port", {.what = BOARD_PORT, .kind = BOARD_READ, .bytes = 1, .addr = 0x3F8}, BOARD_OK, BOARD_IS_DEVICE, BOARD_NOT_DENIED},
        {"no event", {0}, BOARD_NO_EVENT, 0, 0},
        {"an acknowledge", {.what = BOARD_ACK}, BOARD_NO_CYCLE, 0, 0},
        {"8 bytes", {.what = BOARD_MEMORY, .kind = BOARD_READ, .bytes = 8, .addr = 0x1000}, BOARD_NO_CYCLE, 0, 0},
        {"a port not aligned", {.what = BOARD_PORT, .kind = BOARD_READ, .bytes = 4, .addr = 0xCF9}, BOARD_NO_CYCLE, 0, 0},
    };
    board_part part;
    uint32_t pulses = 0xA5A5A5A5;
    uint8_t bytes[513], byte = 0xA5;
    expect("decode of a closed handle", board_decode(closed, &places[0].event, &part), BOARD_BAD_HANDLE);
    for (size_t k = 0; k < sizeof places / sizeof *places; k++) {
        memset(&part, 0xA5, sizeof part);
        expect(places[k].name, board_decode(b, &places[k].event, &part), places[k].status);
        if (places[k].status) must("a refused decode told a part", is_untouched(&part, 0, sizeof part));
        else must(places[k].name, part.target == places[k].target && part.denial == places[k].denial);
    }
    expect("pulses of a closed handle", board_pulses_to_rise(closed, &pulses), BOARD_BAD_HANDLE);
    must("a closed handle told pulses", pulses == 0xA5A5A5A5);
    expect("pulses", board_pulses_to_rise(b, &pulses), BOARD_OK);
    memset(bytes, 0xA5, sizeof bytes);
    expect("DRAM of a closed handle", board_dram_read(closed, 0, bytes, 512), BOARD_BAD_HANDLE);
    expect("sector of a closed handle", board_disk_read(closed, 0, bytes, 512), BOARD_BAD_HANDLE);
    expect("byte of a closed handle", board_cmos_read(closed, 0, &byte), BOARD_BAD_HANDLE);
    expect("no such sector", board_disk_read(b, 1, bytes, 512), BOARD_NO_SECTOR);
    expect("half of no such sector", board_disk_read(b, 1, bytes, 256), BOARD_NO_SECTOR);
    expect("half a sector", board_disk_read(b, 0, bytes, 256), BOARD_BAD_LENGTH);
    expect("byte 128", board_cmos_read(b, 128, &byte), BOARD_NO_BYTE);
    must("a refused call told bytes", is_untouched(bytes, 0, sizeof bytes) && byte == 0xA5);
    expect("sector 0", board_disk_read(b, 0, bytes, 512), BOARD_OK);
    must("sector 0", bytes[0] == 0 && bytes[511] == 0 && bytes[512] == 0xA5);
    expect("past the memory", board_dram_read(b, 0x7FFFFE, bytes, 4), BOARD_OK);
    must("past the memory", bytes[0] == 0 && bytes[1] == 0 && bytes[2] == 0xFF && bytes[3] == 0xFF && bytes[4] == 0);
    expect("past the last address", board_dram_read(b, 0xFFFFFFFF, bytes, 2), BOARD_OK);
    must("past the last address", bytes[0] == 0xFF && bytes[1] == 0xFF);
    expect("register B", board_cmos_read(b, 11, &byte), BOARD_OK);
    must("register B", byte == 2);
}

/* ---- lines of a log */

/* replies that are none: one that a step gave, with a field changed */
static void no_replies(const board_event *event, const board_reply *good) {
    board_reply r[24];
    size_t n = sizeof r / sizeof *r;
    for (size_t k = 0; k < n; k++) r[k] = *good;
    memset(&r[0], 0, sizeof *r);
    r[1].parts = 3;
    r[2].has_value = 2;
    r[3].form = 4;
    r[4].form = BOARD_LOOK_REPLY, r[4].part[0].target = BOARD_IS_DEVICE;
    r[5].parts = 0;
    r[6].parts = 2;
    r[7].form = BOARD_PARTS_REPLY;
    r[8].form = BOARD_PARTS_REPLY, r[8].parts = 5;
    r[9].form = BOARD_PARTS_REPLY, r[9].parts = 2, memset(&r[9].part[1], 0, sizeof r[9].part[1]);
    r[10].value = 1ull << 32;
    r[11].part[0].target = BOARD_NOTHING;
    r[12].part[0].target = 9;
    r[13].part[0].reserved = 1;
    r[14].part[0].denial = 4;
    r[15].part[0].target = BOARD_CONFIG, r[15].part[0].offset = 256;
    r[16].part[0].target = BOARD_IS_DEVICE, r[16].part[0].unit = 0;
    r[17].part[0].target = BOARD_IS_DEVICE, r[17].part[0].unit = 16;
    r[18].form = BOARD_LOOK_REPLY, r[18].part[0].target = BOARD_CONFIG;
    r[19].form = BOARD_LOOK_REPLY, r[19].part[0].target = BOARD_NOTHING;
    r[20].form = BOARD_LOOK_REPLY, r[20].parts = 2;
    r[21].form = 0;
    r[22].form = 255, r[22].parts = 255;
    r[23].part[0].unit = 255, r[23].part[0].target = BOARD_IS_DEVICE;
    for (size_t k = 0; k < n; k++) {
        uint8_t line[BOARD_LONGEST_LINE];
        size_t bytes = 77;
        memset(line, 0xA5, sizeof line);
        uint32_t status = board_text(event, &r[k], 1, 0, 1, line, sizeof line, &bytes);
        if (status != BOARD_NO_REPLY) printf("reply %zu\n", k);
        expect("no reply", status, BOARD_NO_REPLY);
        must("a refused text was written", bytes == 77 && is_untouched(line, 0, sizeof line));
    }
}

static void text(board *b) {
    static const char want[] = "18446744073709551615 255.4294967295 w q 000CC003 0102030405060708 smm = - ";
    board_event event = {.what = BOARD_MEMORY, .kind = BOARD_READ, .bytes = 4, .addr = 0x1000}, none = event;
    board_reply reply;
    uint8_t line[BOARD_LONGEST_LINE + 1];
    size_t bytes = 77, length = strlen("1 0.1 r d 00001000 = 00000000 dram:0 -\n");
    expect("a step", board_step(b, &event, &reply), BOARD_OK);
    no_replies(&event, &reply);
    none.kind = 4;
    memset(line, 0xA5, sizeof line);
    expect("a text of no event", board_text(&none, &reply, 1, 0, 1, line, sizeof line, &bytes), BOARD_NO_EVENT);
    must("a text of no event was written", bytes == 77 && is_untouched(line, 0, sizeof line));
    for (size_t room = 0; room < length; room++) {
        bytes = 77;
        expect("a text without room", board_text(&event, &reply, 1, 0, 1, line, room, &bytes), BOARD_NO_ROOM);
        must("a text without room", bytes == length && is_untouched(line, 0, sizeof line));
    }
    expect("a text", board_text(&event, &reply, 1, 0, 1, line, length, &bytes), BOARD_OK);
    must("a text", bytes == length && !memcmp(line, "1 0.1 r d 00001000 = 00000000 dram:0 -\n", length) && is_untouched(line, length, sizeof line));
    event = (board_event){.what = BOARD_MEMORY, .kind = BOARD_WRITE, .bytes = 8, .addr = 0xCC003, .smm = 1, .value = 0x102030405060708};
    expect("a wide write", board_step(b, &event, &reply), BOARD_OK);
    expect("a wide text", board_text(&event, &reply, UINT64_MAX, 255, UINT32_MAX, line, sizeof line, &bytes), BOARD_OK);
    must("a wide text", bytes > sizeof want && !memcmp(line, want, sizeof want - 1));
    memset(reply.part, 0, sizeof reply.part);
    for (int k = 0; k < 4; k++)
        reply.part[k] = (board_part){.target = BOARD_CARD, .unit = 255, .base = 255, .offset = UINT32_MAX, .denial = BOARD_BY_REGISTER, .denial_dev = 255};
    reply.parts = 4, reply.has_value = 1, reply.value = UINT64_MAX;
    expect("the longest text", board_text(&event, &reply, UINT64_MAX, 255, UINT32_MAX, line, BOARD_LONGEST_LINE, &bytes), BOARD_OK);
    must("the longest text", bytes <= BOARD_LONGEST_LINE);
}

static const uint8_t *rom_bytes;
static const board_card no_card;

/* ---- the calls over board_step, and what needs no board */

/* the same status as board_step of the same record, and no cycle done before a refusal */
static void inline_calls(board *b, board *closed) {
    static const struct { uint16_t port; uint8_t bytes; uint32_t status; } rows[] = {
        {0x80, 0, BOARD_NO_EVENT}, {0x80, 3, BOARD_NO_EVENT}, {0x80, 8, BOARD_NO_EVENT}, {0xFFFF, 2, BOARD_NO_EVENT},
        {0xFFFE, 4, BOARD_NO_EVENT}, {0xFFFC, 4, BOARD_OK}, {0xFFFD, 2, BOARD_OK}, {0xFFFF, 1, BOARD_OK},
    };
    static const uint32_t dates[][6] = {
        {1844676433, 1, 1, 0, 0, 0}, {10000, 1, 1, 0, 0, 0}, {1979, 12, 31, 23, 59, 59}, {2100, 1, 1, 0, 0, 0},
        {2028, 100, 1, 0, 0, 0}, {2028, 2, 30, 0, 0, 0}, {2028, 2, 29, 24, 0, 0}, {2028, 2, 29, 0, 60, 0}, {2028, 2, 29, 0, 0, 60},
        {2028, 2, 29, 0, 0, 4294967295u},
    };
    board_reply r;
    for (size_t k = 0; k < sizeof rows / sizeof *rows; k++) {
        expect("in", board_in(b, rows[k].port, rows[k].bytes, &r), rows[k].status);
        expect("out", board_out(b, rows[k].port, rows[k].bytes, 0, &r), rows[k].status);
        expect("in of a closed handle", board_in(closed, rows[k].port, rows[k].bytes, &r), BOARD_BAD_HANDLE);
        expect("out of a closed handle", board_out(closed, rows[k].port, rows[k].bytes, 0, &r), BOARD_BAD_HANDLE);
    }
    expect("a byte of 9 bits out", board_out(b, 0x80, 1, 256, &r), BOARD_VALUE);
    expect("a word of 17 bits out", board_out(b, 0x81, 2, 0x10000, &r), BOARD_VALUE);
    for (size_t k = 0; k < sizeof dates / sizeof *dates; k++) {
        const uint32_t *d = dates[k];
        memset(&r, 0xA5, sizeof r);
        expect("a date", board_time(b, d[0], d[1], d[2], d[3], d[4], d[5], &r), BOARD_NO_EVENT);
        must("a refused date told a reply", is_untouched(&r, 0, sizeof r));
    }
    expect("a date of a closed handle", board_time(closed, 2028, 2, 29, 0, 0, 0, &r), BOARD_BAD_HANDLE);
}

static void versions(void) {
    must("the version", board_version() == BOARD_INTERFACE);
    for (uint32_t status = 0; status <= BOARD_NO_TRANSFER; status++) {
        int none = status == 10 || status == 11 || status == 14;
        must("the text of a status", (strcmp(board_status_text(status), board_status_text(UINT32_MAX)) == 0) == none);
    }
}

/* A board without a disk has no sector, whatever the room. */
static void no_disk(void) {
    uint8_t bytes[512];
    board b = {0};
    expect("a board without a disk", board_open(&b, 1, &no_card, 0, rom_bytes, 65536, rom_bytes, 0), BOARD_OK);
    expect("a sector of no disk", board_disk_read(&b, 0, bytes, 512), BOARD_NO_SECTOR);
    expect("half a sector of no disk", board_disk_read(&b, 0, bytes, 256), BOARD_NO_SECTOR);
    board_close(&b);
}

/* ---- opening */

/* a board with one card, and how it is refused */
static void open_with(const char *what, board_card card, size_t count, uint32_t status) {
    board b = {0};
    board_card cards[2] = {card, card};
    expect(what, board_open(&b, 8, cards, count, rom_bytes, 65536, rom_bytes, 0), status);
    must("a refused open made a board", b.open == (status == BOARD_OK));
    board_close(&b);
}

static void cards(void) {
    const board_card good = {.device = 2, .vga = 1, .rom = 16, .bases = 2, .base = {{BOARD_MEMORY_BASE, 20}, {BOARD_IO_BASE, 8}}};
    board_card c;
    open_with("a card", good, 1, BOARD_OK);
    open_with("no card", (board_card){0}, 1, BOARD_BAD_CARDS);
    open_with("twice the same device", good, 2, BOARD_BAD_CARDS);
    c = good, c.reserved = 1, open_with("a reserved byte of a card", c, 1, BOARD_BAD_CARDS);
    c = good, c.vga = 2, open_with("a flag of 2", c, 1, BOARD_BAD_CARDS);
    c = good, c.device = 1, open_with("device 1", c, 1, BOARD_BAD_CARDS);
    c = good, c.device = 10, open_with("device 10", c, 1, BOARD_BAD_CARDS);
    c = good, c.rom = 10, open_with("an expansion ROM of 1 KiB", c, 1, BOARD_BAD_CARDS);
    c = good, c.rom = 25, open_with("an expansion ROM of 32 MiB", c, 1, BOARD_BAD_CARDS);
    c = good, c.bases = 7, open_with("seven bases", c, 1, BOARD_BAD_CARDS);
    c = good, c.bases = 3, open_with("a base of no kind", c, 1, BOARD_BAD_CARDS);
    c = good, c.base[0].kind = 4, open_with("a base of kind 4", c, 1, BOARD_BAD_CARDS);
    c = good, c.base[0].bits = 3, open_with("8 bytes of memory", c, 1, BOARD_BAD_CARDS);
    c = good, c.base[0].bits = 25, open_with("32 MiB of memory", c, 1, BOARD_BAD_CARDS);
    c = good, c.base[0] = (board_base){BOARD_OUTSIDE, 28}, open_with("256 MiB outside", c, 1, BOARD_OK);
    c = good, c.base[0] = (board_base){BOARD_OUTSIDE, 3}, open_with("8 bytes outside", c, 1, BOARD_BAD_CARDS);
    c = good, c.base[0] = (board_base){BOARD_OUTSIDE, 29}, open_with("512 MiB outside", c, 1, BOARD_BAD_CARDS);
    c = good, c.base[1].bits = 1, open_with("two ports", c, 1, BOARD_BAD_CARDS);
    c = good, c.base[1].bits = 9, open_with("512 ports", c, 1, BOARD_BAD_CARDS);
    c = good, c.bases = 5;
    for (int k = 0; k < 5; k++) c.base[k] = (board_base){BOARD_MEMORY_BASE, 24};
    open_with("80 MiB of memory", c, 1, BOARD_BAD_CARDS);
    c.bases = 4, c.base[5].kind = 255, open_with("64 MiB, and a base that is not read", c, 1, BOARD_OK);
}

static void opening(board *b) {
    size_t bytes = 65536;
    const uint8_t *rom = rom_bytes;
    expect("no memory", board_open(b, 0, &no_card, 0, rom, bytes, rom, 0), BOARD_BAD_SIZE);
    expect("513 MiB", board_open(b, 513, &no_card, 0, rom, bytes, rom, 0), BOARD_BAD_SIZE);
    expect("a short ROM", board_open(b, 8, &no_card, 0, rom, bytes - 1, rom, 0), BOARD_BAD_ROM);
    expect("no ROM", board_open(b, 8, &no_card, 0, rom, 0, rom, 0), BOARD_BAD_ROM);
    expect("half a sector", board_open(b, 8, &no_card, 0, rom, bytes, rom, 256), BOARD_BAD_DISK);
    must("a refused open made a board", !b->open);
    expect("open", board_open(b, 8, &no_card, 0, rom, bytes, rom, 512), BOARD_OK);
    expect("open twice", board_open(b, 8, &no_card, 0, rom, bytes, rom, 0), BOARD_BAD_HANDLE);
}

/* ---- bytes in, and the serial port */

static void written(board *b, board *closed) {
    const uint8_t four[4] = {1, 2, 3, 4};
    uint8_t bytes[4] = {0}, byte = 0;
    board_reply r;
    expect("DRAM of a closed handle", board_dram_write(closed, 0, four, 4), BOARD_BAD_HANDLE);
    expect("a byte of a closed handle", board_cmos_write(closed, 0x20, 7), BOARD_BAD_HANDLE);
    expect("past the memory", board_dram_write(b, 0x7FFFFE, four, 4), BOARD_PAST_END);
    expect("past the last address", board_dram_write(b, 0xFFFFFFFE, four, 4), BOARD_PAST_END);
    expect("byte 128", board_cmos_write(b, 128, 7), BOARD_NO_BYTE);
    expect("DRAM", board_dram_read(b, 0x7FFFFC, bytes, 4), BOARD_OK);
    must("a refused write wrote", !bytes[0] && !bytes[1] && !bytes[2] && !bytes[3]);
    expect("the last bytes", board_dram_write(b, 0x7FFFFC, four, 4), BOARD_OK);
    expect("DRAM", board_dram_read(b, 0x7FFFFC, bytes, 4), BOARD_OK);
    must("the last bytes", !memcmp(bytes, four, 4));
    expect("a read", board_read(b, 0x7FFFFC, 4, false, &r), BOARD_OK);
    must("what a read finds", r.value == 0x04030201);
    expect("a byte of the clock", board_cmos_write(b, 0x20, 7), BOARD_OK);
    expect("a byte of the clock", board_cmos_read(b, 0x20, &byte), BOARD_OK);
    must("a byte of the clock", byte == 7);
}

static void serial(board *b, board *closed) {
    board_reply r;
    expect("a byte for a closed handle", board_receive(closed, 'a', &r), BOARD_BAD_HANDLE);
    expect("a byte sent", board_out(b, 0x3F8, 1, 'x', &r), BOARD_OK);
    must("a byte sent", r.has_sent == 1 && r.sent == 'x' && r.part[0].target == BOARD_IS_DEVICE && r.part[0].unit == BOARD_UART);
    expect("no byte sent", board_in(b, 0x3FD, 1, &r), BOARD_OK);
    must("no byte sent", !r.has_sent && !r.sent);
    for (int k = 0; k < 100; k++) {
        memset(&r, 0xA5, sizeof r);
        uint32_t status = board_receive(b, (uint8_t)k, &r);
        if (status == BOARD_OK) continue;
        expect("a byte too many", status, BOARD_SERIAL_FULL);
        must("a refused byte told a reply", is_untouched(&r, 0, sizeof r));
        must("no byte fitted", k > 0);
        break;
    }
    expect("the first byte", board_in(b, 0x3F8, 1, &r), BOARD_OK);
    must("the first byte", r.value == 0 && r.serial_room == 1);
    board_event event = {.what = BOARD_SERIAL, .value = 1};
    uint8_t line[BOARD_LONGEST_LINE];
    size_t bytes = 77;
    expect("a line of a byte received", board_text(&event, &r, 1, 0, 1, line, sizeof line, &bytes), BOARD_NO_EVENT);
    event = (board_event){.what = BOARD_PORT, .kind = BOARD_READ, .bytes = 1, .addr = 0x3F8};
    expect("a line of the serial port", board_text(&event, &r, 1, 0, 1, line, sizeof line, &bytes), BOARD_NO_REPLY);
    must("a refused text", bytes == 77);
}

int main(void) {
    uint8_t *rom = calloc(65536, 1);
    board b = {0};
    board closed = {0};
    board_reply before, reply;
    rom_bytes = rom;
    board_close(&b);
    expect("step of a closed handle", board_step(&b, &(board_event){.what = BOARD_ACK}, &reply), BOARD_BAD_HANDLE);
    opening(&b);
    cards();
    no_disk();
    versions();
    free(rom);
    expect("look", board_look(&b, BOARD_READ, 0, false, &before), BOARD_OK);
    for (size_t i = 0; i < sizeof events / sizeof *events; i++) {
        memset(&reply, 0xA5, sizeof reply);
        expect(events[i].name, board_step(&b, &events[i].event, &reply), events[i].status);
        must("a refused step told a reply", is_untouched(&reply, 0, sizeof reply));
    }
    expect("look", board_look(&b, BOARD_READ, 0, false, &reply), BOARD_OK);
    must("a refused call changed the board", !memcmp(&before, &reply, sizeof reply));
    expect("a leap day", board_time(&b, 2028, 2, 29, 12, 0, 0, &reply), BOARD_OK);
    expect("a wide read", board_read(&b, 0x1001, 4, false, &reply), BOARD_OK);
    must("a wide read", reply.parts == 3 && reply.form == BOARD_PARTS_REPLY);
    ranges(&b, &closed);
    asked(&b, &closed);
    text(&b);
    written(&b, &closed);
    serial(&b, &closed);
    inline_calls(&b, &closed);
    board_close(&b);
    board_close(&b);
    return failed;
}
