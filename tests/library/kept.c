/* The bytes of a running board: a board that was brought there by events is saved as the bytes of kept.fields, field by
 * field, and these bytes are loaded as that board. All fields there that may be taken for one another differ, so that
 * a writer and a reader that agree on another order of fields are found. The fields stand in the order of docs/FORMATS.md,
 * "A running board", with values by hand from it and from the datasheets.
 *
 *   kept <kept.fields      exit status 1 where a field differs, which is told
 *
 * A line is a name, a colon and bytes in hexadecimal digits; `00*FD` are so many equal ones. `next` stands before the
 * fields that the next events of `later` change; they happen to the board that was loaded. */
#include "board.h"
#include <stdio.h>
#include <stdlib.h>
#include <string.h>

enum { MOST_FIELDS = 800, MOST_BYTES = 1 << 15, LINE = 512 };
enum { ROM = 0x10000, DISK = 1024, MIB = 1, FRAME = 28, BASE_BYTE = 19 };
enum { HOST = 0, ISA = 0x800, IDE = 0x900, CARD_3 = 0x1800, CARD_5 = 0x2800 };

typedef struct field {
    char name[64];
    size_t at, bytes;
} field;

static field fields[MOST_FIELDS];
static size_t field_count;
static uint8_t wanted[MOST_BYTES];
static size_t wanted_count;
static board b;
static board_reply reply;

static void fail(const char *what) {
    printf("kept: %s\n", what);
    exit(1);
}

static void must(const char *what, uint32_t status) {
    if (status != BOARD_OK) {
        printf("kept: %s: %s\n", what, board_status_text(status));
        exit(1);
    }
}

/* ---- the fields of the file */

static size_t put_bytes(uint8_t *at, const char *text) {
    size_t count = 0;
    char *end;
    while (*text && *text != '\n') {
        if (*text == ' ') {
            text++;
            continue;
        }
        char digits[3] = {text[0], text[1], 0};
        uint8_t byte = (uint8_t)strtoul(digits, NULL, 16);
        size_t times = text[2] == '*' ? strtoul(text + 3, &end, 16) : 1;
        text = text[2] == '*' ? end : text + 2;
        memset(at + count, byte, times);
        count += times;
    }
    return count;
}

static field *named(const char *name) {
    for (size_t k = 0; k < field_count; k++)
        if (strcmp(fields[k].name, name) == 0) return &fields[k];
    printf("kept: no field %s\n", name);
    exit(1);
}

static void add_field(char *line) {
    char *colon = strchr(line, ':');
    if (!colon || field_count == MOST_FIELDS) fail("a line is no field, or there are too many");
    *colon = 0;
    field *it = &fields[field_count++];
    if (strlen(line) >= sizeof it->name) fail("a name is too long");
    strcpy(it->name, line);
    it->at = wanted_count;
    it->bytes = put_bytes(wanted + wanted_count, colon + 1);
    wanted_count += it->bytes;
}

/* another value of a field, which may have more bytes than it had, or fewer */
static void change_field(char *line) {
    static uint8_t bytes[MOST_BYTES];
    char *colon = strchr(line, ':');
    if (!colon) fail("a line changes no field");
    *colon = 0;
    field *it = named(line);
    size_t old = it->bytes, rest = it->at + old;
    it->bytes = put_bytes(bytes, colon + 1);
    memmove(wanted + it->at + it->bytes, wanted + rest, wanted_count - rest);
    memcpy(wanted + it->at, bytes, it->bytes);
    wanted_count = wanted_count - old + it->bytes;
    for (field *later = it + 1; later < fields + field_count; later++) later->at = later->at - old + it->bytes;
}

/* ---- events */

static void out(uint16_t port, uint32_t value) { must("out", board_out(&b, port, 1, value, &reply)); }

static uint8_t in(uint16_t port) {
    must("in", board_in(&b, port, 1, &reply));
    return (uint8_t)reply.value;
}

static void set(uint32_t function, uint8_t off, uint8_t bytes, uint32_t value) {
    must("the address", board_out(&b, 0xCF8, 4, 0x80000000u | function | (off & 0xFC), &reply));
    must("the register", board_out(&b, (uint16_t)(0xCFC + off % 4), bytes, value, &reply));
}

static void happen(uint8_t what, uint32_t addr, uint64_t value) {
    board_event event = {.what = what, .addr = addr, .value = value};
    must("an event", board_step(&b, &event, &reply));
}

static void open_board(void) {
    static uint8_t rom[ROM], disk[DISK];
    board_card cards[2] = {
        {.device = 3, .rom = 11, .bases = 2, .base = {{BOARD_MEMORY_BASE, 4}, {BOARD_IO_BASE, 3}}, .vendor_id = 0x1AF4,
            .device_id = 0x1001, .revision_id = 0x5C, .class_code = 0x018002, .subsystem_vendor_id = 0x1BF5,
            .subsystem_id = 0x0203, .interrupt_pin = 4},
        {.device = 5, .vga = 1, .bases = 1, .base = {{BOARD_OUTSIDE, FRAME}}},
    };
    rom[0x1007] = 0xC7;
    memset(disk, 0xD0, 512);
    memset(disk + 512, 0xD1, 512);
    must("open", board_open(&b, MIB, cards, 2, rom, ROM, disk, DISK));
}

/* 24 writes of the map's registers, PAM1 last */
static void set_registers(void) {
    for (uint8_t row = 0; row < 8; row++) set(HOST, 0x60 + row, 1, row + 1u);
    set(HOST, 0x68, 1, 0x80);
    static const uint8_t pam[] = {0x10, 0, 0x12, 0x13, 0x21, 0x22, 0x23};
    for (uint8_t k = 0; k < 7; k++)
        if (k != 1) set(HOST, 0x59 + k, 1, pam[k]);
    set(HOST, 0x72, 1, 0x48);
    set(ISA, 0x4E, 1, 0xC5);
    set(CARD_3, 0x04, 1, 0x03);
    set(CARD_3, 0x10, 4, 0xE0000010);
    set(CARD_3, 0x14, 4, 0x00006108);
    set(CARD_3, 0x30, 4, 0xD0000801);
    set(CARD_5, 0x04, 1, 0x06);
    set(CARD_5, 0x10, 4, 0x70000000);
    set(HOST, 0x5A, 1, 0x11);
    set(CARD_3, 0x3C, 1, 0xA5);
    set(CARD_5, 0x3C, 1, 0x5A);
    set(IDE, 0x04, 1, 0x05);
    set(IDE, 0x40, 2, 0xA377);
    static const uint8_t route[] = {0x8B, 0x8A, 0x89, 0x85};
    for (uint8_t k = 0; k < 4; k++) set(ISA, 0x60 + k, 1, route[k]);
}

static void set_memory(void) {
    must("memory", board_write(&b, 0x2003, 1, false, 0xE1, &reply));
    must("the card's memory", board_write(&b, 0xE0000012, 1, false, 0xC1, &reply));
    out(0x610B, 0xC2);
}

static void set_timer(void) {
    out(0x61, 0x01);
    in(0x61);
    out(0x43, 0x36), out(0x40, 0x34), out(0x40, 0x12);  /* counter 0: mode 3, 1234h */
    out(0x43, 0x54), out(0x41, 0x12);                   /* counter 1: mode 2, the low byte alone, 0012h */
    happen(BOARD_PULSE, 0, 3);
    out(0x43, 0xB1), out(0x42, 0x56);                   /* counter 2: mode 0, decimal, and the first byte of a count */
    out(0x43, 0x00);                                    /* the count of counter 0 is latched */
    out(0x43, 0xE4);                                    /* and the status of counter 1 */
}

static void set_controllers(void) {
    out(0x4D0, 0x28), out(0x4D1, 0x44);
    out(0x20, 0x11), out(0x21, 0x08), out(0x21, 0x04), out(0x21, 0x11);
    out(0x21, 0x91);
    happen(BOARD_IRQ, 3, 1);
    happen(BOARD_IRQ, 6, 1);
    must("an acknowledge", board_ask(&b, BOARD_ACK, 0, 0, 0, false, 0, &reply));
    out(0x20, 0xC4);
    out(0x20, 0x6B);
    happen(BOARD_IRQ, 9, 1);
    out(0xA0, 0x11), out(0xA1, 0x70);
    happen(BOARD_IRQ, 12, 1);
    happen(BOARD_WIRE, 3, 1);
}

static void set_clock(void) {
    out(0x70, 0x0B), out(0x71, 0x06);
    out(0x70, 0x01), out(0x71, 0x2A), out(0x70, 0x03), out(0x71, 0x2B), out(0x70, 0x05), out(0x71, 0x16);
    out(0x70, 0x10), out(0x71, 0xA1), out(0x70, 0x7F), out(0x71, 0xA2);
    happen(BOARD_TIME, 0, 20261201134530);
    out(0x70, 0x25);
}

static void set_disk(void) {
    out(0x3F6, 0x02);
    static const uint8_t registers[] = {0xF1, 0x02, 0x03, 0x04, 0x05, 0xE6};
    for (uint16_t k = 0; k < 6; k++) out(0x1F1 + k, registers[k]);
    out(0x1F7, 0x20);
    happen(BOARD_BAD_SECTOR, 0, 0);
}

static void set_serial(void) {
    happen(BOARD_IRQ, 4, 1);
    out(0x3FB, 0x80), out(0x3F8, 0x21), out(0x3F9, 0x43), out(0x3FB, 0x1B);
    out(0x3F9, 0x02);
    out(0x3FF, 0x5D);
    out(0x3FC, 0x10), in(0x3FE), out(0x3FC, 0x12);
    out(0x3F8, 0x48), out(0x3F8, 0x69);
    in(0x3FA);
}

static void first(void) {
    open_board();
    set_registers();
    set_memory();
    set_timer();
    set_controllers();
    set_clock();
    set_disk();
    set_serial();
    out(0xCF9, 0x02);
    must("the configuration address", board_out(&b, 0xCF8, 4, 0x80A5C3D8, &reply));
}

/* The modes of the 8259As in turn, so that no two of their flags are the same each time, and each word that they await;
 * and a read of the disk under way. */
static void second(void) {
    out(0x20, 0x11), out(0x21, 0x10), out(0x21, 0x04), out(0x21, 0x03);
    out(0x20, 0x80), out(0x20, 0x0C);
    out(0xA1, 0x04);
    static const uint8_t registers[] = {0x01, 0x01, 0x00, 0x00, 0xE0};
    for (uint16_t k = 0; k < 5; k++) out(0x1F2 + k, registers[k]);
    out(0x1F7, 0x20);
    for (int word = 0; word < 2; word++) must("a word of the disk", board_in(&b, 0x1F0, 2, &reply));
}

static void third(void) {
    out(0x20, 0x11), out(0x21, 0x10), out(0x21, 0x04), out(0x21, 0x13);
    out(0x20, 0x68);
    out(0xA0, 0x10);
}

static void fourth(void) {
    out(0x20, 0x48), out(0x20, 0x80);
    out(0xA1, 0x28), out(0xA1, 0x02);
}

/* What a counter has in store, the alarm, a write of the disk under way, and of the modem's inputs DSR alone. */
static void fifth(void) {
    out(0x43, 0x58), out(0x41, 0x01);                   /* counter 1: mode 4, and both pulses of its count */
    happen(BOARD_PULSE, 0, 2);
    out(0x43, 0x38), out(0x40, 0x77), out(0x40, 0x66);  /* counter 0: mode 4, and a count that no pulse has loaded */
    out(0x61, 0x00);
    out(0x43, 0x9A), out(0x42, 0x05);                   /* counter 2: mode 5, and its gate rises */
    out(0x61, 0x01);
    happen(BOARD_TIME, 0, 20261201224342);
    static const uint8_t registers[] = {0x01, 0x01, 0x00, 0x00, 0xE0};
    for (uint16_t k = 0; k < 5; k++) out(0x1F2 + k, registers[k]);
    out(0x1F7, 0x30);
    must("a word of the disk", board_out(&b, 0x1F0, 2, 0xB2B1, &reply));
    must("a word of the disk", board_out(&b, 0x1F0, 2, 0xB4B3, &reply));
    in(0x3FE);
    out(0x3FC, 0x13);
}

/* RI falls, and THR is empty again */
static void sixth(void) {
    out(0x3FC, 0x17), in(0x3FE), out(0x3FC, 0x13);
    out(0x3F8, 0x6A);
}

/* DCD alone */
static void seventh(void) {
    in(0x3FE);
    out(0x3FC, 0x1B);
}

static void (*const later[])(void) = {second, third, fourth, fifth, sixth, seventh};

/* ---- read back */

static void is(const char *what, unsigned long told, unsigned long value) {
    if (told == value) return;
    printf("kept: %s: %lX, and not %lX\n", what, told, value);
    exit(1);
}

static uint32_t get(uint32_t function, uint8_t off, uint8_t bytes) {
    must("the address", board_out(&b, 0xCF8, 4, 0x80000000u | function | (off & 0xFC), &reply));
    must("the register", board_in(&b, (uint16_t)(0xCFC + off % 4), bytes, &reply));
    return (uint32_t)reply.value;
}

static void read_configuration(void) {
    must("the address", board_in(&b, 0xCF8, 4, &reply));
    is("CONFADD", reply.value, 0x80A5C3D8);
    for (uint8_t row = 0; row < 8; row++) is("DRB", get(HOST, 0x60 + row, 1), row + 1u);
    is("PAM0 to PAM2", get(HOST, 0x58, 4) >> 8, 0x121110);
    is("PAM3 to PAM6", get(HOST, 0x5C, 4), 0x23222113);
    is("FDHC", get(HOST, 0x68, 1), 0x80);
    is("SMRAM", get(HOST, 0x72, 1), 0x4A);
    is("XBCS", get(ISA, 0x4E, 1), 0xC5);
    is("PIRQRC", get(ISA, 0x60, 4), 0x85898A8B);
    is("IDETIM", get(IDE, 0x40, 2), 0xA377);
    is("the command of device 3", get(CARD_3, 0x04, 1), 0x03);
    is("its interrupt line", get(CARD_3, 0x3C, 1), 0xA5);
    is("its pin", get(CARD_3, 0x3D, 1), 4);
    is("its vendor and device", get(CARD_3, 0x00, 4), 0x10011AF4);
    is("its class and revision", get(CARD_3, 0x08, 4), 0x0180025C);
    is("its subsystem", get(CARD_3, 0x2C, 4), 0x02031BF5);
    is("its bases", get(CARD_3, 0x10, 4) ^ get(CARD_3, 0x14, 4), 0xE0000010 ^ 0x6109);
    is("its ROM", get(CARD_3, 0x30, 4), 0xD0000801);
    is("the base of device 5", get(CARD_5, 0x10, 4), 0x70000000);
}

static void read_ports(void) {
    is("OCW1", in(0x21), 0x91);
    is("the ISR", in(0x20), 0x08);
    is("4D0h", in(0x4D0), 0x28);
    is("4D1h", in(0x4D1), 0x44);
    is("the low byte of counter 0", in(0x40), 0x30);
    is("its high byte", in(0x40), 0x12);
    is("the status of counter 1", in(0x41), 0x94);
    is("port 61h", in(0x61), 0x11);
    static const uint8_t disk[] = {0x10, 0x02, 0x03, 0x04, 0x05, 0xE6};
    for (uint16_t k = 0; k < 6; k++) is("a register of the disk", in(0x1F1 + k), disk[k]);
    is("IER", in(0x3F9), 0x02);
    is("LCR", in(0x3FB), 0x1B);
    is("MCR", in(0x3FC), 0x12);
    is("SCR", in(0x3FF), 0x5D);
    is("LSR", in(0x3FD), 0x63);
    is("RBR", in(0x3F8), 0x48);
    out(0x3FB, 0x80);
    is("DLL", in(0x3F8), 0x21);
    is("DLM", in(0x3F9), 0x43);
}

static void read_memory(void) {
    static const uint8_t clock[] = {0x1E, 0x2A, 0x2D, 0x2B, 0x0D, 0x16, 0x03, 0x01, 0x0C, 0x1A, 0x26, 0x06, 0x10, 0x80};
    uint8_t byte = 0, sector[512];
    for (uint8_t k = 0; k < sizeof clock; k++) {
        must("a byte of the clock", board_cmos_read(&b, k, &byte));
        is("a byte of the clock", byte, clock[k]);
    }
    must("DRAM", board_dram_read(&b, 0x2003, &byte, 1));
    is("DRAM", byte, 0xE1);
    must("a card", board_card_read(&b, 3, 0, 2, &byte, 1));
    is("base 0 of device 3", byte, 0xC1);
    must("a card", board_card_read(&b, 3, 1, 3, &byte, 1));
    is("base 1 of device 3", byte, 0xC2);
    must("a sector", board_disk_read(&b, 1, sector, sizeof sector));
    is("sector 1", sector[511], 0xD1);
}

/* What the image says, as a guest and a monitor read it of the board that is loaded, which is another one then. */
static void read_back(void) {
    board kept = b;
    b = (board){0};
    must("load", board_load(&b, wanted, wanted_count));
    read_memory();
    read_configuration();
    read_ports();
    board_close(&b);
    b = kept;
}

/* ---- comparing */

static void compare(const char *which) {
    static uint8_t saved[MOST_BYTES], again[MOST_BYTES];
    size_t bytes = 0, other = 0;
    int differs = 0;
    must("save", board_save(&b, saved, sizeof saved, &bytes));
    for (size_t k = 0; k < field_count; k++) {
        field *it = &fields[k];
        if (it->at + it->bytes <= bytes && memcmp(saved + it->at, wanted + it->at, it->bytes) == 0) continue;
        printf("kept: %s: %s, at %zXh:", which, it->name, it->at);
        for (size_t j = 0; j < it->bytes && j < 16; j++) printf(" %02X", saved[it->at + j]);
        printf(", and not");
        for (size_t j = 0; j < it->bytes && j < 16; j++) printf(" %02X", wanted[it->at + j]);
        printf("\n");
        differs = 1;
    }
    if (bytes != wanted_count) printf("kept: %s: %zu bytes, and not %zu\n", which, bytes, wanted_count), differs = 1;
    if (differs) exit(1);
    board loaded = {0};
    must("load", board_load(&loaded, wanted, wanted_count));
    must("save again", board_save(&loaded, again, sizeof again, &other));
    if (other != bytes || memcmp(saved, again, bytes) != 0) fail("what was loaded is saved as other bytes");
    board_close(&b);
    b = loaded;
}

/* A base of which the board keeps no bytes is K and 40h, of memory alone. */
static void outside_bases(void) {
    static uint8_t rom[ROM], saved[MOST_BYTES];
    static const uint8_t sizes[] = {4, FRAME};
    for (size_t k = 0; k < sizeof sizes; k++) {
        board_card card = {.device = 3, .bases = 1, .base = {{BOARD_OUTSIDE, sizes[k]}}};
        board one = {0}, other = {0};
        size_t bytes = 0;
        must("open", board_open(&one, MIB, &card, 1, rom, ROM, rom, 0));
        must("save", board_save(&one, saved, sizeof saved, &bytes));
        is("a base that the monitor keeps", saved[BASE_BYTE], 0x40u + sizes[k]);
        must("load", board_load(&other, saved, bytes));
        board_close(&other);
        saved[BASE_BYTE] |= 0x80;
        is("ports that the monitor keeps", board_load(&other, saved, bytes), BOARD_BAD_IMAGE);
        board_close(&one);
    }
}

int main(void) {
    char line[LINE];
    size_t step = 0;
    outside_bases();
    first();
    while (fgets(line, sizeof line, stdin)) {
        if (line[0] == '#' || line[0] == '\n') continue;
        if (strcmp(line, "next\n") == 0) {
            compare(step ? "a later board" : "the first board");
            if (step == 0) read_back();
            if (step == sizeof later / sizeof *later) fail("there are more changes than events");
            later[step++]();
        } else if (step) {
            change_field(line);
        } else {
            add_field(line);
        }
    }
    compare("the last board");
    board_close(&b);
    printf("kept: as expected\n");
    return 0;
}
