/* Accesses at ports that are not aligned: what each cycle reads, writes, sends and resets, by the datasheets of the
 * 8259A, 8254, PC16550D, 82371SB and 82441FX; each wrong argument; and random accesses beside the same cycles, which a
 * second board does one by one.
 *
 *     ports [COUNT]     so many random accesses, 20,000 where no number is given */
#include "board.h"
#include <stdio.h>
#include <stdlib.h>
#include <string.h>

enum { CONFADD = 0xCF8, CONFDATA = 0xCFC, RESET_CONTROL = 0xCF9, COM1 = 0x3F8, PAM0 = 0x80000058, ROM = 65536, DISK = 1024 };

static uint8_t rom[ROM], disk[DISK];
static board b, other, closed;
static board_reply r;
static int failed;

static void expect(const char *what, uint64_t got, uint64_t wanted) {
    if (got == wanted) return;
    printf("ports: %s: %llX, not %llX\n", what, (unsigned long long)got, (unsigned long long)wanted);
    failed = 1;
}

static void open_new(board *of) {
    static const board_card card = {.device = 5, .bases = 1, .base = {{BOARD_IO_BASE, 4}}};
    board_close(of);
    expect("open", board_open(of, 1, &card, 1, rom, ROM, disk, DISK), BOARD_OK);
}

static uint64_t in(uint16_t port, uint8_t bytes) {
    expect("in", board_in(&b, port, bytes, &r), BOARD_OK);
    return r.value;
}

static void out(uint16_t port, uint8_t bytes, uint32_t value) { expect("out", board_out(&b, port, bytes, value, &r), BOARD_OK); }

/* What answered cycle k: the target, and of a device or register which. */
static void part(const char *what, int k, uint8_t target, uint8_t unit, uint32_t offset) {
    const board_part *is = &r.part[k];
    expect(what, is->target << 24 | is->unit << 16 | is->offset, (uint32_t)target << 24 | (uint32_t)unit << 16 | offset);
}

/* ---- the chips */

/* 8259A: OCW1 at 21h is the mask, and no chip has 22h. */
static void masks(void) {
    open_new(&b);
    out(0x20, 1, 0x11), out(0x21, 1, 0x08), out(0x21, 1, 0x04), out(0x21, 1, 0x01);
    out(0x21, 2, 0x115A);
    expect("a mask's form", r.form << 8 | r.parts, BOARD_PARTS_REPLY << 8 | 2);
    expect("nothing was read", r.has_value, 0);
    part("the master", 0, BOARD_IS_DEVICE, BOARD_PIC0, 0), part("nobody", 1, BOARD_ABORT, 0, 0);
    expect("who denied nobody", r.part[0].denial << 8 | r.part[1].denial, BOARD_BY_NO_REGISTER);
    expect("the mask", in(0x21, 1), 0x5A);
    expect("one cycle", r.form << 8 | r.parts, BOARD_BUS_REPLY << 8 | 1);
    expect("the mask and nobody", in(0x21, 2), 0xFF5A);
    expect("nobody and the master", in(0x1E, 4) >> 16, 0xFFFF); /* 1Eh, and 20h of two bytes, which no 8259A answers */
    expect("two words", r.parts, 2);
}

/* 8254: counters 1 and 2 at 41h and 42h, low bytes; each takes its byte with the next pulse. */
static void counters(void) {
    open_new(&b);
    out(0x43, 1, 0x54), out(0x43, 1, 0x94); /* counters 1 and 2: low byte alone, mode 2 */
    out(0x61, 1, 1);                        /* the gate of counter 2 */
    out(0x41, 2, 0x2010);
    part("counter 1", 0, BOARD_IS_DEVICE, BOARD_PIT, 0), part("counter 2", 1, BOARD_IS_DEVICE, BOARD_PIT, 0);
    expect("a pulse", board_pulse(&b, 1, &r), BOARD_OK);
    expect("both counters", in(0x41, 2), 0x2010);
}

/* 82441FX: PAM0 and PAM1 at 59h and 5Ah of 00.0, by CFDh and CFEh. Each write may change the map. */
static void windows(void) {
    open_new(&b);
    out(CONFADD, 4, PAM0);
    out(CONFDATA + 1, 2, 0x3130);
    expect("two changes of the map", r.version, 2);
    part("PAM0", 0, BOARD_CONFIG, 0, 0x59), part("PAM1", 1, BOARD_CONFIG, 0, 0x5A);
    expect("PAM0 and PAM1", in(CONFDATA, 4) >> 8 & 0xFFFF, 0x3130);
    expect("59h to 5Bh, and nobody", in(CONFDATA + 1, 4), 0xFF003130);
    expect("three cycles", r.parts, 3);
    part("59h", 0, BOARD_CONFIG, 0, 0x59), part("5Ah", 1, BOARD_CONFIG, 0, 0x5A), part("D00h", 2, BOARD_ABORT, 0, 0);
    expect("a part more", r.part[3].target, BOARD_NOTHING);
}

/* 82371SB: a rise of bit 2 of CF9h resets, by bit 1 the board; CFAh after it resets nothing. */
static void resets(void) {
    open_new(&b);
    out(RESET_CONTROL, 2, 0xAA04);
    expect("a soft reset", r.reset, BOARD_SOFT_RESET);
    out(RESET_CONTROL, 1, 2);
    out(RESET_CONTROL, 2, 6);
    expect("a hard reset", r.reset, BOARD_HARD_RESET);
    part("CF9h", 0, BOARD_IS_DEVICE, BOARD_RESET_CONTROL, 0), part("CFAh", 1, BOARD_ABORT, 0, 0);
    out(RESET_CONTROL - 2, 4, 0); /* CF7h, CF8h of two bytes, CFAh: not CF9h */
    expect("three cycles, no reset", r.parts << 8 | r.reset, 3 << 8);
}

/* PC16550D: a byte to THR at 3F8h is sent, by the last cycle of an access that begins below. */
static void sent(void) {
    open_new(&b);
    out(COM1 - 1, 2, 'a' << 8);
    expect("the byte", r.has_sent << 8 | r.sent, 1 << 8 | 'a');
    part("3F7h", 0, BOARD_ABORT, 0, 0), part("THR", 1, BOARD_IS_DEVICE, BOARD_UART, 0);
    out(COM1 - 3, 4, (uint32_t)'b' << 24);
    expect("the byte of the third cycle", r.parts << 16 | r.has_sent << 8 | r.sent, 3 << 16 | 1 << 8 | 'b');
    out(COM1 + 7, 2, 0x5A);
    expect("the scratch register", in(COM1 + 7, 1), 0x5A);
    expect("no byte was sent", r.has_sent, 0);
    expect("receive", board_receive(&b, 'c', &r), BOARD_OK);
    expect("nobody and RBR", in(COM1 - 1, 2), 0xFF | 'c' << 8);
    expect("LSR: nothing more was received", in(COM1 + 5, 1) & 1, 0);
}

/* ---- wrong arguments: each its status, and nothing changed */

static size_t saved(board *of, uint8_t **image) {
    size_t bytes = 0;
    expect("the size", board_save(of, (uint8_t *)"", 0, &bytes), BOARD_NO_ROOM);
    *image = malloc(bytes);
    if (!*image) exit(2);
    expect("save", board_save(of, *image, bytes, &bytes), BOARD_OK);
    return bytes;
}

static bool are_same(void) {
    uint8_t *one, *two;
    size_t bytes = saved(&b, &one), others = saved(&other, &two);
    bool same = bytes == others && !memcmp(one, two, bytes);
    free(one), free(two);
    return same;
}

static void refused(void) {
    static const struct { uint16_t port; uint8_t bytes; uint32_t value, in, out; } rows[] = {
        {0x21, 0, 0, BOARD_NO_EVENT, BOARD_NO_EVENT},          {0x21, 3, 0, BOARD_NO_EVENT, BOARD_NO_EVENT},
        {0x21, 5, 0, BOARD_NO_EVENT, BOARD_NO_EVENT},          {0x21, 8, 0, BOARD_NO_EVENT, BOARD_NO_EVENT},
        {0x21, 255, 0, BOARD_NO_EVENT, BOARD_NO_EVENT},        {0xFFFF, 2, 0, BOARD_NO_EVENT, BOARD_NO_EVENT},
        {0xFFFD, 4, 0, BOARD_NO_EVENT, BOARD_NO_EVENT},        {0xFFFE, 4, 0, BOARD_NO_EVENT, BOARD_NO_EVENT},
        {0xFFFF, 2, 0x10000, BOARD_NO_EVENT, BOARD_NO_EVENT},  {0x21, 3, 0x1000000, BOARD_NO_EVENT, BOARD_NO_EVENT},
        {0xFFFF, 1, 0xFF, BOARD_OK, BOARD_OK},                 {0xFFFE, 2, 0xFFFF, BOARD_OK, BOARD_OK},
        {0xFFFD, 2, 0xFFFF, BOARD_OK, BOARD_OK},               {0xFFFC, 4, 0xFFFFFFFF, BOARD_OK, BOARD_OK},
        {0x21, 1, 0x100, BOARD_OK, BOARD_VALUE},               {0x21, 2, 0x10000, BOARD_OK, BOARD_VALUE},
        {0x21, 2, 0xFFFFFFFF, BOARD_OK, BOARD_VALUE},
    };
    open_new(&b), open_new(&other);
    for (size_t k = 0; k < sizeof rows / sizeof *rows; k++) {
        board_reply marked, before;
        memset(&marked, 0xA5, sizeof marked);
        before = marked;
        expect("in of a closed handle", board_in(&closed, rows[k].port, rows[k].bytes, &marked), BOARD_BAD_HANDLE);
        expect("out of a closed handle", board_out(&closed, rows[k].port, rows[k].bytes, rows[k].value, &marked), BOARD_BAD_HANDLE);
        if (rows[k].in) expect("in", board_in(&b, rows[k].port, rows[k].bytes, &marked), rows[k].in);
        else expect("in", board_in(&b, rows[k].port, rows[k].bytes, &r), BOARD_OK);
        if (rows[k].out) expect("out", board_out(&b, rows[k].port, rows[k].bytes, rows[k].value, &marked), rows[k].out);
        expect("a refused access told something", memcmp(&marked, &before, sizeof marked) != 0, 0);
        expect("the board is the same", are_same(), 1);
        if (!rows[k].out) expect("out", board_out(&b, rows[k].port, rows[k].bytes, rows[k].value, &r), BOARD_OK);
    }
    expect("a closed handle was opened", closed.open, 0);
}

/* ---- random accesses, beside their cycles one by one */

static uint32_t seed = 1;

static uint32_t random_number(void) {
    seed ^= seed << 13, seed ^= seed >> 17, seed ^= seed << 5;
    return seed;
}

/* Mostly about ports that something has. */
static uint16_t random_port(void) {
    static const uint16_t near[] = {0x20, 0x40, 0x61, 0x70, 0xA0, 0x1F0, 0x1F4, 0x3F4, 0x3F8, 0x3FC, 0x4D0, 0xCF8, 0xCFC, 0x6000, 0xFFFC};
    uint32_t at = random_number();
    return (uint16_t)(at % 8 ? near[at / 8 % (sizeof near / sizeof *near)] + random_number() % 8 - 3 : random_number());
}

/* The cycles of an access on the other board: the reply that they make. */
static board_reply one_by_one(uint8_t kind, uint16_t port, uint8_t bytes, uint32_t value) {
    board_reply whole = {0}, reply;
    uint8_t cycle, cycles = 0;
    for (uint8_t done = 0; done < bytes; done = (uint8_t)(done + cycle), cycles++) {
        cycle = board_cycle((uint32_t)port + done, (uint64_t)(bytes - done));
        uint64_t of = kind == BOARD_WRITE ? (uint64_t)value >> 8 * done & ((1ull << 8 * cycle) - 1) : 0;
        expect("a cycle", board_ask(&other, BOARD_PORT, kind, (uint32_t)port + done, cycle, 0, of, &reply), BOARD_OK);
        board_reply joined = reply;
        joined.value = whole.value | reply.value << 8 * done;
        if (whole.reset > reply.reset) joined.reset = whole.reset;
        if (whole.has_sent) joined.has_sent = 1, joined.sent = whole.sent;
        joined.rose |= whole.rose;
        if (cycles > 0) {
            memcpy(joined.part, whole.part, sizeof joined.part);
            joined.part[cycles] = reply.part[0];
            joined.form = BOARD_PARTS_REPLY, joined.parts = (uint8_t)(cycles + 1);
        }
        whole = joined;
    }
    return whole;
}

static void random_accesses(unsigned long times) {
    static const uint8_t sizes[] = {1, 2, 4};
    open_new(&b), open_new(&other);
    for (unsigned long k = 0; k < times && !failed; k++) {
        uint16_t port = random_port();
        uint8_t bytes = sizes[random_number() % 3], kind = random_number() % 2 ? BOARD_READ : BOARD_WRITE;
        uint32_t value = random_number() >> (32 - 8 * bytes);
        if ((uint32_t)port + bytes > 0x10000) continue;
        uint32_t status = kind == BOARD_READ ? board_in(&b, port, bytes, &r) : board_out(&b, port, bytes, value, &r);
        board_reply wanted = one_by_one(kind, port, bytes, value);
        expect("status", status, BOARD_OK);
        expect("the reply", memcmp(&r, &wanted, sizeof r) != 0, 0);
        if (k % 1000 == 0) expect("the boards", are_same(), 1);
        if (failed) printf("ports: access %lu: %u bytes at %04X, kind %u, value %X\n", k, bytes, port, kind, value);
    }
    expect("the boards in the end", are_same(), 1);
}

int main(int count, char **words) {
    for (size_t k = 0; k < sizeof disk; k++) disk[k] = (uint8_t)(k * 7);
    masks(), counters(), windows(), resets(), sent(), refused();
    random_accesses(count > 1 ? strtoul(words[1], NULL, 10) : 20000);
    board_close(&b), board_close(&other);
    return failed;
}
