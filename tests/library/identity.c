/* What cards say that they are: the bytes of a virtio block card (virtio 0.9.5: 1AF4:1001, subsystem 2) in the place of the
 * fixed ones, at each offset and width (PCI Local Bus 2.1, section 6.2); and random events on a board with identities beside
 * one without, whose replies differ in these bytes alone. */
#include "board.h"
#include <stdio.h>
#include <string.h>

enum { CARD = 3, PLAIN = 5, EVENTS = 200000, ADDRESS = 0xCF8, DATA = 0xCFC };

static int failed;

static void expect(const char *what, uint64_t at, uint64_t got, uint64_t wanted) {
    if (got == wanted) return;
    printf("identity: %s at %llXh: %llX, not %llX\n", what, (unsigned long long)at, (unsigned long long)got, (unsigned long long)wanted);
    failed = 1;
}

static uint8_t rom[65536];
static const board_card virtio = {
    .device = CARD, .bases = 1, .base = {{BOARD_IO_BASE, 6}}, .class_code = 0x018000, .vendor_id = 0x1AF4, .device_id = 0x1001,
    .subsystem_vendor_id = 0x1AF4, .subsystem_id = 2, .interrupt_pin = 1,
};
static const board_card plain = {.device = PLAIN, .vga = 1, .rom = 15};
static board_reply r;

static void open_with(board *b, board_card first) {
    board_card cards[] = {first, plain};
    expect("open", 0, board_open(b, 8, cards, 2, rom, sizeof rom, rom, 0), BOARD_OK);
}

static uint64_t config(board *b, uint32_t device, uint32_t at, uint8_t bytes) {
    expect("the address", at, board_out(b, ADDRESS, 4, 0x80000000u | device << 11 | (at & 0xFC), &r), BOARD_OK);
    expect("the read", at, board_in(b, (uint16_t)(DATA + at % 4), bytes, &r), BOARD_OK);
    expect("its target", at, r.part[0].target << 8 | r.part[0].unit, (uint64_t)BOARD_CONFIG << 8 | device);
    return r.value;
}

static void header(const char *what, board *b, uint32_t device, const uint8_t *bytes, size_t count) {
    for (uint32_t at = 0; at < count; at++)
        for (uint8_t width = 1; width <= 4; width *= 2) {
            uint64_t wanted = 0;
            if (at % width || at + width > count) continue;
            for (uint8_t k = 0; k < width; k++) wanted |= (uint64_t)bytes[at + k] << 8 * k;
            expect(what, at, config(b, device, at, width), wanted);
        }
}

static void headers(void) {
    static const uint8_t named[64] = {
        0xF4, 0x1A, 0x01, 0x10, 0, 0, 0x80, 0x02, 0, 0, 0x80, 0x01, [0x10] = 1, [0x2C] = 0xF4, 0x1A, 0x02, 0, [0x3D] = 1};
    static const uint8_t fixed[64] = {0x5A, 0xA5, PLAIN, 0x01, 0, 0, 0x80, 0x02, 0, 0, 0, 0x03, [0x3D] = 1};
    board b = {0};
    open_with(&b, virtio);
    header("a card that says what it is", &b, CARD, named, sizeof named);
    header("a card that does not", &b, PLAIN, fixed, sizeof fixed);
    board_out(&b, ADDRESS, 4, 0x80000000u | CARD << 11, &r);
    board_out(&b, DATA, 4, 0, &r);
    header("after a write", &b, CARD, named, sizeof named);
    uint32_t values[3];
    size_t done = 0;
    board_out(&b, ADDRESS, 4, 0x80000000u | CARD << 11, &r);
    expect("reads in turn", 0, board_in_many(&b, DATA + 2, 2, values, 3, &done, &r), BOARD_OK);
    expect("how many", 0, done, 3);
    for (size_t k = 0; k < done; k++) expect("one in turn", k, values[k], 0x1001);
    board_close(&b);
    board_card part = {.device = CARD, .revision_id = 0x5C, .interrupt_pin = 4};
    open_with(&b, part);
    expect("vendor and device beside a revision", 0, config(&b, CARD, 0, 4), 0x01000000u | CARD << 16 | 0xA55A);
    expect("a revision, and the class", 8, config(&b, CARD, 8, 4), 0xFF00005C);
    expect("a pin, and the line", 0x3C, config(&b, CARD, 0x3C, 2), 0x0400);
    board_close(&b);
    board_card pin = {.device = CARD, .interrupt_pin = 3};
    open_with(&b, pin);
    expect("a pin alone", 0x3C, config(&b, CARD, 0x3C, 2), 0x0300);
    expect("vendor and device beside a pin", 0, config(&b, CARD, 0, 4), 0x01000000u | CARD << 16 | 0xA55A);
    board_close(&b);
}

static void refused(void) {
    board_card wrong[] = {virtio, virtio, virtio};
    board b = {0};
    wrong[0].class_code = 0x1000000;
    wrong[1].interrupt_pin = 5;
    wrong[2].reserved = 1;
    for (size_t k = 0; k < 3; k++)
        expect("a number out of range", k, board_open(&b, 8, &wrong[k], 1, rom, sizeof rom, rom, 0), BOARD_BAD_CARDS);
}

/* ---- beside a board without identities */

static uint64_t state = 88172645463325252u;

static uint32_t next(uint32_t below) {
    state ^= state << 13, state ^= state >> 7, state ^= state << 17;
    return (uint32_t)(state >> 33) % below;
}

static board_event random_event(void) {
    static const uint8_t widths[] = {1, 2, 4};
    board_event e = {.what = BOARD_PORT, .kind = BOARD_READ, .bytes = widths[next(3)]};
    switch (next(8)) {
    case 0: return (board_event){.what = BOARD_MEMORY, .kind = (uint8_t)(1 + next(2)), .addr = next(0x900000), .bytes = 1};
    case 1: return (board_event){.what = BOARD_MEMORY, .kind = BOARD_WRITE, .addr = next(0x900000), .bytes = 1, .value = next(256)};
    case 2: e.addr = next(0x10000) & ~3u; return e;
    case 3: case 4:
        e.kind = BOARD_WRITE, e.addr = ADDRESS, e.bytes = 4;
        e.value = 0x80000000u | (2 + next(5)) << 11 | (next(64) << 2);
        return e;
    case 5: e.kind = BOARD_WRITE, e.value = next(1u << (8 * e.bytes - 1)); /* fall through */
    default: e.addr = DATA + next(4) / e.bytes * e.bytes; return e;
    }
}

/* The bytes of the identity over those that the other board read, where it read them of the card. */
static void beside(void) {
    board with = {0}, without = {0};
    board_card bare = {.device = CARD, .bases = 1, .base = {{BOARD_IO_BASE, 6}}};
    static const uint8_t is[256] = {[0] = 1, 1, 1, 1, [9] = 1, 1, 1, [0x2C] = 1, 1, 1, 1, [0x3D] = 1};
    static const uint8_t says[256] = {[0] = 0xF4, 0x1A, 0x01, 0x10, [9] = 0, 0x80, 0x01, [0x2C] = 0xF4, 0x1A, 0x02, 0, [0x3D] = 1};
    size_t seen = 0;
    open_with(&with, virtio);
    open_with(&without, bare);
    for (size_t k = 0; k < EVENTS; k++) {
        board_event e = random_event();
        board_reply one, other;
        memset(&one, 0, sizeof one), memset(&other, 0, sizeof other);
        uint32_t status = board_step(&with, &e, &one);
        expect("a status", k, status, board_step(&without, &e, &other));
        const board_part *p = &other.part[0];
        if (status == BOARD_OK && p->target == BOARD_CONFIG && p->unit == CARD && other.has_value) {
            seen++;
            for (uint32_t place = 0; place < e.bytes; place++) {
                if (!is[p->offset + place]) continue;
                other.value &= ~(0xFFull << 8 * place);
                other.value |= (uint64_t)says[p->offset + place] << 8 * place;
            }
        }
        expect("a reply", k, (uint64_t)memcmp(&one, &other, sizeof one), 0);
        if (failed) break;
    }
    expect("reads of the card", 0, seen > EVENTS / 100, 1);
    board_close(&with), board_close(&without);
}

int main(void) {
    headers();
    refused();
    beside();
    return failed;
}
