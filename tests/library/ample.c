/* That calls find memory for boards of sizes between the smallest and the largest: no contract can say that memory was
 * wanted where a call gives BOARD_NO_MEMORY. What each board holds afterwards follows from what it was given. */
#include "board.h"
#include <stdio.h>
#include <stdlib.h>
#include <string.h>

enum { MIB = 1 << 20, SECTOR = 512, CARDS = 8, FIRST = 2, EXPANSION_ROM = 6, ADDRESS = 0xCF8, DATA = 0xCFC,
       VENDOR = 0x1AF4 };

static int failed;

static void expect(const char *what, uint64_t of, uint64_t got, uint64_t wanted) {
    if (got == wanted) return;
    printf("ample: %s of %llu: %llu, not %llu\n", what, (unsigned long long)of, (unsigned long long)got,
           (unsigned long long)wanted);
    failed = 1;
}

static uint8_t *room_for(size_t bytes) {
    uint8_t *room = malloc(bytes);
    if (!room) exit(2);
    return room;
}

/* no byte is 0, so that no page is left out of an image */
static void fill(uint8_t *bytes, size_t count, uint32_t seed) {
    for (size_t k = 0; k < count; k++) bytes[k] = (uint8_t)(1 + (k / 4096 + k + seed) % 255);
}

static const uint8_t rom[65536];

static void open_with(board *b, uint32_t mib, const board_card *cards, size_t count, const uint8_t *disk,
                      size_t bytes) {
    expect("open", mib, board_open(b, mib, cards, count, rom, sizeof rom, disk, bytes), BOARD_OK);
}

/* ---- boards that are saved and loaded, of so many MiB */

static void same_dram(board *b, uint32_t mib, const uint8_t *dram) {
    uint8_t *found = room_for((size_t)mib * MIB);
    expect("reading DRAM", mib, board_dram_read(b, 0, found, (size_t)mib * MIB), BOARD_OK);
    expect("bytes of DRAM", mib, memcmp(found, dram, (size_t)mib * MIB) == 0, true);
    free(found);
}

/* saved as so many bytes; the caller frees them */
static uint8_t *saved(board *b, bool dram, bool disk, size_t *bytes, uint64_t of) {
    expect("the size", of, board_save_without(b, dram, disk, NULL, 0, bytes), BOARD_NO_ROOM);
    uint8_t *image = room_for(*bytes);
    expect("save", of, board_save_without(b, dram, disk, image, *bytes, bytes), BOARD_OK);
    return image;
}

static void kept(uint32_t mib, size_t sectors) {
    size_t dram_bytes = (size_t)mib * MIB, disk_bytes = sectors * SECTOR, bytes = 0;
    uint8_t *dram = room_for(dram_bytes), *disk = room_for(disk_bytes + 1);
    board b = {0}, other = {0};
    fill(dram, dram_bytes, mib);
    fill(disk, disk_bytes, 7);
    open_with(&b, mib, NULL, 0, disk, disk_bytes);
    expect("writing DRAM", mib, board_dram_write(&b, 0, dram, dram_bytes), BOARD_OK);
    uint8_t *image = saved(&b, false, false, &bytes, mib);
    expect("a whole image has the DRAM", mib, bytes > dram_bytes + disk_bytes, true);
    expect("load", mib, board_load(&other, image, bytes), BOARD_OK);
    same_dram(&other, mib, dram);
    board_close(&other);
    free(image);
    image = saved(&b, true, true, &bytes, mib);
    expect("an image without DRAM and disk is small", mib, bytes < dram_bytes, true);
    expect("load with what was left out", mib,
           board_load_with(&other, image, bytes, dram, dram_bytes, disk, disk_bytes, disk, disk_bytes), BOARD_OK);
    same_dram(&other, mib, dram);
    board_close(&other);
    board_close(&b);
    free(image), free(disk), free(dram);
}

/* ---- cards that say what they are */

static uint64_t identity_of(board *b, uint8_t device) {
    board_reply r;
    expect("the address", device, board_out(b, ADDRESS, 4, 0x80000000u | (uint32_t)device << 11, &r), BOARD_OK);
    expect("the identity", device, board_in(b, DATA, 4, &r), BOARD_OK);
    return r.value;
}

static void identities(size_t count) {
    board_card cards[CARDS] = {{0}};
    board b = {0}, other = {0};
    size_t bytes = 0;
    for (uint8_t k = 0; k < count; k++)
        cards[k] = (board_card){.device = (uint8_t)(FIRST + k), .vendor_id = VENDOR, .device_id = (uint16_t)(0x1000 + k)};
    open_with(&b, 8, cards, count, rom, 0);
    uint8_t *image = saved(&b, false, false, &bytes, count);
    expect("load of cards", count, board_load(&other, image, bytes), BOARD_OK);
    for (uint8_t k = 0; k < count; k++)
        expect("a card's identity", k, identity_of(&other, FIRST + k), (0x1000u + k) << 16 | VENDOR);
    board_close(&other);
    board_close(&b);
    free(image);
}

/* ---- expansion ROMs that are given bytes */

/* The bytes of a ROM of 2^bits bytes: from `from` on those given, and else the offset plus the device, modulo 256. */
static void given(board *b, uint8_t device, uint8_t bits, uint32_t from, size_t count) {
    size_t size = (size_t)1 << bits;
    uint8_t *wanted = room_for(size), *found = room_for(size);
    for (size_t k = 0; k < size; k++) wanted[k] = (uint8_t)(k + device);
    fill(wanted + from, count, bits);
    expect("writing a ROM", device, board_card_write(b, device, EXPANSION_ROM, from, wanted + from, count), BOARD_OK);
    expect("reading a ROM", device, board_card_read(b, device, EXPANSION_ROM, 0, found, size), BOARD_OK);
    for (size_t k = 0; k < size; k++)
        if (found[k] != wanted[k]) {
            expect("a byte of a ROM", k, found[k], wanted[k]);
            break;
        }
    free(found), free(wanted);
}

static void roms(void) {
    static const board_card two[] = {{.device = 2, .rom = 17}, {.device = 9, .rom = 18}};
    static const board_card large[] = {{.device = 5, .rom = 21}, {.device = 6, .rom = 24}};
    board b = {0};
    open_with(&b, 8, two, 2, rom, 0);
    given(&b, 2, 17, 0, 1 << 17);
    given(&b, 9, 18, 0, 1 << 18);
    board_close(&b);
    open_with(&b, 8, large, 2, rom, 0);
    given(&b, 5, 21, 0x1234, 0x100);
    given(&b, 6, 24, (1 << 24) - 1, 1);
    board_close(&b);
}

int main(void) {
    static const struct { uint32_t mib; size_t sectors; } sizes[] = {
        {1, 1}, {2, 0}, {8, 64}, {9, 0}, {16, 0}, {17, 8}, {48, 0}, {64, 65536}, {200, 0}};
    for (size_t k = 0; k < sizeof sizes / sizeof *sizes; k++) kept(sizes[k].mib, sizes[k].sectors);
    for (size_t count = 1; count <= CARDS; count++) identities(count);
    roms();
    return failed;
}
