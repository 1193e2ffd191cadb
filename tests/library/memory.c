/* Memory, by counted allocations: what a board takes is given back by board_close, whatever was done with it; a board takes
 * nothing after it was opened but for the bytes that are stored; and BOARD_NO_MEMORY comes exactly where an allocation was
 * refused, after which nothing is held. Linked with --wrap of malloc, realloc and free. */
#include "board.h"
#include <stdio.h>
#include <stdlib.h>

void *__real_malloc(size_t size);
void *__real_realloc(void *at, size_t size);
void __real_free(void *at);

/* blocks that are held, bytes that were asked for, allocations so far, and the one that is refused, from 1 on */
static size_t held, asked, allocations, refused;

static int is_refused(size_t size) {
    asked += size;
    return ++allocations == refused;
}

void *__wrap_malloc(size_t size) {
    void *at = is_refused(size) ? NULL : __real_malloc(size);
    held += at != NULL;
    return at;
}

void *__wrap_realloc(void *at, size_t size) {
    if (is_refused(size)) return NULL;
    void *moved = __real_realloc(at, size);
    held += at == NULL && moved != NULL;
    return moved;
}

void __wrap_free(void *at) {
    held -= at != NULL;
    __real_free(at);
}

static int failed;

static void must(const char *what, int holds) {
    if (holds) return;
    printf("memory: %s\n", what);
    failed = 1;
}

/* the largest board: eight cards with all their bases and 64 MiB behind them, 512 KiB of ROM, 65,536 sectors */
enum { MIB = 512, CARDS = 8, ROM = 512 << 10, DISK = 65536 * 512 };

static board_card cards[CARDS];
static uint8_t *rom, *disk;

static void fit_cards(void) {
    for (int k = 0; k < CARDS; k++) {
        cards[k] = (board_card){.device = (uint8_t)(2 + k), .vga = k == 0, .rom = 24, .bases = 6, .base = {{BOARD_MEMORY_BASE, 23}}};
        for (int base = 1; base < 6; base++) cards[k].base[base] = (board_base){BOARD_IO_BASE, 8};
    }
}

static uint32_t open_largest(board *b) {
    return board_open(b, MIB, cards, CARDS, rom, ROM, disk, DISK);
}

/* bytes into the DRAM, a line of a log, and events of many kinds */
static void use(board *b) {
    const uint8_t bytes[3] = {1, 2, 3};
    board_event event = {.what = BOARD_MEMORY, .kind = BOARD_READ, .bytes = 4, .addr = 0x1000};
    board_reply r;
    uint8_t line[BOARD_LONGEST_LINE];
    size_t length;
    for (uint32_t addr = 0; addr < MIB << 20; addr += 64 << 20) must("bytes", !board_dram_write(b, addr + 5, bytes, 3));
    must("a step", !board_step(b, &event, &r) && !board_text(&event, &r, 1, 0, 1, line, sizeof line, &length));
    must("a port", !board_out(b, 0xCF8, 4, 0x80000058, &r) && !board_out(b, 0xCFF, 1, 0x20, &r));
    must("pulses", !board_pulse(b, 1000000, &r) && !board_receive(b, 'a', &r) && board_receive(b, 'b', &r));
}

/* Each open gives all back. */
static void balance(void) {
    board b = {0};
    size_t before = held;
    for (int k = 0; k < 3; k++) {
        must("the largest board", open_largest(&b) == BOARD_OK && held > before);
        use(&b);
        board_close(&b);
        must("a closed board holds memory", held == before);
        board_close(&b);
        must("a board was closed twice", held == before);
    }
    must("no board was refused", board_open(&b, MIB, cards, CARDS, rom, ROM - 1, disk, DISK) == BOARD_BAD_ROM);
    must("a refused open holds memory", held == before && !b.open);
}

/* Each allocation of an open is refused in turn. */
static void refusals(void) {
    size_t n = 0;
    uint32_t status;
    do {
        board b = {0};
        size_t before = held;
        allocations = 0, refused = ++n;
        status = open_largest(&b);
        must("a refusal, and another status", (status == BOARD_NO_MEMORY) == (allocations >= n) && b.open == (status == BOARD_OK));
        refused = 0;
        must("an open without memory holds some", status == BOARD_OK || held == before);
        board_close(&b);
    } while (status == BOARD_NO_MEMORY && !failed);
    must("an open that takes no memory", n > 1);
    printf("memory: %zu allocations of an open, each refused once\n", n - 1);
}

/* What an open of a small board takes, and what the calls after it take. */
static void counts(void) {
    board b = {0};
    board_reply r;
    asked = allocations = 0;
    must("a small board", !board_open(&b, 8, cards, 0, rom, 65536, disk, 0));
    printf("memory: a board without disk and cards takes %zu bytes over its ROM\n", asked - 65536);
    allocations = 0;
    for (uint32_t k = 0; k < 10000; k++) board_read(&b, k * 64, 4, false, &r), board_pulse(&b, 100, &r), board_ack(&b, &r);
    must("a read took memory", allocations == 0);
    board_close(&b);
}

/* Of the calls on an open board the text and the image alone take memory, and give it back. */
static void each_call(void) {
    static board_range ranges[BOARD_MOST_RANGES];
    static board_window windows[BOARD_MOST_WINDOWS];
    static uint8_t bytes[4096];
    board b = {0};
    board_reply r;
    board_map map;
    board_part part;
    board_transfer transfer;
    board_piece piece;
    board_event event = {.what = BOARD_MEMORY, .kind = BOARD_READ, .bytes = 4, .addr = 0x1000};
    uint32_t pulses;
    uint8_t byte, line[BOARD_LONGEST_LINE];
    size_t length;
    must("a board with a disk", !board_open(&b, 8, cards, CARDS, rom, ROM, disk, DISK));
    size_t before = held;
    allocations = 0;
    for (uint32_t k = 0; k < 64; k++) { /* the registers of the north bridge, a write and a read in parts, a sector */
        board_out(&b, 0xCF8, 4, 0x80000040 + k / 4 * 4, &r), board_out(&b, (uint16_t)(0xCFC + k % 4), 1, k * 37 & 0xFF, &r);
        board_write(&b, 0xBFFFD + k * 8, 8, k & 1, UINT64_MAX, &r), board_fetch(&b, 0xFFFFF + k, 4, false, &r);
        board_ranges(&b, &map, ranges, BOARD_MOST_RANGES, windows, BOARD_MOST_WINDOWS);
    }
    board_out(&b, 0xCF8, 4, 0x80000904, &r), board_out(&b, 0xCFC, 1, 1, &r);
    board_out(&b, 0xCF8, 4, 0x80000940, &r), board_out(&b, 0xCFC, 2, 0x8000, &r), board_out(&b, 0x1F6, 1, 0xE0, &r);
    for (uint16_t port = 0x1F2; port <= 0x1F5; port++) board_out(&b, port, 1, port == 0x1F2, &r); /* one sector, sector 0 */
    board_out(&b, 0x1F7, 1, 0x30, &r);
    for (int k = 0; k < 256; k++) board_out(&b, 0x1F0, 2, 0xA55A, &r);
    must("the disk took the sector", !board_disk_read(&b, 0, bytes, 512) && bytes[0] == 0x5A && bytes[511] == 0xA5);
    event.what = BOARD_BAD_SECTOR, board_step(&b, &event, &r), event.what = BOARD_MEMORY;
    board_look(&b, BOARD_WRITE, 0xF0000, false, &r), board_irq(&b, 3, true, &r), board_wire(&b, 2, true, &r);
    board_time(&b, 2026, 11, 29, 12, 0, 0, &r), board_receive(&b, 'a', &r), board_in(&b, 0x3F8, 1, &r);
    board_decode(&b, &event, &part), board_pulses_to_rise(&b, &pulses);
    board_dram_write(&b, 0, bytes, sizeof bytes), board_dram_read(&b, 0, bytes, sizeof bytes);
    board_cmos_write(&b, 0x30, 1), board_cmos_read(&b, 0x30, &byte);
    must("bytes of a card", !board_card_write(&b, 2, 0, 0, bytes, 16) && !board_card_read(&b, 2, 0, 0, bytes, 16));
    must("a bus master's place", !board_decode_master(&b, 0xA0000, 4, true, &part));
    must("a transfer", !board_transfer_begin(&transfer, 0x1000, 0, 1, 1, true) && !board_transfer_next(&b, &transfer, &piece) &&
         !board_transfer_region(&transfer, 0x2000, 0) && !board_transfer_next(&b, &transfer, &piece));
    board_out(&b, 0xCF9, 1, 2, &r), board_out(&b, 0xCF9, 1, 6, &r);
    must("a call took memory", allocations == 0);
    must("a hard reset", r.reset == BOARD_HARD_RESET && !board_read(&b, 0x1000, 4, false, &r));
    must("a text", !board_text(&event, &r, 1, 0, 1, line, sizeof line, &length));
    must("a text takes memory, and gives it back", allocations > 0 && held == before);
    board_close(&b);
}

/* Each allocation of a save and of a load is refused in turn. */
static void images(void) {
    board b = {0}, other = {0};
    board_reply r;
    size_t size = 0, told = 0, n = 0;
    uint8_t none;
    uint32_t status;
    must("a board to save", !board_open(&b, 8, cards, 2, rom, 65536, disk, 512 * 64) && !board_write(&b, 0x5000, 4, false, 1, &r));
    must("the size of its image", board_save(&b, &none, 0, &size) == BOARD_NO_ROOM);
    uint8_t *image = __real_malloc(size);
    size_t before = held;
    do {
        allocations = 0, refused = ++n;
        status = board_save(&b, image, size, &told);
        must("a refused save, and another status", (status == BOARD_NO_MEMORY) == (allocations >= n));
        must("a save holds memory", held == before);
    } while (status == BOARD_NO_MEMORY && !failed);
    must("a save", n > 1 && status == BOARD_OK && told == size);
    n = 0;
    do {
        allocations = 0, refused = ++n;
        status = board_load(&other, image, size);
        must("a refused load, and another status", (status == BOARD_NO_MEMORY) == (allocations >= n) && other.open == (status == BOARD_OK));
        must("a load without memory holds some", status == BOARD_OK || held == before);
    } while (status == BOARD_NO_MEMORY && !failed);
    refused = 0;
    must("a load", n > 1 && status == BOARD_OK);
    board_close(&other);
    image[size - 1] ^= 0xFF;
    must("an image that is changed", board_load(&other, image, size - 1) == BOARD_BAD_IMAGE && held == before);
    printf("memory: %zu allocations of a load, each refused once\n", n - 1);
    board_close(&b);
    __real_free(image);
}

int main(void) {
    rom = calloc(ROM, 1), disk = calloc(DISK, 1);
    fit_cards();
    balance();
    refusals();
    counts();
    each_call();
    images();
    return failed;
}
