/* Boards that are saved and loaded: each goes on as the one that was not saved, and no bytes do harm.
 *
 *   save [LISTS [IMAGES]]     100 lists of random events and 100,000 changed images, unless other numbers are given
 *
 * Of each list one board is never saved, one is saved at ten random places and goes on, and each of the ten is loaded and
 * goes on: all replies are the same, byte for byte. A changed image is refused, or gives a board that is saved as these very
 * bytes and then does 1,000 random events. At each place the board is also saved without its memory, its disk or both, and
 * loaded with them, and goes on alike. Images end where a page begins that cannot be read. */
#define _DEFAULT_SOURCE
#include "board.h"
#include <stdio.h>
#include <stdlib.h>
#include <string.h>
#include <sys/mman.h>
#include <unistd.h>

enum { EVENTS = 2000, PLACES = 10, STEPS = 1000, SECTOR = 512, SECTORS = 24, MOST_CARDS = 4, ROM = 0x10000, LONGEST_CHANGE = 64 };
enum { MOST_IMAGE = 1 << 22 };

static uint64_t state;

/* a number below another */
static uint32_t next(uint32_t below) {
    state = state * 6364136223846793005u + 1442695040888963407u;
    return (uint32_t)(((state >> 32) * below) >> 32);
}

#define ONE_OF(list) ((list)[next(sizeof(list) / sizeof *(list))])

static void fail(const char *what, unsigned long which, uint32_t status) {
    printf("save: %lu: %s: status %u\n", which, what, status);
    exit(1);
}

/* ---- random events: of every kind, and some that are refused */

static uint64_t value_of(uint32_t bytes) {
    uint64_t value = (uint64_t)next(0xFFFFFFFF) << 32 | next(0xFFFFFFFF);
    return bytes == 8 ? value : value & ((1ull << 8 * bytes) - 1);
}

static board_event port(uint16_t at, uint8_t bytes, bool writes, uint32_t value) {
    if (bytes < 4) value &= (1u << 8 * bytes) - 1;
    return (board_event){.what = BOARD_PORT, .kind = writes ? BOARD_WRITE : BOARD_READ, .bytes = bytes, .addr = at, .value = writes ? value : 0};
}

static board_event memory(void) {
    static const uint32_t places[] = {0, 0x1000, 0x9FFF8, 0xA0000, 0xC0000, 0xC8000, 0xE0000, 0xF0000, 0xFFFF0, 0x100000, 0xF00000,
        0xE0000000, 0xE8000000, 0xFFFEFFF8, 0xFFFFFFE0};
    static const uint8_t sizes[] = {1, 1, 2, 4, 4, 8};
    uint8_t bytes = ONE_OF(sizes), kind = (uint8_t)(1 + next(3));
    uint32_t addr = next(6) ? ONE_OF(places) + next(24) : next(1 << 20);
    return (board_event){.what = next(8) ? BOARD_MEMORY : BOARD_LOOK, .kind = kind, .bytes = bytes, .smm = next(8) == 0, .addr = addr,
        .value = kind == BOARD_WRITE ? value_of(bytes) : 0};
}

/* a register of configuration space, of the bridges, the disk's function and cards */
static uint32_t address_of_register(void) {
    static const uint32_t regs[] = {0x58, 0x5C, 0x60, 0x64, 0x68, 0x70, 0x84C, 0x860, 0x904, 0x940, 0x1004, 0x1010, 0x1014, 0x1030, 0x1810, 0x1804};
    return 0x80000000u | (next(8) ? ONE_OF(regs) : next(0x5000) & ~3u);
}

static board_event any_port(void) {
    static const uint16_t ports[] = {0x20, 0x21, 0xA0, 0xA1, 0x40, 0x41, 0x42, 0x43, 0x61, 0x70, 0x71, 0x1F0, 0x1F0, 0x1F1, 0x1F2, 0x1F3,
        0x1F4, 0x1F5, 0x1F6, 0x1F7, 0x3F6, 0x4D0, 0x4D1, 0xCFC, 0xCFD, 0xCFE, 0x3F8, 0x3F9, 0x3FA, 0x3FB, 0x3FC, 0x3FD, 0x3FE, 0x3FF};
    static const uint8_t commands[] = {0x20, 0x30, 0x40, 0x91, 0xEC, 0xEF, 0x11, 0x34, 0xB6};
    switch (next(8)) {
    case 0: case 1: return port(0xCF8, 4, true, address_of_register());
    case 2: return port(0xCFC, 4, next(4) != 0, (uint32_t)value_of(4));
    case 3: return port(0x1F0, next(40) ? 2 : 4, next(2), (uint32_t)value_of(4));
    case 4: return port(0x1F7, 1, true, ONE_OF(commands));
    case 5: return next(20) ? port(0x1F3, 1, true, next(SECTORS + 1)) : port(0xCF9, 1, true, next(8));
    default: return port(ONE_OF(ports), next(8) ? 1 : 2, next(2), next(2) ? ONE_OF(commands) : next(0x10000));
    }
}

static board_event outside(void) {
    switch (next(8)) {
    case 0: return (board_event){.what = BOARD_ACK};
    case 1: case 2: return (board_event){.what = BOARD_PULSE, .value = 1 + next(next(20) ? 300 : 60000)};
    case 3: return (board_event){.what = BOARD_TIME, .value = 20261128143000 + next(60)};
    case 4: return (board_event){.what = BOARD_WIRE, .addr = 2 + next(8), .value = next(2)};
    case 5: return (board_event){.what = BOARD_IRQ, .addr = next(16), .value = next(2)};
    case 6: return (board_event){.what = BOARD_BAD_SECTOR, .addr = next(SECTORS + 2)};
    default: return (board_event){.what = BOARD_SERIAL, .value = next(257)};
    }
}

static board_event any(void) {
    switch (next(4)) {
    case 0: return memory();
    case 1: return outside();
    default: return any_port();
    }
}

/* ---- boards and their images */

static board_event list[EVENTS];
static board_reply said[EVENTS];
static uint32_t status_of[EVENTS];

static uint8_t disk[SECTORS * SECTOR]; /* as it was fitted */

static void open_board(board *b) {
    static uint8_t rom[ROM];
    static board_card cards[MOST_CARDS + 1];
    size_t count = 0;
    memset(cards, 0, sizeof cards);
    uint8_t *half = rom + next(2) * (ROM / 2);
    for (size_t k = 0; k < 4096; k++) half[k] = (uint8_t)next(256);
    for (size_t k = 0; k < 4 * SECTOR; k++) disk[k] = (uint8_t)next(256);
    for (uint8_t device = 2; device <= 9 && count < MOST_CARDS; device++) {
        if (next(2)) continue;
        board_card *c = &cards[count++];
        *c = (board_card){.device = device, .vga = next(3) == 0, .bases = (uint8_t)next(4), .rom = next(2) ? 0 : 11};
        if (next(2)) c->vendor_id = 0x1AF4, c->device_id = (uint16_t)next(0x10000), c->class_code = next(0x1000000), c->interrupt_pin = (uint8_t)next(5);
        static const board_base kinds[] = {{BOARD_IO_BASE, 6}, {BOARD_MEMORY_BASE, 13}, {BOARD_OUTSIDE, 13}};
        for (uint8_t k = 0; k < c->bases; k++) c->base[k] = kinds[next(3)];
    }
    uint32_t status = board_open(b, 1 + next(2), cards, count, rom, ROM, disk, next(8) ? sizeof disk : 0);
    if (status) fail("open", 0, status);
}

typedef struct image { uint8_t *at; size_t bytes; } image;

/* room that ends where a page begins that cannot be read */
static uint8_t *fenced(size_t bytes) {
    static uint8_t *room;
    size_t page = (size_t)sysconf(_SC_PAGESIZE);
    if (!room) {
        room = mmap(NULL, MOST_IMAGE + page, PROT_READ | PROT_WRITE, MAP_PRIVATE | MAP_ANONYMOUS, -1, 0);
        if (room == MAP_FAILED || mprotect(room + MOST_IMAGE, page, PROT_NONE)) { perror("save"); exit(2); }
    }
    if (bytes > MOST_IMAGE) fail("an image is too large", bytes, 0);
    return room + MOST_IMAGE - bytes;
}

static image saved(board *b, unsigned long which) {
    image it = {NULL, 0};
    uint8_t none = 0xA5;
    uint32_t status = board_save(b, &none, 0, &it.bytes);
    if (status != BOARD_NO_ROOM || none != 0xA5 || it.bytes == 0) fail("the size of an image", which, status);
    size_t size = it.bytes, told = 0;
    it.at = malloc(size + 1);
    if (!it.at) exit(2);
    it.at[size] = 0xA5;
    status = board_save(b, it.at, size - 1, &told);
    if (status != BOARD_NO_ROOM || told != size) fail("an image with too little room", which, status);
    status = board_save(b, it.at, size + 1, &told);
    if (status || told != size || it.at[size] != 0xA5) fail("save", which, status);
    return it;
}

static void load(board *b, image it, unsigned long which) {
    uint8_t *at = fenced(it.bytes);
    memcpy(at, it.at, it.bytes);
    uint32_t status = board_load(b, at, it.bytes);
    if (status) fail("load", which, status);
    if (board_load(b, at, it.bytes) != BOARD_BAD_HANDLE) fail("a load over an open board", which, 0);
    memset(at, 0, it.bytes);
}

/* does an event of the list as it was done before */
static void again(board *b, size_t k, unsigned long which, const char *who) {
    board_reply r;
    memset(&r, 0xA5, sizeof r);
    uint32_t status = board_step(b, &list[k], &r);
    if (status != status_of[k] || memcmp(&r, &said[k], sizeof r)) fail(who, which * EVENTS + k, status);
}

static bool is_same(image one, image other) { return one.bytes == other.bytes && !memcmp(one.at, other.at, one.bytes); }

static void go_on(image it, size_t from, image end, unsigned long which) {
    board b = {0};
    load(&b, it, which);
    image back = saved(&b, which);
    if (!is_same(it, back)) fail("a loaded board is saved as other bytes", which, 0);
    for (size_t k = from; k < EVENTS; k++) again(&b, k, which, "another reply of a loaded board");
    image last = saved(&b, which);
    if (!is_same(last, end)) fail("a loaded board ends as another", which, 0);
    board_close(&b);
    free(back.at), free(last.at);
}

/* ---- images without the memory or the disk, which the caller keeps */

enum { MIB = 1 << 20, MOST_MIB = 2 };

typedef struct kept { uint8_t dram[MOST_MIB * MIB], sectors[SECTORS * SECTOR]; size_t dram_bytes, disk_bytes; } kept;

static void keep(board *b, kept *own, unsigned long which) {
    board_map map;
    uint32_t status = board_ranges(b, &map, NULL, 0, NULL, 0);
    if (status || map.mib > MOST_MIB) fail("the size of the memory", which, status);
    own->dram_bytes = map.mib * MIB, own->disk_bytes = 0;
    status = board_dram_read(b, 0, own->dram, own->dram_bytes);
    if (status) fail("the memory", which, status);
    for (uint32_t k = 0; k < SECTORS && !board_disk_read(b, k, own->sectors + SECTOR * k, SECTOR); k++) own->disk_bytes += SECTOR;
}

/* a board that is saved without them, and loaded with them, is saved as the same bytes and goes on as before */
static void without(board *b, bool dram, bool disk_too, image whole, size_t from, image end, unsigned long which) {
    static kept own;
    board other = {0};
    uint8_t none = 0;
    size_t size = 0, told = 0;
    keep(b, &own, which);
    uint32_t status = board_save_without(b, dram, disk_too, &none, 0, &size);
    if (status != BOARD_NO_ROOM || size > whole.bytes) fail("the size of an image without bytes", which, status);
    uint8_t *at = fenced(size);
    status = board_save_without(b, dram, disk_too, at, size, &told);
    if (status || told != size) fail("save without bytes", which, status);
    size_t dram_bytes = dram ? own.dram_bytes : 0, disk_bytes = disk_too ? own.disk_bytes : 0;
    if (dram && board_load_with(&other, at, size, own.dram, dram_bytes - 1, NULL, 0, NULL, 0) != BOARD_BAD_LENGTH) fail("less memory", which, 0);
    if (disk_bytes && board_load_with(&other, at, size, NULL, 0, disk, disk_bytes - SECTOR, NULL, 0) != BOARD_BAD_LENGTH) fail("a smaller disk", which, 0);
    if (other.open) fail("a refused load leaves an open board", which, 0);
    status = board_load_with(&other, at, size, own.dram, dram_bytes, disk, disk_bytes, own.sectors, disk_bytes);
    if (status) fail("load with bytes", which, status);
    image back = saved(&other, which);
    if (!is_same(whole, back)) fail("a board without bytes is loaded as another", which, 0);
    for (size_t k = from; k < EVENTS; k++) again(&other, k, which, "another reply of a board that was loaded with bytes");
    image last = saved(&other, which);
    if (!is_same(last, end)) fail("a board that was loaded with bytes ends as another", which, 0);
    board_close(&other);
    free(back.at), free(last.at);
}

static void one_list(unsigned long which) {
    board never = {0}, b = {0};
    image at[PLACES];
    size_t place[PLACES];
    uint64_t seed = state;
    open_board(&never);
    state = seed;
    open_board(&b);
    for (size_t k = 0; k < EVENTS; k++) {
        list[k] = any();
        memset(&said[k], 0xA5, sizeof said[k]);
        status_of[k] = board_step(&never, &list[k], &said[k]);
    }
    image end = saved(&never, which);
    size_t done = 0;
    for (size_t p = 0; p < PLACES; p++) {
        place[p] = p * EVENTS / PLACES + next(EVENTS / PLACES);
        for (; done < place[p]; done++) again(&b, done, which, "another reply of a board that was saved");
        at[p] = saved(&b, which);
        without(&b, p % 3 != 1, p % 3 != 2, at[p], place[p], end, which);
    }
    for (; done < EVENTS; done++) again(&b, done, which, "another reply of a board that was saved");
    for (size_t p = 0; p < PLACES; p++) go_on(at[p], place[p], end, which), free(at[p].at);
    board_close(&never), board_close(&b);
    free(end.at);
}

/* ---- changed images */

/* bytes of which some are changed, or that are cut or longer; where they end is a page that cannot be read */
static size_t changed(image it, uint8_t **at) {
    size_t bytes = it.bytes;
    uint32_t way = next(8);
    if (way == 0) bytes = next((uint32_t)bytes + 1);
    if (way == 1) bytes += 1 + next(LONGEST_CHANGE);
    *at = fenced(bytes);
    memcpy(*at, it.at, bytes < it.bytes ? bytes : it.bytes);
    for (size_t k = it.bytes; k < bytes; k++) (*at)[k] = (uint8_t)next(256);
    for (uint32_t n = way < 2 ? next(2) : 1 + next(3); n > 0 && bytes > 0; n--) {
        size_t k = next((uint32_t)bytes), many = next(4) ? 1 : next(LONGEST_CHANGE);
        uint8_t with = (uint8_t)(next(2) ? next(256) : next(4));
        for (; many > 0 && k < bytes; k++, many--) (*at)[k] = next(4) ? with : (*at)[k] ^ (uint8_t)(1u << next(8));
    }
    return bytes;
}

/* whether it is refused; else the board is saved as these bytes, and steps */
static bool is_refused(image it, unsigned long which) {
    board b = {0};
    board_reply r;
    uint8_t *at;
    size_t bytes = changed(it, &at);
    uint32_t status = board_load(&b, at, bytes);
    if (status == BOARD_BAD_IMAGE || status == BOARD_OTHER_VERSION) {
        if (b.open) fail("a refused load leaves an open board", which, status);
        return true;
    }
    if (status) fail("a changed image", which, status);
    image back = saved(&b, which);
    if (back.bytes != bytes || memcmp(back.at, at, bytes)) fail("a changed image is saved as other bytes", which, 0);
    for (int k = 0; k < STEPS; k++) {
        board_event event = any();
        status = board_step(&b, &event, &r);
        if (status > BOARD_OTHER_VERSION || status == BOARD_BAD_HANDLE) fail("a step of a changed image", which, status);
    }
    free(back.at);
    board_close(&b);
    return false;
}

static unsigned long change_images(unsigned long images) {
    unsigned long refused = 0;
    image it = {NULL, 0};
    for (unsigned long k = 0; k < images; k++) {
        if (k % 1000 == 0) {
            board b = {0};
            board_reply r;
            free(it.at);
            open_board(&b);
            for (int n = 0; n < STEPS; n++) {
                board_event event = any();
                board_step(&b, &event, &r);
            }
            it = saved(&b, k);
            board_close(&b);
        }
        refused += is_refused(it, k);
    }
    free(it.at);
    return refused;
}

int main(int argc, char **argv) {
    unsigned long lists = argc > 1 ? strtoul(argv[1], NULL, 10) : 100, images = argc > 2 ? strtoul(argv[2], NULL, 10) : 100000;
    board closed = {0};
    uint8_t byte = 0xA5;
    size_t bytes = 0xA5;
    if (board_save(&closed, &byte, 1, &bytes) != BOARD_BAD_HANDLE || byte != 0xA5 || bytes != 0xA5) fail("save of a closed handle", 0, 0);
    if (board_load(&closed, &byte, 0) != BOARD_BAD_IMAGE || closed.open) fail("load of no bytes", 0, 0);
    if (board_load(&closed, (const uint8_t *)"BOARDRUN\xFF\xFF", 10) != BOARD_OTHER_VERSION) fail("another version", 0, 0);
    state = 1;
    for (unsigned long k = 0; k < lists; k++) one_list(k);
    unsigned long refused = change_images(images);
    printf("save: %lu places of %lu lists; of %lu changed images %lu refused\n", lists * PLACES, lists, images, refused);
    return 0;
}
