/* What a call of the library for C costs by hand, without a proof: a floor for rows of bench/library/instructions.
 * Its calls are linked with this in the place of libboard.a: the records of board.h, with each check that the library
 * makes of them. Memory is a table of pages, a port a function of a table, and INT is made anew where an 8259A is
 * written.
 *
 * It has what these rows ask, and what a BIOS writes before them; it answers UNKNOWN to all else. */
#include "board.h"
#include <stdlib.h>
#include <string.h>

enum {
    UNKNOWN = 99, PAGE = 4096, PAGES = 1 << 20, MIB = 1 << 20, PORTS = 1 << 16, VGA = 0xA0000,
    HOST = 0, IDE = 0x0900,                       /* functions, as the configuration address has them */
    COMMAND = 0x04, IDE_TIMING = 0x41, DECODED = 0x80,
    IS_READY = 0x50, CASCADE = 4
};
#define CONFIG_BITS 0x80FFFFFCu
#define ENABLED 0x80000000u

/* A page of memory: its bytes, or none where nobody answers; the part that tells it, with the offset of its first
 * byte; and which bits of an address go to the offset. */
typedef struct { uint8_t *bytes; board_part part; uint32_t inside; } page;
typedef struct pic { uint8_t mask, requested, in_service, vectors, words_left; } pic;
typedef struct {
    page pages[PAGES];
    uint8_t devices[PORTS];                       /* who answers, as `handlers` has them */
    uint8_t host[256], ide[256];
    uint32_t address, version;
    pic pics[2];                                  /* the master and the slave */
    uint8_t interrupt;
    uint16_t lines;                               /* the levels of the interrupt lines */
} chip;
typedef uint32_t handler(chip *, const board_event *, board_reply *);

/* ---- replies */

/* All of a reply but the value and the first part. */
static inline void fill(const chip *it, board_reply *reply) {
    reply->version = it->version;
    reply->seen = reply->lo = reply->hi = 0;
    reply->form = BOARD_BUS_REPLY;
    reply->parts = 1;
    reply->interrupt = it->interrupt;
    reply->reset = BOARD_NO_RESET;
    memset(&reply->part[1], 0, sizeof reply->part - sizeof *reply->part);
    reply->sent = reply->has_sent = reply->irq4 = 0;
    reply->serial_room = 1;
    reply->lines = it->lines;
    reply->rose = 0;                              /* no row raises a line */
}

static inline uint32_t read_as(board_reply *reply, uint64_t value) {
    reply->value = value;
    reply->has_value = 1;
    return BOARD_OK;
}

static inline uint32_t written(board_reply *reply) {
    reply->value = 0;
    reply->has_value = 0;
    return BOARD_OK;
}

static inline void by_device(const chip *it, board_reply *reply, uint8_t device) {
    fill(it, reply);
    reply->part[0] = (board_part){.target = BOARD_IS_DEVICE, .unit = device};
}

/* ---- bytes */

/* A value of 1, 2 or 4 bytes as it lies in memory; the calls of memcpy become one move each. */
static inline uint32_t load(const uint8_t *from, uint32_t bytes) {
    uint32_t four;
    uint16_t two;
    if (bytes == 4) return memcpy(&four, from, 4), four;
    if (bytes == 2) return memcpy(&two, from, 2), two;
    return *from;
}

static inline void store(uint8_t *to, uint32_t value, uint32_t bytes) {
    uint16_t two = (uint16_t)value;
    if (bytes == 4) memcpy(to, &value, 4);
    else if (bytes == 2) memcpy(to, &two, 2);
    else *to = (uint8_t)value;
}

/* ---- ports */

static uint32_t config_address(chip *it, const board_event *event, board_reply *reply) {
    if (event->kind != BOARD_WRITE || event->bytes != 4 || event->addr != 0xCF8) return UNKNOWN;
    it->address = (uint32_t)event->value & CONFIG_BITS;
    by_device(it, reply, BOARD_CONFADD);
    return written(reply);
}

/* Lets the disk answer at its ports as its function says. */
static void decode_disk(chip *it) {
    bool is_decoded = it->ide[COMMAND] & 1 && it->ide[IDE_TIMING] & DECODED;
    memset(&it->devices[0x1F0], is_decoded ? BOARD_ATA : 0, 8);
}

static uint32_t config_data(chip *it, const board_event *event, board_reply *reply) {
    uint32_t off = (it->address & 0xFC) | (event->addr & 3), function = it->address & 0x00FFFF00;
    bool is_ide = function == IDE;
    if (!(it->address & ENABLED) || (function != HOST && !is_ide)) return UNKNOWN;
    uint8_t *bytes = (is_ide ? it->ide : it->host) + off;
    fill(it, reply);
    reply->part[0] = (board_part){.target = BOARD_CONFIG, .unit = is_ide, .base = is_ide, .offset = off};
    if (event->kind == BOARD_READ) return read_as(reply, load(bytes, event->bytes));
    if (!is_ide) return UNKNOWN;
    store(bytes, (uint32_t)event->value, event->bytes);
    decode_disk(it);
    return written(reply);
}

/* Whether a line is requested that comes before all lines in service. */
static inline bool is_before(uint32_t requested, uint32_t in_service) {
    uint32_t first = requested & -requested, before = (in_service - 1) & ~in_service;
    return first & before;
}

static inline uint8_t interrupt_of(const pic *pics) {
    if (!(pics[0].requested | pics[1].requested)) return 0;
    uint32_t slave = is_before(pics[1].requested & ~pics[1].mask, pics[1].in_service) ? CASCADE : 0;
    return is_before((pics[0].requested | slave) & ~pics[0].mask, pics[0].in_service);
}

/* Takes a word of an initialization, of which three follow the first. */
static __attribute__((noinline)) void initialize(pic *pic, bool is_first, uint8_t value) {
    if (is_first) *pic = (struct pic){.words_left = 3};
    else if (pic->words_left-- == 3) pic->vectors = value;
}

static uint32_t interrupts(chip *it, const board_event *event, board_reply *reply) {
    bool is_slave = event->addr >> 7 & 1, is_data = event->addr & 1;
    pic *pic = &it->pics[is_slave];
    if (event->bytes != 1) return UNKNOWN;
    if (event->kind == BOARD_READ) {
        if (!is_data) return UNKNOWN;
        by_device(it, reply, (uint8_t)(BOARD_PIC0 + is_slave));
        return read_as(reply, pic->mask);
    }
    if (is_data && pic->words_left == 0) pic->mask = (uint8_t)event->value;
    else if (is_data || event->value == 0x11) initialize(pic, !is_data, (uint8_t)event->value);
    else return UNKNOWN;
    it->interrupt = interrupt_of(it->pics);
    by_device(it, reply, (uint8_t)(BOARD_PIC0 + is_slave));
    return written(reply);
}

/* The mode and the count that a BIOS writes. Mode 2 sets OUT of counter 0, which is line 0; nothing here counts. */
static uint32_t timer(chip *it, const board_event *event, board_reply *reply) {
    if (event->bytes != 1 || event->kind != BOARD_WRITE) return UNKNOWN;
    if (event->addr == 0x43) it->lines = 1;
    by_device(it, reply, BOARD_PIT);
    return written(reply);
}

static uint32_t disk(chip *it, const board_event *event, board_reply *reply) {
    if (event->addr != 0x1F7 || event->bytes != 1 || event->kind != BOARD_READ) return UNKNOWN;
    by_device(it, reply, BOARD_ATA);
    return read_as(reply, IS_READY);
}

enum { CONFIG_DATA = BOARD_UART + 1, DEVICES };   /* beside the numbers of board_device */
static handler *const handlers[DEVICES] = {
    [BOARD_CONFADD] = config_address, [CONFIG_DATA] = config_data, [BOARD_PIC0] = interrupts, [BOARD_PIT] = timer,
    [BOARD_ATA] = disk,
};

static inline uint32_t port(chip *it, const board_event *event, board_reply *reply) {
    uint32_t bytes = event->bytes;
    if ((event->kind != BOARD_READ && event->kind != BOARD_WRITE) || event->addr >= PORTS) return BOARD_NO_EVENT;
    if (bytes != 1 && bytes != 2 && bytes != 4) return BOARD_NO_EVENT;
    if (event->addr & (bytes - 1)) return BOARD_ALIGNMENT;
    if (event->kind == BOARD_WRITE ? event->value >> 8 * bytes : event->value) return BOARD_VALUE;
    handler *answer = handlers[it->devices[event->addr]];
    return answer ? answer(it, event, reply) : UNKNOWN;
}

/* ---- memory */

static inline uint32_t memory(chip *it, const board_event *event, board_reply *reply) {
    uint32_t bytes = event->bytes, addr = event->addr;
    if (event->smm > 1 || event->kind < BOARD_FETCH || event->kind > BOARD_WRITE) return BOARD_NO_EVENT;
    if (bytes == 0 || bytes > 8 || bytes & (bytes - 1)) return BOARD_NO_EVENT;
    if (addr > 0u - bytes) return BOARD_END;
    if (bytes == 8 || addr & (bytes - 1)) return UNKNOWN;
    const page *page = &it->pages[addr / PAGE];
    uint8_t *at = page->bytes + addr % PAGE;
    if (!page->bytes) return UNKNOWN;
    bool is_write = event->kind == BOARD_WRITE;
    if (is_write ? event->value >> 8 * bytes : event->value) return event->value >> 32 ? BOARD_NO_EVENT : BOARD_VALUE;
    if (is_write && page->part.target == BOARD_ROM) return UNKNOWN;
    reply->part[0] = page->part;
    reply->part[0].offset += addr & page->inside;
    if (is_write) store(at, (uint32_t)event->value, bytes);
    reply->value = is_write ? 0 : load(at, bytes);
    reply->has_value = !is_write;
    fill(it, reply);
    return BOARD_OK;
}

uint32_t board_step(board *handle, const board_event *event, board_reply *reply) {
    if (!handle->open) return BOARD_CLOSED;
    if (event->reserved) return BOARD_NO_EVENT;
    if (event->what == BOARD_MEMORY) return memory(handle->at, event, reply);
    return event->what == BOARD_PORT ? port(handle->at, event, reply) : UNKNOWN;
}

/* ---- a board of a BIOS's first steps: no cards, and a disk that is ready */

/* No row has an access at ports that is cut. */
uint32_t board_in_cycles(board *handle, uint16_t at, uint8_t bytes, board_reply *reply) {
    return (void)handle, (void)at, (void)bytes, (void)reply, UNKNOWN;
}

uint32_t board_out_cycles(board *handle, uint16_t at, uint8_t bytes, uint32_t value, board_reply *reply) {
    return (void)handle, (void)at, (void)bytes, (void)value, (void)reply, UNKNOWN;
}

uint32_t board_open(board *handle, uint32_t mib, const board_card *cards, size_t card_count, const uint8_t *rom,
                    size_t rom_bytes, const uint8_t *sectors, size_t sectors_bytes) {
    (void)cards, (void)sectors;
    chip *it = calloc(1, sizeof *it);
    uint8_t *dram = calloc(mib, MIB), *copy = malloc(rom_bytes);
    if (!it || !dram || !copy || card_count || rom_bytes != 1 << 16 || !sectors_bytes) return UNKNOWN;
    memcpy(copy, rom, rom_bytes);
    for (uint32_t n = 0; n < mib * (MIB / PAGE); n++) {
        board_part part = {.target = BOARD_DRAM};
        if (n < VGA / PAGE || n >= MIB / PAGE) it->pages[n] = (page){dram + (size_t)n * PAGE, part, 0};
    }
    for (uint32_t at = 0; at < rom_bytes; at += PAGE) {
        board_part part = {.target = BOARD_ROM, .offset = at};
        it->pages[PAGES - (rom_bytes - at) / PAGE] = (page){copy + at, part, PAGE - 1};
    }
    memset(&it->devices[0x20], BOARD_PIC0, 2);
    memset(&it->devices[0xA0], BOARD_PIC0, 2);
    memset(&it->devices[0x40], BOARD_PIT, 4);
    memset(&it->devices[0xCF8], BOARD_CONFADD, 4);
    memset(&it->devices[0xCFC], CONFIG_DATA, 4);
    *handle = (board){it, true};
    return BOARD_OK;
}

void board_close(board *handle) {
    handle->open = false;                         /* and the program ends */
}
