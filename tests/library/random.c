/* Random events for random boards, with cards and a disk: writes them as a script, and the library's answers, by
 * board_text, as the log that `board replay` writes of it.
 *
 *   random SEED COUNT FOLDER     writes rom, disk, script and log into FOLDER
 *
 * Left out are irq 4 and accesses of one byte to ports 3F8h to 3FFh: the library's serial port answers these. */
#include "board.h"
#include <stdarg.h>
#include <stdio.h>
#include <stdlib.h>
#include <string.h>

enum { CPUS = 4, HOT = 64, SECTOR = 512, MOST_CARDS = 5, MOST_PULSES = 90000000 };

static uint64_t state;
static FILE *script, *logged;
static unsigned long number, count, pulses;
static uint32_t statement[CPUS];
static board b;
static uint32_t mib, sectors;
static board_card cards[MOST_CARDS];
static size_t card_count;
/* where bases of cards have been put */
static uint32_t hot_address[HOT], hot_port[HOT];

/* a number below another */
static uint32_t next(uint32_t below) {
    state = state * 6364136223846793005u + 1442695040888963407u;
    return (uint32_t)(((state >> 32) * below) >> 32);
}

static uint64_t value_of(uint32_t bytes) {
    uint64_t value = (uint64_t)next(0xFFFFFFFF) << 32 | next(0xFFFFFFFF);
    return bytes == 8 ? value : value & ((1ull << (8 * bytes)) - 1);
}

#define ONE_OF(list) ((list)[next(sizeof(list) / sizeof *(list))])

static void fail(const char *what, uint32_t status) {
    printf("%lu: %s: status %u\n", number, what, status);
    exit(4);
}

/* ---- a statement */

/* what an access of one bus cycle reaches is the same before it and in its reply */
static void check_place(const board_event *event, const board_part *before, uint32_t status, const board_reply *r) {
    if (status == BOARD_NO_CYCLE && (event->what > BOARD_PORT || r->form == BOARD_PARTS_REPLY)) return;
    if (status) fail("decode", status);
    if (memcmp(before, &r->part[0], sizeof *before)) fail("decode tells another place than the reply", 0);
}

/* the range of the whole map that has an address shows what a look shows */
static void check_map(const board_event *event, const board_reply *r) {
    static board_range range[BOARD_MOST_RANGES];
    static board_window window[BOARD_MOST_WINDOWS];
    board_map map;
    uint32_t status = board_ranges(&b, &map, range, BOARD_MOST_RANGES, window, BOARD_MOST_WINDOWS);
    if (status) fail("ranges", status);
    if (map.ranges > BOARD_MOST_RANGES || map.windows > BOARD_MOST_WINDOWS || map.version != r->version) fail("the map", 0);
    uint64_t k = 0;
    while (k < map.ranges && range[k].hi < event->addr) k++;
    if (k == map.ranges || range[k].lo < r->lo || range[k].hi > r->hi) fail("a range of the map", 0);
    board_area area = board_area_of(&range[k], event->kind, event->smm);
    const board_part *p = &r->part[0];
    if (area.target != p->target || area.unit != p->unit || area.base != p->base) fail("an area of the map", 0);
}

/* does an event, of any processor, and writes its statement and its line */
static void ask(board_event event, const char *form, ...) {
    static uint8_t line[BOARD_LONGEST_LINE];
    char words[128];
    board_part place;
    board_reply r;
    va_list of;
    if (number == count) return;
    uint32_t cpu = next(CPUS);
    va_start(of, form);
    vsnprintf(words, sizeof words, form, of);
    va_end(of);
    memset(&r, 0xA5, sizeof r);
    number++, statement[cpu]++;
    uint32_t decoded = board_decode(&b, &event, &place);
    uint32_t status = board_step(&b, &event, &r);
    if (status) fail(words, status);
    check_place(&event, &place, decoded, &r);
    if (event.what == BOARD_LOOK && number % 64 == 0) check_map(&event, &r);
    size_t bytes = 0;
    status = board_text(&event, &r, number, (uint8_t)cpu, statement[cpu], line, sizeof line, &bytes);
    if (status) fail(words, status);
    fprintf(script, "%u %s\n", cpu, words);
    fwrite(line, 1, bytes, logged);
}

static const char *width_of(uint32_t bytes) { return bytes == 1 ? "b" : bytes == 2 ? "w" : bytes == 4 ? "d" : "q"; }

/* ---- memory */

static uint32_t address(void) {
    /* the ends of what the registers open and shut */
    static const uint32_t places[] = {0, 0x7FFF8, 0x80000, 0x9FFF8, 0xA0000, 0xBFFF8, 0xC0000, 0xC7FFA, 0xE0000, 0xEFFF8, 0xF0000,
        0xFFFF0, 0x100000, 0x7FFFF8, 0x800000, 0xF00000, 0xFFFFF8, 0x1000000, 0xFFF7FFF8, 0xFFF80000, 0xFFFDFFF8, 0xFFFE0000,
        0xFFFF0000, 0xFFFFFFE0};
    switch (next(8)) {
    case 0: return (uint32_t)value_of(4);
    case 1: case 2: return hot_address[next(HOT)] + next(80);
    case 3: return (mib << 20) - 8 + next(16);
    case 4: return 0xA0000 + next(0x60000);
    case 5: return 0xC0000 + 0x4000 * next(12) - 8 + next(16);
    default: return ONE_OF(places) + next(16);
    }
}

static void memory(void) {
    static const uint8_t sizes[] = {1, 1, 2, 4, 4, 8};
    static const char letters[] = "?frw";
    uint8_t bytes = ONE_OF(sizes), kind = (uint8_t)(1 + next(3)), smm = next(8) == 0;
    uint32_t addr = address();
    if ((uint64_t)addr + bytes > 1ull << 32) addr = 0xFFFFFFF0;
    uint64_t value = kind == BOARD_WRITE ? value_of(bytes) : 0;
    board_event event = {.what = BOARD_MEMORY, .kind = kind, .bytes = bytes, .smm = smm, .addr = addr, .value = value};
    const char *mode = smm ? " smm" : "";
    if (kind == BOARD_WRITE) ask(event, "w %s %08X %0*llX%s", width_of(bytes), addr, bytes * 2, (unsigned long long)value, mode);
    else ask(event, "%c %s %08X%s", letters[kind], width_of(bytes), addr, mode);
}

static void look(void) {
    static const char letters[] = "?frw";
    uint8_t kind = (uint8_t)(1 + next(3)), smm = next(4) == 0;
    uint32_t addr = address();
    ask((board_event){.what = BOARD_LOOK, .kind = kind, .smm = smm, .addr = addr}, "look %c %08X%s", letters[kind], addr, smm ? " smm" : "");
}

/* ---- ports */

static bool is_serial(uint32_t at, uint32_t bytes) { return bytes == 1 && at >= 0x3F8 && at <= 0x3FF; }

static void in(uint32_t at, uint8_t bytes) {
    if (is_serial(at, bytes)) return;
    ask((board_event){.what = BOARD_PORT, .kind = BOARD_READ, .bytes = bytes, .addr = at}, "in %s %04X", width_of(bytes), at);
}

static void out(uint32_t at, uint8_t bytes, uint32_t value) {
    if (is_serial(at, bytes)) return;
    if (bytes < 4) value &= (1u << (8 * bytes)) - 1;
    ask((board_event){.what = BOARD_PORT, .kind = BOARD_WRITE, .bytes = bytes, .addr = at, .value = value}, "out %s %04X %0*X",
        width_of(bytes), at, bytes * 2, value);
}

static void any_port(void) {
    static const uint16_t ports[] = {0x20, 0x21, 0xA0, 0xA1, 0x40, 0x41, 0x42, 0x43, 0x61, 0x60, 0x64, 0x70, 0x71, 0x1F0, 0x1F1, 0x1F2,
        0x1F7, 0x3F6, 0x4D0, 0x4D1, 0xCF8, 0xCF9, 0xCFC, 0xCFD, 0xCFE, 0x3F8};
    uint8_t bytes = next(3) ? 1 : next(2) ? 2 : 4;
    uint32_t at = next(3) == 0 ? hot_port[next(HOT)] + next(4) : next(8) == 0 ? next(0x10000) : ONE_OF(ports);
    at = at % 0x10000 / bytes * bytes;
    if (next(2)) in(at, bytes);
    else out(at, bytes, at == 0xCF9 && next(6) ? 0 : (uint32_t)value_of(bytes));
}

/* ---- configuration space: a register is device * 800h + function * 100h + offset */

static void set(uint32_t reg, uint8_t bytes, uint32_t value) {
    if (next(100)) out(0xCF8, 4, 0x80000000u | (reg & 0xFFFC));
    out(0xCFC + reg % 4 / bytes * bytes, bytes, value);
    if (next(4) == 0) in(0xCFC, next(3) ? 4 : 2);
}

static void bridge(void) {
    static const uint8_t smram[] = {0x02, 0x0A, 0x4A, 0x48, 0x2A, 0x6A, 0x08};
    static const uint8_t holes[] = {0, 0x40, 0x80, 0xC0};
    static const uint8_t opened[] = {0, 0x10, 0x20, 0x30, 0x11, 0x22, 0x33, 0x21, 0x12};
    static const uint8_t routes[] = {0x80, 0x0B, 0x0A, 0x05, 0x09, 0x03, 0x07, 0x0F, 0x8B, 0x02};
    uint32_t ends = next(9);
    switch (next(10)) {
    case 0: case 1: case 2: set(0x59 + next(7), 1, next(5) ? ONE_OF(opened) : next(256)); break;
    case 3: set(0x5C, 4, next(2) ? 0x33333333 : (uint32_t)value_of(4)); break;
    case 4: set(next(2) ? 0x60 : 0x64, 4, next(3) ? ends * 0x01010101u : (uint32_t)value_of(4) & 0x0F0F0F0F); break;
    case 5: set(0x68, 1, ONE_OF(holes)); break;
    case 6: set(0x72, 1, next(60) ? ONE_OF(smram) : next(2) ? 0x1A : 0x5A); break;
    case 7: set(0x84E, 2, next(4) ? 0xC3 | next(2) << 2 : next(0x10000)); break;
    case 8: set(0x860 + next(4), 1, next(8) ? ONE_OF(routes) : next(256)); break;
    default:
        set(0x904, 1, next(6) ? 1 : next(8));
        set(0x940, 2, next(6) ? 0x8000 : next(0x10000));
    }
}

static uint32_t base_value(bool is_port) {
    static const uint32_t memory[] = {0xE0000000, 0xE0100000, 0xE8000000, 0x00F00000, 0x000A0000, 0x000C8000, 0x00080000, 0xFFFFFFFF, 0xFFFE0000};
    static const uint32_t ports[] = {0x6000, 0x6100, 0x1F0, 0x3F8, 0x40, 0xCF8, 0xFF00, 0xFFFFFFFF, 0x4D0};
    uint32_t value = is_port ? ONE_OF(ports) : ONE_OF(memory) + (next(4) << next(24));
    if (is_port) hot_port[next(HOT)] = value & 0xFFFF;
    else hot_address[next(HOT)] = value & 0xFFFFFFF0;
    return value;
}

static void card(void) {
    if (!card_count) return;
    const board_card *c = &cards[next((uint32_t)card_count)];
    uint32_t device = c->device * 0x800u, k = next(6);
    switch (next(6)) {
    case 0: case 1: set(device + 4, next(3) ? 4 : 1, next(8)); break;
    case 2: set(device + 0x30, 4, base_value(false) | next(2)); break;
    case 3: set(device + 4 * next(16), 4, (uint32_t)value_of(4)); break;
    default: set(device + 0x10 + 4 * k, 4, base_value(k < c->bases && c->base[k].kind == BOARD_IO_BASE));
    }
}

/* ---- devices */

static void pair(void) {
    static const uint8_t commands[] = {0x20, 0x20, 0x60, 0x62, 0x64, 0x65, 0xA0, 0x80, 0x00, 0xC3, 0xE5, 0x40, 0x0A, 0x0B, 0x0C, 0x48, 0x68, 0x08};
    uint32_t slave = next(2) * 0x80;
    switch (next(8)) {
    case 0:
        out(0x20 + slave, 1, next(8) ? 0x11 : next(32));
        out(0x21 + slave, 1, slave ? 0x70 : next(2) ? 0x20 : next(256));
        out(0x21 + slave, 1, slave ? 2 : 4);
        out(0x21 + slave, 1, next(4) ? 1 : next(32));
        break;
    case 1: out(0x21 + slave, 1, next(2) ? 0 : next(256)); break;
    case 2: case 3: in(0x20 + slave + next(2), 1); break;
    case 4: out(0x4D0 + next(2), 1, next(256)); break;
    default: out(0x20 + slave, 1, next(8) ? ONE_OF(commands) : next(256));
    }
}

static void timer(void) {
    uint32_t counter = next(3);
    switch (next(6)) {
    case 0: case 1:
        out(0x43, 1, counter << 6 | 0x30 | next(8) << 1 | (next(8) == 0));
        out(0x40 + counter, 1, next(256));
        out(0x40 + counter, 1, next(2) ? 0 : next(256));
        break;
    case 2: out(0x43, 1, next(2) ? 0xC0 | next(64) : counter << 6); break;
    case 3: out(0x61, 1, next(8) ? next(4) : next(256)); break;
    case 4: in(0x61, 1); break;
    default: in(0x40 + counter, 1);
    }
}

static void moment(void) {
    uint32_t year = 1980 + next(120), month = 1 + next(12), day = 1 + next(28), hour = next(24), minute = next(60), second = next(60);
    uint64_t digits = ((((year * 100ull + month) * 100 + day) * 100 + hour) * 100 + minute) * 100 + second;
    ask((board_event){.what = BOARD_TIME, .value = digits}, "moment %04u-%02u-%02uT%02u:%02u:%02u", year, month, day, hour, minute, second);
}

static void real_time_clock(void) {
    if (next(4) == 0) { moment(); return; }
    out(0x70, 1, next(4) ? next(16) : next(256));
    if (next(2)) in(0x71, 1);
    else out(0x71, 1, next(256));
}

/* words of the disk, of two or four bytes */
static void move(bool writes, uint32_t words) {
    for (uint32_t n = 0; n < words; n++) {
        uint8_t bytes = next(40) ? 2 : 4;
        if (writes) out(0x1F0, bytes, (uint32_t)value_of(bytes));
        else in(0x1F0, bytes);
    }
}

static void disk(void) {
    static const uint8_t commands[] = {0x20, 0x20, 0x20, 0x30, 0x30, 0x40, 0x90, 0x91, 0xE7, 0xEC, 0xEF};
    static const uint8_t features[] = {2, 3, 0x55, 0x66, 0x82, 0xAA, 0xCC, 0};
    uint8_t command = next(20) ? ONE_OF(commands) : (uint8_t)next(256);
    uint32_t sector = next(sectors + 2), count_at = next(4) ? 1 : next(5);
    if (next(30) == 0) out(0x3F6, 1, next(2) ? 4 : next(256));
    if (next(4) == 0) out(0x3F6, 1, next(2) * 2);
    out(0x1F1, 1, ONE_OF(features));
    out(0x1F2, 1, command == 0x91 && next(3) ? 63 : count_at);
    out(0x1F3, 1, next(12) ? sector % 256 + (sector == 0) : next(256));
    out(0x1F4, 1, next(12) ? sector / 256 % 256 : next(256));
    out(0x1F5, 1, next(12) ? 0 : next(256));
    out(0x1F6, 1, next(8) ? 0xE0 : next(4) ? 0xAF : next(256));
    out(0x1F7, 1, command);
    in(0x1F7, 1);
    if (command == 0x20 || command == 0x30 || command == 0xEC) move(command == 0x30, next(4) ? 256 * (1 + next(2)) : next(300));
    in(0x1F1 + next(7), 1);
    in(next(2) ? 0x1F7 : 0x3F6, 1);
}

/* ---- what the world outside does */

static void pulse(void) {
    uint32_t many = 1 + next(next(50) ? 300 : next(20) ? 60000 : 1000000);
    if (pulses + many > MOST_PULSES) many = 1;
    pulses += many;
    ask((board_event){.what = BOARD_PULSE, .value = many}, "pulse %u", many);
}

static void outside(void) {
    static const uint8_t lines[] = {1, 3, 5, 6, 7, 9, 10, 11, 12, 15};
    uint32_t line = ONE_OF(lines), level = next(2), sector = next(next(10) ? sectors + 1 : 65536);
    switch (next(8)) {
    case 0: case 1: ask((board_event){.what = BOARD_ACK}, "ack"); break;
    case 2: case 3: pulse(); break;
    case 4: case 5: ask((board_event){.what = BOARD_IRQ, .addr = line, .value = level}, "irq %u %u", line, level); break;
    case 6:
        if (!card_count) return;
        line = cards[next((uint32_t)card_count)].device;
        ask((board_event){.what = BOARD_WIRE, .addr = line, .value = level}, "wire %u %u", line, level);
        break;
    default:
        if (next(40) == 0) ask((board_event){.what = BOARD_BAD_SECTOR, .addr = sector}, "bad %u", sector);
    }
}

static void reset(void) {
    if (next(40)) return;
    out(0xCF9, 1, next(3) ? 2 : 0);
    out(0xCF9, 1, next(3) ? 6 : 4);
    for (int k = 0; k < 12; k++) bridge();
    for (int k = 0; k < 8; k++) card();
}

/* ---- the board */

static FILE *made(const char *folder, const char *name) {
    char path[4096];
    snprintf(path, sizeof path, "%s/%s", folder, name);
    FILE *file = fopen(path, "wb");
    if (!file) { perror(path); exit(2); }
    setvbuf(file, NULL, _IOFBF, 1 << 20);
    return file;
}

/* bytes of these numbers, also in a file */
static uint8_t *image(const char *folder, const char *name, size_t size) {
    uint8_t *bytes = malloc(size ? size : 1);
    FILE *file = made(folder, name);
    for (size_t k = 0; k < size; k++) bytes[k] = (uint8_t)next(256);
    fwrite(bytes, 1, size, file);
    fclose(file);
    return bytes;
}

/* cards that differ in their devices, and their lines of the script */
static void fit_cards(void) {
    for (uint8_t device = 2; device <= 9 && card_count < MOST_CARDS; device++) {
        if (next(2)) continue;
        board_card *c = &cards[card_count++];
        c->device = device, c->vga = next(3) == 0, c->bases = (uint8_t)next(7), c->rom = next(2) ? 0 : (uint8_t)(11 + next(8));
        fprintf(script, "card %u %s", device, c->vga ? "vga" : "plain");
        for (uint8_t k = 0; k < c->bases; k++) {
            bool is_port = next(3) == 0;
            c->base[k].kind = is_port ? BOARD_IO_BASE : BOARD_MEMORY_BASE;
            c->base[k].bits = (uint8_t)(is_port ? 2 + next(7) : 4 + next(17));
            fprintf(script, " %c%u", is_port ? 'i' : 'm', c->base[k].bits);
        }
        if (c->rom) fprintf(script, " x%u", c->rom);
        fprintf(script, "\n");
    }
}

static void open_board(const char *folder) {
    static const uint32_t sizes[] = {1, 4, 8, 9, 16, 17, 32, 64};
    size_t rom_bytes = (size_t)0x10000 << next(4);
    mib = ONE_OF(sizes), sectors = next(4) ? 1 + next(400) : 0;
    uint8_t *rom = image(folder, "rom", rom_bytes), *bytes = image(folder, "disk", sectors * SECTOR);
    fprintf(script, "board 2\ncpus %d\nmemory %u\nrom rom\n%s", CPUS, mib, sectors ? "disk disk\n" : "");
    fit_cards();
    fprintf(script, "phase\n");
    uint32_t status = board_open(&b, mib, cards, card_count, rom, rom_bytes, bytes, sectors * SECTOR);
    if (status) fail("open", status);
    free(rom), free(bytes);
    for (size_t k = 0; k < HOT; k++) hot_address[k] = next(mib << 20), hot_port[k] = next(0x10000);
}

static void any(void) {
    static void (*const kinds[])(void) = {memory, memory, memory, memory, memory, memory, memory, memory, look, look, any_port, any_port,
        bridge, bridge, card, card, pair, timer, real_time_clock, outside, outside, outside, reset};
    if (next(300) == 0) disk();
    else ONE_OF(kinds)();
}

int main(int argc, char **argv) {
    if (argc != 4) return 2;
    state = strtoull(argv[1], NULL, 10) * 0x9E3779B97F4A7C15u + 1;
    count = strtoul(argv[2], NULL, 10);
    script = made(argv[3], "script");
    logged = made(argv[3], "log");
    open_board(argv[3]);
    fprintf(logged, "access log 2\n");
    for (int k = 0; k < 12; k++) bridge();
    while (number < count) any();
    board_close(&b);
    return fclose(script) || fclose(logged) ? 2 : 0;
}
