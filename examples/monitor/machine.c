/* The machine: opens the board, prepares it as a PC's board is when its processor starts, and does its steps. */
#define _GNU_SOURCE
#include "machine.h"
#include <errno.h>
#include <stdio.h>
#include <stdlib.h>
#include <string.h>
#include <sys/mman.h>
#include <sys/stat.h>
#include <time.h>

enum {
    CONFIG_ADDRESS = 0xCF8,
    CONFIG_DATA = 0xCFC,
    DRB0 = 0x60,      /* of 00.0: where rows of memory end, in 8 MiB */
    ROWS = 8,
    ROW_MIB = 8,
    HOST_BRIDGE = 0,  /* 00.0: its device times 8, and its function */
    SOUTH_BRIDGE = 8, /* 01.0 */
    IDE = 9,          /* 01.1 */
    COMMAND = 0x04,   /* of each function: bit 0 decodes its ports */
    IDETIM_HIGH = 0x41, /* of 01.1: bit 7 decodes the disk */
    XBCS = 0x4E,      /* of 01.0 */
    XBCS_BIOS = 0xC3, /* the clock, the keyboard controller, and the BIOS from FFF80000h and from E0000h on */
    CMOS_INDEX = 0x70,
    CMOS_DATA = 0x71,
    CMOS_MOST_MIB = 64  /* what the clock's bytes of KiB can say */
};
#define CONFIG_ENABLE 0x80000000u

static uint64_t host_time(void) {
    struct timespec t;
    clock_gettime(CLOCK_MONOTONIC, &t);
    return (uint64_t)t.tv_sec * NANOSECONDS + (uint64_t)t.tv_nsec;
}

static _Noreturn void fail(const char *what) {
    fprintf(stderr, "monitor: %s: %s\n", what, strerror(errno));
    exit(1);
}

uint8_t *machine_pages(size_t bytes) {
    void *at = mmap(NULL, bytes, PROT_READ | PROT_WRITE, MAP_PRIVATE | MAP_ANONYMOUS, -1, 0);
    if (at == MAP_FAILED) fail("memory");
    return at;
}

uint8_t *machine_file(const char *name, size_t *bytes) {
    struct stat about;
    FILE *file = fopen(name, "rb");
    if (!file || fstat(fileno(file), &about)) fail(name);
    *bytes = (size_t)about.st_size;
    uint8_t *at = machine_pages(*bytes + 1);
    if (fread(at, 1, *bytes, file) != *bytes) fail(name);
    fclose(file);
    return at;
}

void machine_file_free(uint8_t *file, size_t bytes) { munmap(file, bytes + 1); }

static void out(machine *m, uint32_t port, uint8_t bytes, uint32_t value) {
    board_reply reply;
    machine_step(m, &(board_event){.what = BOARD_PORT, .kind = BOARD_WRITE, .addr = port, .bytes = bytes, .value = value}, &reply);
}

static void write_config(machine *m, uint32_t function, uint32_t offset, uint8_t value) {
    out(m, CONFIG_ADDRESS, 4, CONFIG_ENABLE | function << 8 | (offset & ~3u));
    out(m, CONFIG_DATA + (offset & 3), 1, value);
}

/* What firmware finds set by the board's maker, and a reset takes back: the whole ROM answers, all memory is decoded, in
 * rows of 8 MiB and the rest in the last. */
static void prepare_registers(machine *m) {
    uint32_t end = (m->options.mib + ROW_MIB - 1) / ROW_MIB;
    write_config(m, SOUTH_BRIDGE, XBCS, XBCS_BIOS);
    for (uint32_t row = 0; row < ROWS; row++) write_config(m, HOST_BRIDGE, DRB0 + row, (uint8_t)(row + 1 < ROWS && row + 1 < end ? row + 1 : end));
    if (!m->options.bochs_bios) return;
    write_config(m, IDE, COMMAND, 0x01);
    write_config(m, IDE, IDETIM_HIGH, 0x80);
}

/* What the battery keeps: how much memory there is, in KiB from 1 MiB on and in 64 KiB from 16 MiB on. */
static void prepare_cmos(machine *m) {
    uint32_t above_1 = m->options.mib > CMOS_MOST_MIB ? UINT16_MAX : (m->options.mib - 1) * 1024, above_16 = m->options.mib > 16 ? (m->options.mib - 16) * 16 : 0;
    const struct {
        uint8_t address, value;
    } bytes[] = {
        {0x15, 0x80}, {0x16, 0x02}, /* 640 KiB below */
        {0x17, (uint8_t)above_1}, {0x18, (uint8_t)(above_1 >> 8)},
        {0x30, (uint8_t)above_1}, {0x31, (uint8_t)(above_1 >> 8)},
        {0x34, (uint8_t)above_16}, {0x35, (uint8_t)(above_16 >> 8)},
        {0x38, 0x01}, {0x3D, 0x02}, /* boots from the disk, without a check of floppies */
    };
    for (size_t k = 0; k < sizeof bytes / sizeof *bytes; k++) {
        out(m, CMOS_INDEX, 1, bytes[k].address);
        out(m, CMOS_DATA, 1, bytes[k].value);
    }
}

static void reset_devices(machine *m) {
    for (EACH_DEVICE(d))
        if (d->reset) d->reset(m);
}

/* A board as it is when its processor starts. */
static void power_on(machine *m) {
    const options *o = &m->options;
    size_t disk_bytes = 0;
    board_card cards[MOST_CARDS] = {0};
    size_t card_count = cards_list(o, cards);
    uint8_t no_disk = 0, *disk = o->disk ? machine_file(o->disk, &disk_bytes) : &no_disk;
    m->memory = machine_pages((size_t)o->mib << 20);
    uint32_t status = board_open(&m->board, o->mib, cards, card_count, m->rom, m->rom_bytes, disk, disk_bytes);
    if (status != BOARD_OK) {
        fprintf(stderr, "monitor: board_open: %s\n", board_status_text(status));
        exit(1);
    }
    record_open(&m->record, o, m->rom, m->rom_bytes, disk, disk_bytes);
    if (o->disk) machine_file_free(disk, disk_bytes);
    cards_fill(m);
    prepare_registers(m);
    if (o->fw_cfg) fw_cfg_reset(m);
    else prepare_cmos(m);
    if (o->keyboard) keyboard_reset(m);
    reset_devices(m);
    clock_start(m);
}

void machine_open(machine *m, const options *wanted) {
    memset(m, 0, sizeof *m);
    m->options = *wanted;
    m->rom = machine_file(wanted->rom, &m->rom_bytes);
    if (wanted->load) machine_load(m);
    else power_on(m);
    m->explain.has_keyboard = m->options.keyboard;
    if (m->options.virtio) virtio_open(&m->virtio, m->options.virtio);
    if (m->options.keep_disk) kept_disk_open(m);
    slots_follow_map(m);
    console_open();
}

/* What stands after a step. */
static void see(machine *m, const board_reply *reply) {
    m->interrupt = reply->interrupt;
    m->serial_room = reply->serial_room;
    if (reply->reset > m->reset) m->reset = reply->reset;
    if (reply->has_sent) console_put(reply->sent);
    record_line_4(&m->record, reply->irq4);
    if (reply->version != m->map_version && m->counts.maps) slots_follow_map(m);
}

static _Noreturn void refused(const board_event *e, uint32_t status) {
    fprintf(stderr, "monitor: board_step: status %u of what %u kind %u at %08X bytes %u value %llX\n", status, e->what, e->kind,
            e->addr, e->bytes, (unsigned long long)e->value);
    exit(1);
}

static uint64_t begin_call(machine *m) {
    m->counts.calls++;
    return m->options.timing ? host_time() : 0;
}

static void end_call(machine *m, uint64_t from) {
    if (m->options.timing) m->counts.step_time += host_time() - from;
}

/* What follows each step: counts, log, and what the processor is to see of it. */
static void stepped(machine *m, const board_event *event, const board_reply *reply) {
    m->counts.steps++;
    record_step(&m->record, event, reply);
    if (m->options.explain) explain_step(&m->explain, event, reply);
    if (m->options.keep_disk && m->kept_disk.file) kept_disk_see(m, event, 1);
    see(m, reply);
}

void machine_step(machine *m, const board_event *event, board_reply *reply) {
    uint64_t from = begin_call(m);
    uint32_t status = board_step(&m->board, event, reply);
    end_call(m, from);
    if (status != BOARD_OK) refused(event, status);
    stepped(m, event, reply);
}

size_t machine_steps(machine *m, uint8_t kind, uint16_t port, uint8_t bytes, uint32_t *values, size_t count) {
    board_reply reply;
    size_t done = 0;
    uint64_t from = begin_call(m);
    uint32_t status = kind == BOARD_READ ? board_in_many(&m->board, port, bytes, values, count, &done, &reply)
                                         : board_out_many(&m->board, port, bytes, values, count, &done, &reply);
    end_call(m, from);
    board_event event = {.what = BOARD_PORT, .kind = kind, .addr = port, .bytes = bytes, .value = *values};
    if (status != BOARD_OK) refused(&event, status);
    m->counts.steps += done;
    if (m->options.keep_disk) kept_disk_see(m, &event, done);
    see(m, &reply);
    return done;
}

void machine_second(machine *m) {
    board_event event;
    board_reply reply;
    if (board_second(&m->board, &event, &reply) != BOARD_OK) return;
    m->counts.calls++;
    stepped(m, &event, &reply);
}

uint32_t machine_take_reset(machine *m) {
    uint32_t reset = m->reset;
    m->reset = BOARD_NO_RESET;
    m->counts.resets[reset]++;
    if (reset == BOARD_HARD_RESET) {
        prepare_registers(m);
        if (m->options.keyboard) keyboard_reset(m);
        if (m->options.virtio) virtio_reset(m);
        if (m->options.fw_cfg) fw_cfg_reset(m);
        reset_devices(m);
        clock_plan(m);
    }
    return reset;
}

uint8_t machine_acknowledge(machine *m) {
    board_reply reply;
    machine_step(m, &(board_event){.what = BOARD_ACK}, &reply);
    m->counts.interrupts++;
    return (uint8_t)reply.value;
}

void machine_tell(const machine *m, const char *why) {
    const machine_counts *c = &m->counts;
    fprintf(stderr, "\nmonitor: %s after %.3f s of the guest's time\n", why, (double)processor_time() / NANOSECONDS);
    fprintf(stderr, "exits: %llu ports, %llu memory, %llu interrupts taken; %llu disk words, %llu maps, %llu soft and %llu hard resets\n",
            (unsigned long long)c->ports, (unsigned long long)c->memory, (unsigned long long)c->interrupts, (unsigned long long)c->disk_words,
            (unsigned long long)c->maps, (unsigned long long)c->resets[BOARD_SOFT_RESET], (unsigned long long)c->resets[BOARD_HARD_RESET]);
    fprintf(stderr, "board: %llu steps in %llu calls", (unsigned long long)c->steps, (unsigned long long)c->calls);
    if (m->options.timing && c->steps) fprintf(stderr, ", %.0f ns each", (double)c->step_time / (double)c->steps);
    fprintf(stderr, "\n");
}

void machine_close(machine *m, const char *why) {
    fflush(stdout);
    if (m->options.keep_disk) kept_disk_close(m);
    record_close(&m->record);
    if (m->options.explain) explain_close(&m->explain);
    machine_tell(m, why);
    board_close(&m->board);
}
