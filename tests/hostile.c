/* A processor for examples/monitor that asks for what a hostile guest could: ports and memory of any address and
 * length, registers that move ranges over one another and past the memory, virtio rings and descriptors of random bytes; and
 * files of saved guests with bytes changed, of which the sum is right, so that what reads them is reached.
 *
 *   hostile SEED STEPS FOLDER      FOLDER has disk and virtio, files of whole sectors; saved guests are written there
 *
 * It is built with AddressSanitizer and UBSan, with the guest's memory and the files in the heap (guarded_mmap). Exit
 * status 0: no fault, all slots lie in the guest's memory or the ROM, and each file was taken, or refused with a line
 * and status 1; 2 with a line where it was otherwise. */
#define _POSIX_C_SOURCE 200809L
#include "machine.h"
#include <fcntl.h>
#include <stdio.h>
#include <stdlib.h>
#include <string.h>
#include <sys/wait.h>
#include <unistd.h>

enum { MIB = 4, VIRTIO_PORTS = 0xC000, DMA_PORTS = 0xC100, ROOM = 1 << 16, STATE_BYTES = 64, STEPS_A_SAVE = 1000, STEPS_OF_LOADED = 300 };
enum { HEAD_BYTES = 64, SUM_AT = 56, PARTS_AT = 16, PARTS = 5, MOST_CHANGES = 4, BY_SIGNAL = 100 };
enum { QUEUE_PAGE = 8, QUEUE_NOTIFY = 16, STATUS = 18, RING = 128 }; /* registers of the virtio card, and its ring */

const uint32_t processor_kind = PROCESSOR_KVM;
static machine m;
static uint64_t now, state;
static char saved[ROOM], changed[ROOM], told[ROOM], disk[ROOM], virtio[ROOM];

static uint64_t random_below(uint64_t limit) {
    state ^= state << 13, state ^= state >> 7, state ^= state << 17;
    return limit ? state % limit : state;
}
#define ONE_OF(list) (list[random_below(sizeof list / sizeof *list)])

static _Noreturn void fail(const char *what) {
    fprintf(stderr, "hostile: %s\n", what);
    _exit(2);
}

/* ---- what a processor gives the monitor */

uint64_t processor_time(void) { return m.loaded_at + now; }

void processor_wrote(uint64_t addr, uint64_t bytes) {
    if (!board_is_installed(m.options.mib, addr, bytes)) fail("bytes were written past the memory");
}

size_t processor_bytes(void) { return STATE_BYTES; }
void processor_save(uint8_t *into) { memset(into, 0x5A, STATE_BYTES); }

/* In the place of mmap and munmap, so that what lies beside is poisoned. */
void *guarded_mmap(void *at, size_t bytes, int protection, int flags, int file, off_t offset);
int guarded_munmap(void *at, size_t bytes);

void *guarded_mmap(void *at, size_t bytes, int protection, int flags, int file, off_t offset) {
    (void)at, (void)protection, (void)flags, (void)file, (void)offset;
    void *made = NULL;
    if (posix_memalign(&made, GUEST_PAGE, bytes)) fail("no memory");
    return memset(made, 0, bytes);
}

int guarded_munmap(void *at, size_t bytes) {
    (void)bytes;
    free(at);
    return 0;
}

/* ---- what it does */

static uint64_t random_address(void) {
    static const uint64_t places[] = {
        0, 0x9F000, 0xA0000, 0xBFFF0, 0xC0000, 0xF0000, 0xFFFF0, MIB << 20, (MIB << 20) - 9,
        0xE0000000, 0xFFF80000, 0xFFFFFFF0, 0x100000000, 1ull << 40, UINT64_MAX - 40,
    };
    return random_below(4) ? ONE_OF(places) + random_below(48) : random_below(0) >> random_below(64);
}

static uint16_t random_port(void) {
    static const uint16_t places[] = {
        0x20, 0x21, 0xA0, 0xA1, 0x40, 0x43, 0x60, 0x64, 0x61, 0x70, 0x71, 0x92, 0x1F0, 0x1F2, 0x1F6, 0x1F7, 0x3F6,
        0x3F8, 0x3FC, 0x402, 0x4D0, 0x510, 0x511, 0xCF8, 0xCF9, 0xCFC, 0xCFE, VIRTIO_PORTS, VIRTIO_PORTS + 14,
        VIRTIO_PORTS + 60, DMA_PORTS, DMA_PORTS + 4, 0x600, 0x604, 0x608, 0xFFFE,
    };
    return (uint16_t)(random_below(8) ? ONE_OF(places) + random_below(4) : random_below(0x10000));
}

static unsigned random_width(void) { return 1u << random_below(3); }

static uint32_t random_value(unsigned bytes) {
    return (uint32_t)(random_below(0) & (bytes < 4 ? (1ull << 8 * bytes) - 1 : UINT32_MAX));
}

static void use_port(void) {
    unsigned bytes = random_width();
    if (random_below(2)) (void)machine_in(&m, random_port(), bytes);
    else machine_out(&m, random_port(), bytes, random_value(bytes));
}

static void use_string(void) {
    static uint8_t data[GUEST_PAGE];
    unsigned bytes = random_width();
    uint16_t port = random_below(2) ? 0x1F0 : random_port();
    uint8_t kind = random_below(2) ? BOARD_READ : BOARD_WRITE;
    size_t count = 1 + random_below(sizeof data / bytes), done = 0;
    while (done < count && !m.reset) {
        size_t some = machine_string(&m, kind, port, bytes, data + done * bytes, count - done);
        if (some == 0 || some > count - done) fail("a string did none of its values, or more");
        done += some;
    }
}

static void use_memory(void) {
    static const size_t lengths[] = {1, 2, 3, 4, 5, 6, 7, 8, 16, 64, 4096};
    size_t bytes = ONE_OF(lengths);
    uint8_t *data = malloc(bytes);
    if (!data) fail("no memory");
    memset(data, (int)random_below(256), bytes);
    machine_memory(&m, random_below(2) ? BOARD_READ : BOARD_WRITE, random_address(), bytes, data);
    free(data);
}

static void write_register(uint32_t function, uint32_t offset, uint32_t value) {
    machine_out(&m, 0xCF8, 4, 0x80000000u | function << 8 | (offset & 0xFC));
    machine_out(&m, (uint16_t)(0xCFC + offset % 4), 1, value & 0xFF);
}

/* A range that is moved, opened, shut or drawn over another. */
static void move_range(void) {
    static const struct { uint8_t function, offset, count; } registers[] = {
        {0, 0x59, 7}, {0, 0x60, 8}, {0, 0x68, 1}, {0, 0x72, 1}, {8, 0x4E, 2}, /* PAM, DRB, FDHC, SMRAM, XBCS */
        {9, 0x04, 1}, {9, 0x41, 1}, {24, 0x04, 1}, {24, 0x10, 4}, /* commands, IDETIM, and the card's base */
    };
    size_t k = random_below(sizeof registers / sizeof *registers);
    uint32_t more = (uint32_t)random_below(registers[k].count);
    write_register(registers[k].function, registers[k].offset + more, random_value(1));
}

static void place_virtio(void) {
    write_register(24, 0x04, 0x07);
    write_register(24, 0x10, 0x01);
    write_register(24, 0x11, VIRTIO_PORTS >> 8);
}

static void put(uint64_t at, uint64_t value, size_t bytes) {
    if (board_is_installed(m.options.mib, at, bytes)) memcpy(m.memory + at, &value, bytes);
}

/* A ring of the card with random descriptors, and a notice of it; every other one is a chain as a driver makes it. */
static void use_ring(void) {
    uint64_t page = random_below(8) ? 1 + random_below(1000) : random_below(1ull << 32), ring = page * GUEST_PAGE;
    bool is_sound = random_below(2);
    place_virtio();
    if (random_below(4) == 0) machine_out(&m, VIRTIO_PORTS + STATUS, 1, 0);
    machine_out(&m, VIRTIO_PORTS + QUEUE_PAGE, 4, (uint32_t)page);
    for (uint64_t k = 0; k < RING; k++) {
        uint64_t data = 0x200000 + k * GUEST_PAGE;
        static const uint32_t lengths[] = {0, 1, 16, 512, 4096, 0x7FFFFFFF, UINT32_MAX};
        put(ring + 16 * k, is_sound && random_below(16) ? data : random_address(), 8);
        put(ring + 16 * k + 8, is_sound && random_below(16) ? 16 : ONE_OF(lengths), 4);
        put(ring + 16 * k + 12, random_below(4), 2);
        put(ring + 16 * k + 14, random_below(8) ? (k + 1) % RING : random_below(0), 2);
        put(data, random_below(12), 4);
        put(data + 8, random_below(8) ? random_below(64) : random_below(0), 8);
    }
    put(ring + 16 * RING + 2, random_below(4) ? random_below(RING) : random_below(0), 2);
    machine_out(&m, VIRTIO_PORTS + QUEUE_NOTIFY, 2, 0);
}

/* A transfer of the disk's bus master by a table of random descriptors. */
static void use_dma(void) {
    uint64_t table = random_address() & 0xFFFFFFFC;
    write_register(9, 0x04, 0x05);
    write_register(9, 0x41, 0x80);
    write_register(9, 0x21, DMA_PORTS >> 8);
    for (uint32_t k = 0; k < 4; k++) {
        put(table + 8 * k, random_address(), 4);
        put(table + 8 * k + 4, random_below(2) ? random_below(2048) : random_value(4), 4);
    }
    machine_out(&m, DMA_PORTS + 4, 4, (uint32_t)table);
    for (uint16_t port = 0x1F2; port < 0x1F6; port++) machine_out(&m, port, 1, port == 0x1F2 ? random_value(1) % 8 : 0);
    machine_out(&m, 0x1F6, 1, 0xE0);
    machine_out(&m, 0x1F7, 1, random_below(2) ? 0xC8 : 0xCA);
    machine_out(&m, DMA_PORTS, 1, random_value(1));
}

/* The virtio card's registers of virtio 1.0, behind its base in memory, with queues at random addresses. */
static void use_modern(void) {
    uint32_t base = 0xF0000000;
    place_virtio();
    for (uint32_t k = 0; k < 4; k++) write_register(24, 0x14 + k, base >> 8 * k);
    for (uint32_t k = 0; k < 20; k++) {
        static const uint16_t places[] = {0, 8, 12, 20, 22, 24, 28, 32, 36, 40, 44, 48, 52, 0x100, 0x200, 0x300};
        uint64_t value = random_below(2) ? random_below(4) : random_address();
        machine_memory(&m, random_below(4) ? BOARD_WRITE : BOARD_READ, base + ONE_OF(places), random_width(), (uint8_t *)&value);
    }
    for (uint32_t k = 0; k < 4; k++) write_register(24, 0x84 + (uint32_t)random_below(20), random_value(1));
}

/* Each slot's bytes lie in the guest's memory or in the ROM, and no two overlap. */
static void check_slots(void) {
    slots_follow_map(&m);
    for (size_t k = 0; k < m.slot_count; k++) {
        const memory_slot *slot = &m.slots[k];
        size_t bytes = (size_t)slot->last - slot->first + 1;
        bool in_memory = slot->host >= m.memory && slot->host + bytes <= m.memory + ((size_t)m.options.mib << 20);
        bool in_rom = slot->host >= m.rom && slot->host + bytes <= m.rom + m.rom_bytes;
        if (slot->last < slot->first || !(in_memory || in_rom)) fail("a slot lies outside memory and ROM");
        if (in_rom && !slot->read_only) fail("a slot writes the ROM");
        for (size_t j = 0; j < k; j++)
            if (m.slots[j].first <= slot->last && slot->first <= m.slots[j].last) fail("two slots overlap");
    }
}

static void step(void) {
    static void (*const what[])(void) = {
        use_port, use_port, use_port, use_string, use_memory, use_memory, move_range, use_ring, use_dma, use_modern,
    };
    ONE_OF(what)();
    now += random_below(2000000);
    if (random_below(4) == 0) clock_runs_to(&m, processor_time());
    if (random_below(8) == 0) check_slots();
    if (m.interrupt && random_below(2)) (void)machine_acknowledge(&m);
    if (m.reset) (void)machine_take_reset(&m);
}

/* ---- files of saved guests */

static uint8_t *file_of(const char *name, size_t *bytes) {
    FILE *file = fopen(name, "rb");
    if (!file || fseek(file, 0, SEEK_END)) fail("no saved guest");
    *bytes = (size_t)ftell(file);
    uint8_t *at = malloc(*bytes + 1);
    rewind(file);
    if (!at || fread(at, 1, *bytes, file) != *bytes) fail("no saved guest");
    fclose(file);
    return at;
}

/* Some bytes are changed, mostly of the small parts, or the end is cut; then the sum is made right. */
static void change_file(void) {
    size_t bytes;
    uint8_t *at = file_of(saved, &bytes);
    uint64_t machine_bytes, board_bytes, sum = 0xCBF29CE484222325u;
    memcpy(&machine_bytes, at + PARTS_AT, 8), memcpy(&board_bytes, at + PARTS_AT + 8, 8);
    for (uint64_t k = 1 + random_below(MOST_CHANGES); k > 0; k--) {
        uint64_t first[] = {0, HEAD_BYTES, HEAD_BYTES + machine_bytes, HEAD_BYTES + machine_bytes, bytes - GUEST_PAGE};
        uint64_t room[] = {HEAD_BYTES, machine_bytes, 64, board_bytes, GUEST_PAGE};
        size_t part = random_below(sizeof first / sizeof *first);
        at[(first[part] + random_below(room[part])) % bytes] = (uint8_t)random_below(256);
    }
    if (random_below(16) == 0) bytes -= random_below(bytes);
    for (size_t k = HEAD_BYTES; k < bytes; k++) sum = (sum ^ at[k]) * 0x100000001B3u;
    if (bytes >= HEAD_BYTES && random_below(32)) memcpy(at + SUM_AT, &sum, 8);
    FILE *file = fopen(changed, "wb");
    if (!file || fwrite(at, 1, bytes, file) != bytes || fclose(file)) fail("the changed file");
    free(at);
}

/* The guest of the changed file, which goes on for some steps. */
static _Noreturn void run_changed(void) {
    options wanted = m.options;
    int lines = open(told, O_WRONLY | O_CREAT | O_TRUNC, 0600);
    wanted.load = changed, wanted.save = NULL;
    if (lines < 0 || dup2(lines, STDERR_FILENO) < 0) fail("no file for lines");
    now = 0;
    machine_open(&m, &wanted);
    for (int k = 0; k < STEPS_OF_LOADED; k++) step();
    _exit(0);
}

static void try_changed(void) {
    int status;
    size_t bytes;
    fflush(NULL);
    pid_t child = fork();
    if (child == 0) run_changed();
    if (child < 0 || waitpid(child, &status, 0) != child) fail("no process");
    uint8_t *lines = file_of(told, &bytes);
    bool is_refused = WIFEXITED(status) && WEXITSTATUS(status) == 1 && bytes > 0 && lines[bytes - 1] == '\n';
    if (!is_refused && !(WIFEXITED(status) && WEXITSTATUS(status) == 0)) {
        fprintf(stderr, "%.*s", (int)bytes, (const char *)lines);
        fail("a changed file of a saved guest had no orderly end: the file is `changed`");
    }
    free(lines);
    if (is_refused) puts("hostile: refused");
}

int main(int count, char **words) {
    if (count != 4) return 2;
    state = strtoull(words[1], NULL, 10) * 0x9E3779B97F4A7C15u + 1;
    snprintf(saved, ROOM, "%s/saved", words[3]), snprintf(changed, ROOM, "%s/changed", words[3]);
    snprintf(told, ROOM, "%s/told", words[3]), snprintf(disk, ROOM, "%s/disk", words[3]);
    snprintf(virtio, ROOM, "%s/virtio", words[3]);
    options wanted = {.rom = "/usr/share/seabios/bios.bin", .mib = MIB, .speed = 1};
    wanted.disk = disk, wanted.virtio = virtio, wanted.save = saved;
    wanted.keyboard = random_below(2), wanted.fw_cfg = random_below(2), wanted.bochs_bios = random_below(2);
    for (device *d = device_first(); d; d = d->next) d->is_used = random_below(2);
    machine_open(&m, &wanted);
    for (long k = 1; k <= strtol(words[2], NULL, 10); k++) {
        step();
        if (k % STEPS_A_SAVE) continue;
        machine_save(&m);
        for (int j = 0; j < 8; j++) change_file(), try_changed();
    }
    machine_close(&m, "ended");
    return 0;
}
