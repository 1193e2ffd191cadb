/* A guest that runs, as a file: --save FILE and --load FILE. After a head stand five parts: what of the machine stands
 * beside board and processor, the board as board_save gives it, the processor's state, the memory by its pages, of
 * which one of zeros is a byte, and what devices keep. The ROM, those of cards and the file of a virtio card are not in
 * it: ROMs have to be the same, by their sums, and the file as it was. The parts of machine and processor are read by
 * the monitor that wrote them alone. */
#include "machine.h"
#include <errno.h>
#include <stdio.h>
#include <stdlib.h>
#include <string.h>

enum { VERSION = 2, MOST_NAME = 4096 };
enum { MACHINE, BOARD, PROCESSOR, MEMORY, DEVICES, PARTS };
#define MOST_LAG (3600 * NANOSECONDS)    /* an hour, as of a monitor that was stopped */
#define MOST_TIME (1000000 * MOST_LAG)   /* of a guest, some hundred years */
static const char mark[8] = "MONITOR";

typedef struct head {
    char mark[8];
    uint32_t version;
    uint32_t processor; /* processor_kind */
    uint64_t bytes[PARTS];
    uint64_t sum; /* of the parts */
} head;

typedef struct saved_machine {
    uint64_t now, time, pulses, second;
    uint64_t rom_sum, card_roms_sum;
    uint32_t mib, speed, identify;
    bool interrupt, serial_room, has_disk, has_keyboard, has_fw_cfg, has_virtio, text, bochs_bios;
    keyboard keyboard;
    fw_cfg fw_cfg;
    virtio_blk virtio; /* without its file */
    kept_disk kept_disk; /* the same */
} saved_machine;

typedef struct stretch {
    uint8_t *at;
    uint64_t bytes;
} stretch;

/* FNV-1a. */
static uint64_t sum_of(uint64_t sum, const uint8_t *at, uint64_t bytes) {
    for (uint64_t k = 0; k < bytes; k++) sum = (sum ^ at[k]) * 0x100000001B3u;
    return sum;
}
#define FIRST_SUM 0xCBF29CE484222325u

static uint8_t *room(size_t bytes) {
    uint8_t *at = malloc(bytes + 1);
    if (at) return at;
    perror("monitor: memory");
    exit(1);
}

/* That of the ROM, and of those of the cards. */
static uint64_t rom_sum(const machine *m) { return sum_of(FIRST_SUM, m->rom, m->rom_bytes); }

static uint64_t card_roms_sum(const options *o) {
    uint64_t sum = FIRST_SUM + o->rom_cards;
    for (uint32_t k = 0; k < o->rom_cards; k++) {
        size_t bytes;
        uint8_t *rom = machine_file(o->card_rom[k], &bytes);
        sum = sum_of(sum, rom, bytes);
        machine_file_free(rom, bytes);
    }
    return sum;
}

/* ---- the memory */

static bool is_zeros(const uint8_t *page) {
    static const uint8_t zeros[GUEST_PAGE];
    return !memcmp(page, zeros, GUEST_PAGE);
}

/* The pages, each after a byte: 1, or 0 for zeros that are left out. */
static stretch write_memory(const machine *m) {
    size_t pages = ((size_t)m->options.mib << 20) / GUEST_PAGE;
    stretch into = {room(pages * (1 + GUEST_PAGE)), 0};
    for (size_t k = 0; k < pages; k++) {
        const uint8_t *page = m->memory + k * GUEST_PAGE;
        uint8_t there = !is_zeros(page);
        into.at[into.bytes++] = there;
        if (there) memcpy(into.at + into.bytes, page, GUEST_PAGE);
        if (there) into.bytes += GUEST_PAGE;
    }
    return into;
}

/* Whether these are the pages of a memory of this size, which are put there. */
static bool read_memory(uint8_t *memory, size_t pages, stretch from) {
    for (size_t k = 0; k < pages; k++) {
        if (from.bytes == 0 || *from.at > 1) return false;
        bool there = *from.at++;
        from.bytes--;
        if (there && from.bytes < GUEST_PAGE) return false;
        if (!there) continue;
        memcpy(memory + k * GUEST_PAGE, from.at, GUEST_PAGE);
        from.at += GUEST_PAGE;
        from.bytes -= GUEST_PAGE;
    }
    return from.bytes == 0;
}

/* ---- the machine */

static saved_machine machine_of(const machine *m) {
    const options *o = &m->options;
    saved_machine s;
    memset(&s, 0, sizeof s); /* what lies between the fields too */
    s.now = processor_time(), s.time = m->time, s.pulses = m->pulses, s.second = m->second;
    s.rom_sum = rom_sum(m), s.card_roms_sum = card_roms_sum(o);
    s.mib = o->mib, s.speed = o->speed, s.identify = m->identify;
    s.interrupt = m->interrupt, s.serial_room = m->serial_room;
    s.has_disk = o->disk, s.has_keyboard = o->keyboard, s.has_fw_cfg = o->fw_cfg, s.has_virtio = o->virtio, s.text = o->text, s.bochs_bios = o->bochs_bios;
    s.keyboard = m->keyboard, s.fw_cfg = m->fw_cfg, s.virtio = m->virtio;
    s.kept_disk = m->kept_disk;
    s.virtio.file = s.kept_disk.file = 0;
    return s;
}

/* Pulses and seconds are those of the time until which the clocks ran, and that is not long before the guest was saved:
 * it goes on with the pulses of the time between. */
static bool is_sound_time(const saved_machine *s) {
    if (s->now > MOST_TIME || s->time > s->now || s->now - s->time > MOST_LAG) return false;
    return s->pulses == clock_pulses_at(s->time) && s->second == s->time / NANOSECONDS;
}

static bool is_sound(const saved_machine *s) {
    if (s->mib < 1 || s->mib > MOST_MIB || s->speed < 1 || !is_sound_time(s)) return false;
    if (s->keyboard.count > sizeof s->keyboard.queue || s->fw_cfg.bytes > sizeof s->fw_cfg.item) return false;
    return s->kept_disk.words < 256; /* of a sector, as far as it is written */
}

/* The machine goes on as it was; names of files are those of the command line. */
static void take_machine(machine *m, const saved_machine *s) {
    options *o = &m->options;
    m->loaded_at = s->now, m->time = s->time, m->pulses = s->pulses, m->second = s->second;
    m->interrupt = s->interrupt, m->serial_room = s->serial_room, m->identify = s->identify;
    m->keyboard = s->keyboard, m->fw_cfg = s->fw_cfg, m->virtio = s->virtio, m->kept_disk = s->kept_disk;
    o->mib = s->mib, o->speed = s->speed, o->keyboard = s->has_keyboard, o->fw_cfg = s->has_fw_cfg, o->text = s->text, o->bochs_bios = s->bochs_bios;
    o->disk = s->has_disk ? o->load : NULL; /* which has it */
}

/* ---- saving */

static stretch write_board(machine *m) {
    size_t bytes = 0;
    uint8_t none = 0;
    board_save(&m->board, &none, 0, &bytes);
    stretch into = {room(bytes), bytes};
    uint32_t status = board_save(&m->board, into.at, bytes, &bytes);
    if (status != BOARD_OK) {
        fprintf(stderr, "monitor: board_save: %s\n", board_status_text(status));
        free(into.at);
        into.at = NULL;
    }
    return into;
}

static bool write_file(const char *name, const head *h, const stretch *part) {
    char beside[MOST_NAME];
    if ((size_t)snprintf(beside, sizeof beside, "%s.new", name) >= sizeof beside) return false;
    FILE *file = fopen(beside, "wb");
    bool done = file && fwrite(h, sizeof *h, 1, file) == 1;
    for (size_t k = 0; k < PARTS && done; k++) done = fwrite(part[k].at, 1, part[k].bytes, file) == part[k].bytes;
    if (file && fclose(file)) done = false;
    return done && !rename(beside, name);
}

/* All parts in one file, which takes the place of an older one only when it is whole. */
static void save_parts(machine *m, const stretch *part) {
    head h = {.version = VERSION, .processor = processor_kind, .sum = FIRST_SUM};
    uint64_t bytes = sizeof h;
    memcpy(h.mark, mark, sizeof mark);
    for (size_t k = 0; k < PARTS; k++) {
        h.bytes[k] = part[k].bytes;
        h.sum = sum_of(h.sum, part[k].at, part[k].bytes);
        bytes += part[k].bytes;
    }
    if (write_file(m->options.save, &h, part)) fprintf(stderr, "\nmonitor: saved in %s: %llu bytes, of which the board has %llu\n", m->options.save, (unsigned long long)bytes, (unsigned long long)part[BOARD].bytes);
    else fprintf(stderr, "\nmonitor: %s: %s\n", m->options.save, strerror(errno));
}

void machine_save(machine *m) {
    if (!m->options.save) {
        fprintf(stderr, "\nmonitor: nothing is saved without --save FILE\n");
        return;
    }
    fflush(stdout);
    saved_machine s = machine_of(m);
    size_t bytes = processor_bytes(), kept = devices_bytes();
    stretch part[PARTS] = {
        {(uint8_t *)&s, sizeof s}, write_board(m), {room(bytes), bytes}, write_memory(m), {room(kept), kept},
    };
    processor_save(part[PROCESSOR].at);
    devices_save(part[DEVICES].at);
    if (part[BOARD].at) save_parts(m, part);
    for (size_t k = BOARD; k < PARTS; k++) free(part[k].at);
}

/* ---- loading */

static _Noreturn void refuse(const char *name, const char *why) {
    fprintf(stderr, "monitor: %s: %s\n", name, why);
    exit(1);
}

/* Cuts the parts of a file: whether they fill it exactly and have the sum. */
static bool cut(const head *h, uint8_t *at, uint64_t bytes, stretch *part) {
    uint64_t sum = FIRST_SUM;
    for (size_t k = 0; k < PARTS; k++) {
        if (h->bytes[k] > bytes) return false;
        part[k] = (stretch){at, h->bytes[k]};
        sum = sum_of(sum, at, h->bytes[k]);
        at += h->bytes[k];
        bytes -= h->bytes[k];
    }
    return bytes == 0 && sum == h->sum;
}

static void read_head(const char *name, uint8_t *file, size_t bytes, stretch *part) {
    head h;
    if (bytes < sizeof h || memcmp(file, mark, sizeof mark)) refuse(name, "no saved guest");
    memcpy(&h, file, sizeof h);
    if (h.version != VERSION) refuse(name, "a guest that another version of the monitor saved");
    if (h.processor != processor_kind) refuse(name, "a guest of another processor");
    if (!cut(&h, file + sizeof h, bytes - sizeof h, part)) refuse(name, "a saved guest that is cut short or damaged");
}

#define FLAG(field) offsetof(saved_machine, field)

/* Whether each byte that is a flag is 0 or 1: of another no bool may be read. */
static bool are_flags(const uint8_t *at) {
    static const size_t places[] = {
        FLAG(interrupt), FLAG(serial_room), FLAG(has_disk), FLAG(has_keyboard), FLAG(has_fw_cfg), FLAG(has_virtio),
        FLAG(text), FLAG(bochs_bios), FLAG(keyboard.keyboard_awaits), FLAG(keyboard.was_command), FLAG(keyboard.tested),
        FLAG(keyboard.line), FLAG(virtio.line), FLAG(virtio.broken),
    };
    for (size_t k = 0; k < sizeof places / sizeof *places; k++)
        if (at[places[k]] > 1) return false;
    return true;
}

static void load_machine(machine *m, const char *name, stretch from) {
    saved_machine s;
    if (from.bytes != sizeof s) refuse(name, "a guest that another monitor saved");
    if (!are_flags(from.at)) refuse(name, "a saved guest that is damaged");
    memcpy(&s, from.at, sizeof s);
    if (!is_sound(&s)) refuse(name, "a saved guest that is damaged");
    if (s.rom_sum != rom_sum(m)) refuse(name, "a guest with another ROM (--rom)");
    if (s.card_roms_sum != card_roms_sum(&m->options)) refuse(name, "a guest with other expansion ROMs (--card rom=)");
    if (s.has_virtio && !m->options.virtio) refuse(name, "a guest with a virtio card: its file is wanted (--virtio)");
    if (!s.has_virtio && m->options.virtio) refuse(name, "a guest without a virtio card");
    take_machine(m, &s);
}

void machine_load(machine *m) {
    const char *name = m->options.load;
    stretch part[PARTS];
    size_t bytes;
    uint8_t *file = machine_file(name, &bytes);
    read_head(name, file, bytes, part);
    load_machine(m, name, part[MACHINE]);
    bool are_here = devices_load(part[DEVICES].at, part[DEVICES].bytes);
    if (!are_here) refuse(name, "a guest with devices that this monitor has not");
    uint32_t status = board_load(&m->board, part[BOARD].at, part[BOARD].bytes);
    if (status != BOARD_OK) refuse(name, board_status_text(status));
    m->memory = machine_pages((size_t)m->options.mib << 20);
    if (!read_memory(m->memory, ((size_t)m->options.mib << 20) / GUEST_PAGE, part[MEMORY])) refuse(name, "a saved guest whose memory is damaged");
    m->processor_bytes = part[PROCESSOR].bytes;
    uint8_t *state = room(m->processor_bytes);
    memcpy(state, part[PROCESSOR].at, m->processor_bytes);
    m->processor = state;
    machine_file_free(file, bytes);
    cards_fill(m); /* what board_save leaves out */
    clock_plan(m);
}
