/* --bus-master: the bus master of the first IDE channel (82371SB, 2.7; Programming Interface for Bus Master IDE
 * Controller) over the board's disk, which itself has PIO alone. BMIBA, at 20h of 01.1, places its ports. READ DMA and
 * WRITE DMA wait until the guest starts the bus master: then the drive gets READ SECTORS or WRITE SECTORS, without its
 * interrupts, and its words go between port 1F0h and where board_transfer_next says. At the end it asks for an
 * interrupt, as after DMA. */
#include "machine.h"
#include <string.h>

enum { CONFIG_ADDRESS = 0xCF8, CONFIG_DATA = 0xCFC, IDE_BMIBA = 0x20, IDE_COMMAND = 0x04 };
#define IDE_FUNCTION 0x80000900u /* 01.1 in CONFIG_ADDRESS */
enum { IS_IO = 0x01, BASE = 0xFFF0, PORTS = 16 };                      /* BMIBA */
enum { DECODES_PORTS = 0x01, IS_MASTER = 0x04 };                       /* the command of 01.1 */
enum { COMMAND = 0, STATUS = 2, TABLE = 4, TABLE_END = 8 };            /* of the ports, those of the first channel */
enum { START = 0x01, TO_MEMORY = 0x08 };                               /* the command */
enum { ACTIVE = 0x01, FAILED = 0x02, INTERRUPTED = 0x04, CAPABLE = 0x60 }; /* the status */
enum { READ_SECTORS = 0x20, WRITE_SECTORS = 0x30, READ_DMA = 0xC8, WRITE_DMA = 0xCA };
enum { NO_INTERRUPTS = 0x02, IN_RESET = 0x04 };                        /* device control */
enum { EXPANSION_ROM = 6 }; /* in the place of a base: no write changes one */
enum { BUSY = 0x80, DRIVE_1 = 0x10, AWAITS_WORDS = 0x58, MOST_SECTORS = 256, SECTOR = 512 };

static struct bus_master {
    uint32_t base, table; /* BMIBA and the table's address */
    uint8_t command, status;
    uint8_t waiting;      /* READ DMA or WRITE DMA, until the bus master is started, or 0 */
    uint8_t control;      /* what the guest wrote to device control */
} s;

static void reset(machine *m) {
    (void)m;
    s = (struct bus_master){0};
}

static void out(machine *m, uint32_t port, uint32_t value) {
    board_event event = {.what = BOARD_PORT, .kind = BOARD_WRITE, .addr = port, .bytes = 1, .value = value};
    board_reply reply;
    machine_step(m, &event, &reply);
}

/* The drive asks for no interrupt any more. */
static void take_request(machine *m) {
    board_reply reply;
    machine_step(m, &(board_event){.what = BOARD_PORT, .kind = BOARD_READ, .addr = DISK_COMMAND, .bytes = 1}, &reply);
}

/* The command of 01.1; CONFIG_ADDRESS is as it was afterwards. */
static uint8_t ide_command(machine *m) {
    board_reply before, reply;
    board_in(&m->board, CONFIG_ADDRESS, 4, &before);
    board_out(&m->board, CONFIG_ADDRESS, 4, IDE_FUNCTION | IDE_COMMAND, &reply);
    board_in(&m->board, CONFIG_DATA, 1, &reply);
    uint8_t command = (uint8_t)reply.value;
    board_out(&m->board, CONFIG_ADDRESS, 4, (uint32_t)before.value, &reply);
    return command;
}

/* ---- a transfer */

/* Bytes that lie where a part says, read or written as the bus master does. */
static void reach(machine *m, const board_part *part, uint32_t addr, uint8_t *data, uint32_t bytes, bool write) {
    bool is_memory = board_is_memory(part->target);
    bool is_rom = part->target == BOARD_ROM || (part->target == BOARD_CARD && part->base == EXPANSION_ROM);
    if (part->target == BOARD_CARD) {
        if (!write) memset(data, UINT8_MAX, bytes);
        if (!write) board_card_read(&m->board, part->unit, part->base, part->offset, data, bytes);
        else if (!is_rom) board_card_write(&m->board, part->unit, part->base, part->offset, data, bytes);
        return;
    }
    uint32_t kept = 0;
    for (uint32_t k = 0; k < bytes; k++) {
        bool is_kept = is_memory && board_is_installed(m->options.mib, addr + k, 1);
        kept += is_kept;
        if (write && is_kept) m->memory[addr + k] = data[k];
        if (write) continue;
        data[k] = is_rom ? m->rom[(part->offset + k) % m->rom_bytes] : is_kept ? m->memory[addr + k] : UINT8_MAX;
    }
    if (write && kept) processor_wrote(addr, kept);
}

static uint32_t doubleword(machine *m, const board_part *part, uint32_t addr) {
    uint8_t d[4];
    reach(m, part, addr, d, sizeof d, false);
    return d[0] | (uint32_t)d[1] << 8 | (uint32_t)d[2] << 16 | (uint32_t)d[3] << 24;
}

/* Words of the drive's data port, which lie in one sector. */
static void move_words(machine *m, uint8_t kind, uint8_t *data, size_t bytes) {
    for (size_t at = 0; at < bytes;) at += 2 * machine_string(m, kind, DISK_DATA, 2, data + at, (bytes - at) / 2);
}

static void move_piece(machine *m, const board_piece *p, bool to_memory) {
    uint8_t data[SECTOR];
    if (!to_memory) reach(m, &p->part[0], p->addr, data, p->bytes, false);
    move_words(m, to_memory ? BOARD_READ : BOARD_WRITE, data, p->bytes);
    if (to_memory) reach(m, &p->part[0], p->addr, data, p->bytes, true);
}

/* How many sectors from one on the disk has. */
static uint32_t readable_from(machine *m, uint32_t first, uint32_t most) {
    uint8_t sector[SECTOR];
    uint32_t count = 0;
    while (count < most && board_disk_read(&m->board, first + count, sector, SECTOR) == BOARD_OK) count++;
    return count;
}

/* The drive has its command, and words to move where it has taken it. Whether it asks for an interrupt at the end. */
static bool move_all(machine *m, bool to_memory) {
    uint32_t lba = task_file_sector(m), count = task_file(m, DISK_COUNT), sectors = count ? count : MOST_SECTORS;
    uint32_t readable = task_file_wants_words(m) ? readable_from(m, lba, sectors) : 0;
    board_transfer t;
    board_piece p = {0};
    if (board_transfer_begin(&t, s.table, lba & 0x0FFFFFFF, sectors, readable, to_memory) != BOARD_OK) return true;
    while (board_transfer_next(&m->board, &t, &p) == BOARD_OK && p.what != BOARD_ENDED) {
        if (p.what == BOARD_WORDS) move_piece(m, &p, to_memory);
        else board_transfer_region(&t, doubleword(m, &p.part[0], p.addr), doubleword(m, &p.part[1], p.addr + 4));
    }
    uint8_t status = p.end == BOARD_MISSING ? p.status | INTERRUPTED : p.status; /* the drive has ended with an error */
    s.command &= (uint8_t)~START;
    s.status = (uint8_t)((s.status & CAPABLE) | status);
    s.table = t.table;
    return status & INTERRUPTED;
}

/* Where the drive waits and the bus master is started, in the direction of the drive's command, all is done at once. */
static void start(machine *m) {
    bool to_memory = s.waiting == READ_DMA;
    if (!s.waiting || !(s.command & START) || to_memory != !!(s.command & TO_MEMORY)) return;
    if (!(ide_command(m) & IS_MASTER)) return;
    s.waiting = 0;
    out(m, DISK_STATUS, s.control | NO_INTERRUPTS);
    out(m, DISK_COMMAND, to_memory ? READ_SECTORS : WRITE_SECTORS);
    if (!move_all(m, to_memory)) take_request(m);
    out(m, DISK_STATUS, s.control);
}

/* ---- its registers */

static uint8_t read_register(uint32_t offset) {
    if (offset == COMMAND) return s.command;
    if (offset == STATUS) return s.status;
    return offset >= TABLE && offset < TABLE_END ? (uint8_t)(s.table >> 8 * (offset - TABLE)) : 0;
}

/* Of the status a 1 takes away what has happened. */
static void write_register(uint32_t offset, uint8_t value) {
    uint32_t at = 8 * (offset - TABLE);
    if (offset == COMMAND) s.command = value & (START | TO_MEMORY);
    uint8_t happened = s.status & (uint8_t)~value & (FAILED | INTERRUPTED);
    if (offset == STATUS) s.status = (uint8_t)((s.status & ACTIVE) | happened | (value & CAPABLE));
    if (offset >= TABLE && offset < TABLE_END) s.table = ((s.table & ~(0xFFu << at)) | (uint32_t)value << at) & ~3u;
}

static void use_ports(machine *m, port_cycle *c) {
    uint32_t offset = c->port - (s.base & BASE), value = 0;
    for (uint32_t k = 0; k < c->bytes; k++) {
        if (c->kind == BOARD_WRITE) write_register(offset + k, (uint8_t)(c->value >> 8 * k));
        else value |= (uint32_t)read_register(offset + k) << 8 * k;
    }
    if (c->kind == BOARD_READ) c->value = value;
    else start(m);
}

/* BMIBA. The 82371SB has zeros in bits 31 to 16; here they are kept, since SeaBIOS finds the size by them. */
static void use_bmiba(port_cycle *c) {
    uint32_t at = 8 * (c->port - CONFIG_DATA), ones = c->bytes < 4 ? (1u << 8 * c->bytes) - 1 : UINT32_MAX;
    if (c->kind == BOARD_WRITE) s.base = ((s.base & ~(ones << at)) | (c->value & ones) << at) & ~15u;
    else c->value = (s.base | IS_IO) >> at & ones;
}

static bool is_ours(machine *m, const port_cycle *c, const board_reply *reply) {
    uint32_t base = s.base & BASE;
    if (reply->part[0].target != BOARD_ABORT || !base || c->port < base || c->port - base >= PORTS) return false;
    return ide_command(m) & DECODES_PORTS;
}

/* A command of the drive that moves by DMA is not the board's disk's, which would refuse it. */
static bool take(machine *m, port_cycle *c) {
    if (c->kind != BOARD_WRITE) return false;
    if (c->port == DISK_STATUS) s.control = (uint8_t)c->value;
    if (c->port == DISK_STATUS && s.control & IN_RESET) s.waiting = 0;
    if (c->port != DISK_COMMAND) return false;
    s.waiting = 0;
    if (c->value != READ_DMA && c->value != WRITE_DMA) return false;
    if (s.control & IN_RESET || task_file(m, DISK_STATUS) & BUSY || task_file(m, DISK_DEVICE) & DRIVE_1) return false;
    take_request(m);
    s.waiting = (uint8_t)c->value;
    start(m);
    return true;
}

static void answer(machine *m, port_cycle *c, const board_reply *reply) {
    bool is_status = c->port == DISK_COMMAND || c->port == DISK_STATUS;
    if ((machine_config(m, c) & ~3u) == (IDE_FUNCTION | IDE_BMIBA)) use_bmiba(c);
    else if (is_ours(m, c, reply)) use_ports(m, c);
    else if (is_status && s.waiting && c->kind == BOARD_READ) c->value = AWAITS_WORDS;
}

/* DMA, multiword mode 2, in words of 120 ns (ATA/ATAPI-4). */
static void identify(uint32_t word, uint16_t *told) {
    if (word == 49) *told |= 0x0100;
    if (word == 53) *told |= 0x0002;
    if (word == 63) *told = 0x0407;
    if (word >= 65 && word <= 68) *told = 120;
}

static device it = {
    .flag = "--bus-master",
    .usage = "the bus master of the disk's channel, at BMIBA, and a disk with DMA",
    .state = &s,
    .bytes = sizeof s,
    .reset = reset,
    .take = take,
    .answer = answer,
    .identify = identify,
};

__attribute__((constructor)) static void add(void) { device_add(&it); }
