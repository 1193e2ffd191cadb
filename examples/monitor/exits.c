/* The guest's accesses that the processor does not do itself: ports, and memory outside the slots. */
#include "machine.h"
#include <string.h>

enum {
    DEBUG_PORT = 0x402,   /* on which SeaBIOS says what it does */
    DEBUG_THERE = 0xE9,   /* reads so where someone listens */
    PIT_FIRST = 0x40,
    PIT_LAST = 0x43,
    SYSTEM_PORT = 0x61,   /* its bits 4 and 5 show the 8254 */
    DISK_WORD = 2,        /* bytes */
    SECTOR_WORDS = 256,
    SYSTEM_CONTROL = 0x92,
    CONFIG_ADDRESS = 0xCF8,
    CONFIG_DATA = 0xCFC,
    PORTS = 0x10000,
    MOST_BYTES = 8        /* of one event to memory */
};
#define FOUR_GIB 0x100000000ull /* from there on the board has no addresses */

static uint32_t all_ones(unsigned bytes) { return bytes < 4 ? (1u << 8 * bytes) - 1 : UINT32_MAX; }

static bool shows_time(uint32_t port) { return (port >= PIT_FIRST && port <= PIT_LAST) || port == SYSTEM_PORT; }

/* The board has a socket at ports 60h and 64h, and nobody at 92h. */
static bool is_keyboard(const machine *m, const board_reply *reply, uint32_t port, uint8_t bytes) {
    const board_part *p = &reply->part[0];
    if (!m->options.keyboard || bytes != 1) return false;
    return port == SYSTEM_CONTROL ? p->target == BOARD_ABORT : p->target == BOARD_IS_DEVICE && p->unit == BOARD_KEYBOARD;
}

static uint32_t use_keyboard(machine *m, uint8_t kind, uint32_t port, uint32_t value) {
    if (kind == BOARD_READ) return keyboard_read(m, port);
    keyboard_write(m, port, (uint8_t)value);
    return 0;
}

static bool is_fw_cfg(const machine *m, const board_reply *reply, uint8_t kind, uint32_t port, uint8_t bytes) {
    return m->options.fw_cfg && reply->part[0].target == BOARD_ABORT && fw_cfg_hears(kind, port, bytes);
}

static uint32_t use_fw_cfg(machine *m, uint8_t kind, uint32_t port, uint32_t value) {
    if (kind == BOARD_READ) return fw_cfg_read(m);
    fw_cfg_write(m, port, (uint16_t)value);
    return 0;
}

static bool is_virtio(const machine *m, const board_part *p) {
    return m->options.virtio && p->target == BOARD_CARD && p->unit == VIRTIO_DEVICE;
}

/* What the virtio card gives at its ports, in the place of the bytes that the board keeps there. */
static uint32_t use_virtio(machine *m, const board_part *p, uint8_t kind, uint8_t bytes, uint32_t value) {
    if (kind == BOARD_READ) return virtio_read(m, p->offset, bytes);
    virtio_write(m, p->offset, value);
    return 0;
}

static bool is_disk(const board_part *p) { return p->target == BOARD_IS_DEVICE && p->unit == BOARD_ATA; }

/* What a cycle that the board has answered reads. */
static uint32_t answered(machine *m, const port_cycle *c, const board_reply *reply) {
    if (is_keyboard(m, reply, c->port, c->bytes)) return use_keyboard(m, c->kind, c->port, c->value);
    if (is_fw_cfg(m, reply, c->kind, c->port, c->bytes)) return use_fw_cfg(m, c->kind, c->port, c->value);
    if (c->port == DISK_DATA) m->counts.disk_words += c->bytes / DISK_WORD;
    uint32_t value = c->kind == BOARD_READ ? (uint32_t)reply->value : c->value;
    if (is_disk(&reply->part[0])) return identify_see(m, c->kind, c->port, c->bytes, value);
    if (is_virtio(m, &reply->part[0])) return use_virtio(m, &reply->part[0], c->kind, c->bytes, c->value);
    return value;
}

uint32_t machine_config(machine *m, const port_cycle *c) {
    board_reply reply;
    if (c->port < CONFIG_DATA || c->port > CONFIG_DATA + 3) return 0;
    if (board_in(&m->board, CONFIG_ADDRESS, 4, &reply) != BOARD_OK || !(reply.value >> 31)) return 0;
    return ((uint32_t)reply.value & ~3u) | (c->port - CONFIG_DATA);
}

static bool is_taken(machine *m, port_cycle *c) {
    for (EACH_DEVICE(d))
        if (d->take && d->take(m, c)) return true;
    return false;
}

/* One bus cycle at a port, kind BOARD_READ or BOARD_WRITE: what it reads. */
static uint32_t cycle_at(machine *m, uint8_t kind, uint32_t port, uint8_t bytes, uint32_t value) {
    board_reply reply;
    port_cycle c = {port, value, kind, bytes};
    if (port >= PORTS) return all_ones(bytes);
    if (shows_time(port)) clock_runs_to(m, processor_time());
    if (is_taken(m, &c)) return c.value;
    machine_step(m, &(board_event){.what = BOARD_PORT, .kind = kind, .addr = port, .bytes = bytes, .value = value}, &reply);
    if (kind == BOARD_WRITE && shows_time(port)) clock_plan(m);
    c.value = answered(m, &c, &reply);
    for (EACH_DEVICE(d))
        if (d->answer) d->answer(m, &c, &reply);
    return c.value;
}

uint32_t machine_in(machine *m, uint16_t port, unsigned bytes) {
    uint32_t value = 0;
    m->counts.ports++;
    if (m->options.nothing) return all_ones(bytes);
    if (port == DEBUG_PORT) return DEBUG_THERE;
    for (unsigned done = 0; done < bytes;) {
        uint8_t cycle = board_cycle(port + done, bytes - done);
        value |= cycle_at(m, BOARD_READ, port + done, cycle, 0) << 8 * done;
        done += cycle;
    }
    return value;
}

void machine_out(machine *m, uint16_t port, unsigned bytes, uint32_t value) {
    m->counts.ports++;
    if (m->options.nothing) return;
    if (port == DEBUG_PORT) {
        if (!m->options.quiet) console_put((uint8_t)value);
        return;
    }
    for (unsigned done = 0; done < bytes;) {
        uint8_t cycle = board_cycle(port + done, bytes - done);
        cycle_at(m, BOARD_WRITE, port + done, cycle, value >> 8 * done & all_ones(cycle));
        done += cycle;
    }
}

/* Whether the values of a string instruction go to the board in one call: the disk's words, and two at once as Linux
 * takes them, where nobody looks at each. */
static bool is_one_call(const machine *m, uint16_t port, unsigned bytes) {
    const options *o = &m->options;
    return port == DISK_DATA && bytes >= DISK_WORD && !o->nothing && !o->log && !o->explain && !identify_awaits(m);
}

static size_t disk_words(machine *m, uint8_t kind, unsigned bytes, uint8_t *data, size_t count) {
    uint32_t values[SECTOR_WORDS] = {0};
    if (count > SECTOR_WORDS) count = SECTOR_WORDS;
    for (size_t k = 0; k < count && kind == BOARD_WRITE; k++) memcpy(&values[k], data + bytes * k, bytes);
    size_t done = machine_steps(m, kind, DISK_DATA, (uint8_t)bytes, values, count);
    for (size_t k = 0; k < done && kind == BOARD_READ; k++) memcpy(data + bytes * k, &values[k], bytes);
    m->counts.ports++;
    m->counts.disk_words += done * bytes / DISK_WORD;
    return done;
}

size_t machine_string(machine *m, uint8_t kind, uint16_t port, unsigned bytes, uint8_t *data, size_t count) {
    uint32_t value = 0;
    if (is_one_call(m, port, bytes)) return disk_words(m, kind, bytes, data, count);
    if (kind == BOARD_WRITE) {
        memcpy(&value, data, bytes);
        machine_out(m, port, bytes, value);
    } else {
        value = machine_in(m, port, bytes);
        memcpy(data, &value, bytes);
    }
    return 1;
}

/* Main memory is the monitor's: where the board says that a part landed there, its bytes are moved there. */
static void move_parts(machine *m, const board_reply *reply, const board_event *event, uint8_t *data) {
    uint32_t addr = event->addr, left = event->bytes;
    for (unsigned k = 0; k < reply->parts; k++) {
        uint8_t bytes = board_cycle(addr, left), target = reply->part[k].target;
        if ((target == BOARD_DRAM || target == BOARD_SHADOW) && board_is_installed(m->options.mib, addr, bytes)) {
            if (event->kind == BOARD_WRITE) memcpy(m->memory + addr, data, bytes);
            else memcpy(data, m->memory + addr, bytes);
        }
        for (EACH_DEVICE(d))
            if (target == BOARD_CARD && d->memory) d->memory(m, &reply->part[k], event->kind, bytes, data);
        addr += bytes;
        data += bytes;
        left -= bytes;
    }
}

static void memory_event(machine *m, uint8_t kind, uint32_t addr, uint8_t bytes, uint8_t *data) {
    board_event event = {.what = BOARD_MEMORY, .kind = kind, .addr = addr, .bytes = bytes};
    board_reply reply;
    if (kind == BOARD_WRITE) memcpy(&event.value, data, bytes);
    machine_step(m, &event, &reply);
    if (kind == BOARD_READ) memcpy(data, &reply.value, bytes);
    move_parts(m, &reply, &event, data);
}

void machine_memory(machine *m, uint8_t kind, uint64_t addr, size_t bytes, uint8_t *data) {
    m->counts.memory++;
    while (!m->options.nothing && bytes > 0 && addr < FOUR_GIB) {
        uint8_t count = MOST_BYTES;
        while (count > bytes || addr + count > FOUR_GIB) count /= 2;
        memory_event(m, kind, (uint32_t)addr, count, data);
        addr += count;
        data += count;
        bytes -= count;
    }
    if (kind == BOARD_READ) memset(data, UINT8_MAX, bytes); /* from nobody */
}
