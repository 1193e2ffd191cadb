/* A legacy virtio block card (virtio 0.9.5, "Appendix D: Block Device") with --virtio FILE, which may have any size and
 * is written through: one base of ports, INTA#. The board says what the card is, decodes its base and has its
 * interrupt, and says where the card may move memory; here is what answers at its ports, and what requests do.
 * virtio_modern.c adds the registers of virtio 1.0. */
#define _GNU_SOURCE
#include "machine.h"
#include <errno.h>
#include <fcntl.h>
#include <stdio.h>
#include <stdlib.h>
#include <string.h>
#include <sys/stat.h>
#include <unistd.h>

enum { SECTOR_BITS = 9, RING = VIRTIO_RING, PAGE_BITS = 12, MOST_CHAIN = RING, ID_BYTES = 20 };
/* Registers at base 0, and behind them the device's own: its capacity in sectors. */
enum { HOST_FEATURES = 0, GUEST_FEATURES = 4, QUEUE_PAGE = 8, QUEUE_SIZE = 12, QUEUE_SELECT = 14, QUEUE_NOTIFY = 16, STATUS = 18, ISR = 19, CAPACITY = 20, CAPACITY_HIGH = 24 };
enum { FEATURE_FLUSH = VIRTIO_FLUSH };
enum { NEXT = 1, WRITTEN_BY_CARD = 2 };                    /* flags of a descriptor */
enum { NO_INTERRUPT = 1 };                                 /* flags of the available ring */
enum { DO_READ = 0, DO_WRITE = 1, DO_FLUSH = 4, DO_ID = 8 };
enum { DONE = 0, FAILED = 1, UNSUPPORTED = 2 };
enum { ISR_QUEUE = 1 };

typedef struct descriptor {
    uint64_t addr;
    uint32_t bytes;
    uint16_t flags, next;
} descriptor;

typedef struct header {
    uint32_t what, reserved;
    uint64_t sector;
} header;

/* The queue in the guest's memory. */
typedef struct ring {
    const uint8_t *descriptors, *available;
    uint8_t *used;
    uint16_t size;
} ring;

board_card virtio_card(void) {
    board_card card = {
        .device = VIRTIO_DEVICE,
        .bases = 1,
        .base = {{BOARD_IO_BASE, VIRTIO_BASE_BITS}},
        .class_code = 0x018000, /* mass storage of another kind */
        .vendor_id = 0x1AF4,
        .device_id = 0x1001,
        .subsystem_vendor_id = 0x1AF4,
        .subsystem_id = 2, /* a block device */
        .interrupt_pin = 1,
    };
    for (EACH_DEVICE(d))
        if (d->card) d->card(&card);
    return card;
}

void virtio_open(virtio_blk *v, const char *name) {
    struct stat about;
    v->file = open(name, O_RDWR | O_CLOEXEC);
    if (v->file < 0 || fstat(v->file, &about)) {
        fprintf(stderr, "monitor: %s: %s\n", name, strerror(errno));
        exit(1);
    }
    v->sectors = (uint64_t)about.st_size >> SECTOR_BITS;
}

/* The card's interrupt line is the board's INTA# of its device. */
static void set_line(machine *m, bool on) {
    board_reply reply;
    if (m->virtio.line == on) return;
    m->virtio.line = on;
    machine_step(m, &(board_event){.what = BOARD_WIRE, .addr = VIRTIO_DEVICE, .value = on}, &reply);
}

void virtio_reset(machine *m) {
    virtio_blk *v = &m->virtio;
    *v = (virtio_blk){.file = v->file, .sectors = v->sectors, .line = v->line};
    set_line(m, false);
}

/* The guest's memory that the card may read or write as a bus master, by each of its pages, or NULL. */
static uint8_t *memory_at(machine *m, uint64_t addr, uint64_t bytes, bool is_write) {
    board_part part;
    if (!board_is_installed(m->options.mib, addr, bytes)) return NULL;
    for (uint64_t page = addr & ~(uint64_t)(GUEST_PAGE - 1); page < addr + bytes; page += GUEST_PAGE) {
        uint32_t status = board_decode_master(&m->board, (uint32_t)page, 4, is_write, &part);
        if (status != BOARD_OK || (part.target != BOARD_DRAM && part.target != BOARD_SHADOW)) return NULL;
    }
    return m->memory + addr;
}

/* The same, where the card writes: the processor is told, since it may have decoded code there. */
static uint8_t *written_at(machine *m, uint64_t addr, uint64_t bytes) {
    uint8_t *at = memory_at(m, addr, bytes, true);
    if (at) processor_wrote(addr, bytes);
    return at;
}

/* Moves a stretch of a request between file and memory. */
static bool move(virtio_blk *v, uint32_t what, uint8_t *at, uint32_t bytes, uint64_t place) {
    if (place > v->sectors << SECTOR_BITS || bytes > (v->sectors << SECTOR_BITS) - place) return false;
    while (bytes > 0) {
        ssize_t moved = what == DO_READ ? pread(v->file, at, bytes, (off_t)place) : pwrite(v->file, at, bytes, (off_t)place);
        if (moved < 0 && errno == EINTR) continue;
        if (moved <= 0) return false;
        at += moved;
        place += (uint64_t)moved;
        bytes -= (uint32_t)moved;
    }
    return true;
}

/* One stretch of data of a request, `place` bytes from the file's beginning: its status, and how many bytes it wrote. */
static uint8_t do_stretch(machine *m, uint32_t what, const descriptor *d, uint64_t place, uint32_t *written) {
    virtio_blk *v = &m->virtio;
    bool is_in = what == DO_READ || what == DO_ID;
    uint8_t *at = is_in ? written_at(m, d->addr, d->bytes) : memory_at(m, d->addr, d->bytes, false);
    if (!at || is_in != !!(d->flags & WRITTEN_BY_CARD)) return FAILED;
    if (what == DO_ID) {
        char id[ID_BYTES] = "board virtio";
        memcpy(at, id, d->bytes < ID_BYTES ? d->bytes : ID_BYTES);
    } else if (!move(v, what, at, d->bytes, place)) {
        return FAILED;
    }
    if (is_in) *written += d->bytes;
    return DONE;
}

/* Does a request: a header, its data, and a byte for its status. Returns how many bytes of memory it wrote. */
static uint32_t do_chain(machine *m, const ring *r, uint16_t first) {
    descriptor d;
    header asked = {0};
    uint64_t place = 0;
    uint32_t written = 0;
    uint8_t status = DONE;
    uint16_t at = first;
    for (unsigned k = 0; k < MOST_CHAIN && !console_ended(); k++) {
        memcpy(&d, r->descriptors + sizeof d * (at % r->size), sizeof d);
        const uint8_t *here = memory_at(m, d.addr, k == 0 ? sizeof asked : 1, false);
        if (!here || (k == 0 && d.bytes < sizeof asked)) return written;
        if (k == 0) {
            memcpy(&asked, here, sizeof asked);
            place = asked.sector << SECTOR_BITS;
            if (asked.sector > m->virtio.sectors) status = FAILED;
            if (asked.what == DO_FLUSH && fdatasync(m->virtio.file)) status = FAILED;
            if (asked.what > DO_WRITE && asked.what != DO_FLUSH && asked.what != DO_ID) status = UNSUPPORTED;
        } else if (d.flags & NEXT) {
            if (status == DONE && asked.what != DO_FLUSH) status = do_stretch(m, asked.what, &d, place, &written);
            place += d.bytes;
        } else {
            uint8_t *last = written_at(m, d.addr, 1);
            if (last && d.flags & WRITTEN_BY_CARD) *last = status;
            return written + 1;
        }
        if (!(d.flags & NEXT)) return written;
        at = d.next;
    }
    return written;
}

/* How many requests wait; more than the ring holds are no ring, and the card does no more until it is reset. */
static uint16_t waiting(virtio_blk *v, const ring *r, uint16_t newest) {
    uint16_t count = (uint16_t)(newest - v->seen);
    if (count <= r->size) return count;
    v->broken = true;
    fprintf(stderr, "\nmonitor: virtio: %u requests in a ring of %u: the card waits for its reset\n", count, r->size);
    return 0;
}

/* Where the queue lies in the guest's memory: whether the card reaches all of it, and may write the used ring. */
static bool find_ring(machine *m, ring *r) {
    const virtio_blk *v = &m->virtio;
    uint64_t used_at = ((sizeof(descriptor) * RING + 6 + 2 * RING) + (1 << PAGE_BITS) - 1) >> PAGE_BITS << PAGE_BITS;
    uint64_t page = (uint64_t)v->page << PAGE_BITS, at[] = {page, page + sizeof(descriptor) * RING, page + used_at};
    r->size = RING;
    if (v->is_modern) r->size = virtio_queue_size(v), memcpy(at, v->ring, sizeof at);
    if (!page && !v->is_modern) return false;
    r->descriptors = memory_at(m, at[0], sizeof(descriptor) * r->size, false);
    r->available = memory_at(m, at[1], 6 + 2u * r->size, false);
    r->used = written_at(m, at[2], 6 + 8u * r->size);
    return r->descriptors && r->available && r->used;
}

/* Does what the guest has put into the available ring, and gives it back by the used ring. A monitor that is asked to
 * end does so before the next request. */
void virtio_do_queue(machine *m) {
    virtio_blk *v = &m->virtio;
    ring r;
    if (v->broken || !find_ring(m, &r)) return;
    uint16_t flags, newest, done;
    memcpy(&flags, r.available, 2);
    memcpy(&newest, r.available + 2, 2);
    memcpy(&done, r.used + 2, 2);
    uint16_t count = waiting(v, &r, newest);
    bool any = count > 0;
    for (; count > 0 && !console_ended(); count--, v->seen++, done++) {
        uint16_t first;
        memcpy(&first, r.available + 4 + 2 * (v->seen % r.size), 2);
        uint32_t entry[2] = {first, do_chain(m, &r, first)};
        memcpy(r.used + 4 + 8 * (done % r.size), entry, sizeof entry);
    }
    memcpy(r.used + 2, &done, 2);
    if (any) v->isr |= ISR_QUEUE;
    if (any && !(flags & NO_INTERRUPT)) set_line(m, true);
}

uint16_t virtio_queue_size(const virtio_blk *v) {
    bool is_size = v->queue_size && v->queue_size <= RING && !(v->queue_size & (v->queue_size - 1));
    return is_size ? v->queue_size : RING;
}

uint8_t virtio_take_isr(machine *m) {
    uint8_t isr = m->virtio.isr;
    m->virtio.isr = 0;
    set_line(m, false);
    return isr;
}

uint32_t virtio_read(machine *m, uint32_t offset, unsigned bytes) {
    virtio_blk *v = &m->virtio;
    switch (offset) {
    case HOST_FEATURES: return FEATURE_FLUSH;
    case GUEST_FEATURES: return v->features;
    case QUEUE_PAGE: return v->selected ? 0 : v->page;
    case QUEUE_SIZE: return v->selected ? 0 : RING;
    case QUEUE_SELECT: return v->selected;
    case STATUS: return v->status;
    case ISR: return virtio_take_isr(m);
    }
    if (offset < CAPACITY || offset >= CAPACITY + 8) return 0;
    uint64_t rest = v->sectors >> 8 * (offset - CAPACITY);
    return (uint32_t)(bytes < 4 ? rest & ((1u << 8 * bytes) - 1) : rest);
}

void virtio_write(machine *m, uint32_t offset, uint32_t value) {
    virtio_blk *v = &m->virtio;
    switch (offset) {
    case GUEST_FEATURES: v->features = value & FEATURE_FLUSH; break;
    case QUEUE_PAGE:
        if (v->selected) break;
        v->page = value;
        v->seen = 0;
        break;
    case QUEUE_SELECT: v->selected = (uint16_t)value; break;
    case QUEUE_NOTIFY: virtio_do_queue(m); break;
    case STATUS:
        v->status = (uint8_t)value;
        if (!value) virtio_reset(m);
        break;
    }
}
