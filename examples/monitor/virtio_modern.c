/* --virtio-modern, with --virtio: the transport of virtio 1.0 (4.1) beside the legacy one, which makes the card a
 * transitional one. A list of capabilities in its configuration data, which the board's cards have not, names four
 * structures in base 1, memory whose bytes are the monitor's; the fifth is a window on them in configuration data. */
#include "machine.h"

enum { BASE = 1, BASE_BITS = 12 };
enum { COMMON = 0x000, HAPPENED = 0x100, DEVICE = 0x200, NOTIFY = 0x300 };  /* the structures in the base */
enum { COMMON_BYTES = 56, DEVICE_BYTES = 8 };
#define CARD (0x80000000u | VIRTIO_DEVICE << 11)                              /* its function in CONFADD */
enum { PCI_STATUS = 0x06, HAS_LIST = 0x10, LIST_AT = 0x34, LIST = 0x40, VENDOR = 9 };
enum { TYPE_COMMON = 1, TYPE_NOTIFY, TYPE_HAPPENED, TYPE_DEVICE, TYPE_WINDOW };
enum { WINDOW = 0x84, WINDOW_BASE = 0x88, WINDOW_PLACE = 0x8C, WINDOW_DATA = 0x94, LIST_END = 0x98 };
/* Of the common structure. */
enum { OFFERED_SELECT = 0, OFFERED = 4, TAKEN_SELECT = 8, TAKEN = 12, VECTOR = 16, QUEUES = 18, STATUS = 20 };
enum { QUEUE = 22, SIZE = 24, QUEUE_VECTOR = 26, ENABLED = 28, RINGS = 32, NO_VECTOR = 0xFFFF };
enum { VERSION_1 = 1 };                                                       /* in the high half of the features */
enum { FEATURES_OK = 8 };

static struct window {
    uint32_t place, bytes, base;
} s;

static void reset(machine *m) {
    (void)m;
    s = (struct window){0};
}

static void card(board_card *virtio) {
    virtio->bases = BASE + 1;
    virtio->base[BASE] = (board_base){BOARD_OUTSIDE, BASE_BITS};
}

/* ---- the structures */

static uint32_t read_common(const virtio_blk *v, uint32_t offset) {
    switch (offset) {
    case OFFERED_SELECT: return v->feature_selects[0];
    case OFFERED: return v->feature_selects[0] == 0 ? VIRTIO_FLUSH : v->feature_selects[0] == 1 ? VERSION_1 : 0;
    case TAKEN_SELECT: return v->feature_selects[1];
    case TAKEN: return v->feature_selects[1] == 0 ? v->features : v->feature_selects[1] == 1 ? v->high_features : 0;
    case VECTOR: case QUEUE_VECTOR: return NO_VECTOR;
    case QUEUES: return 1;
    case STATUS: return v->status;
    case QUEUE: return v->selected;
    case SIZE: return v->selected ? 0 : virtio_queue_size(v);
    case ENABLED: return !v->selected && v->is_modern;
    }
    if (offset < RINGS || offset >= COMMON_BYTES || offset % 4 || v->selected) return 0;
    return (uint32_t)(v->ring[(offset - RINGS) / 8] >> 8 * (offset % 8));
}

/* FEATURES_OK stays where nothing was taken that is not offered. */
static void write_status(machine *m, uint8_t value) {
    virtio_blk *v = &m->virtio;
    bool is_ok = !(v->features & ~(uint32_t)VIRTIO_FLUSH) && !(v->high_features & ~(uint32_t)VERSION_1);
    v->status = is_ok ? value : value & (uint8_t)~FEATURES_OK;
    if (!value) virtio_reset(m);
}

static void write_ring(virtio_blk *v, uint32_t offset, uint32_t value) {
    uint64_t *at = &v->ring[(offset - RINGS) / 8], low = offset % 8 ? *at & UINT32_MAX : value;
    *at = offset % 8 ? low | (uint64_t)value << 32 : (*at & ~(uint64_t)UINT32_MAX) | low;
}

static void write_common(machine *m, uint32_t offset, uint32_t value) {
    virtio_blk *v = &m->virtio;
    switch (offset) {
    case OFFERED_SELECT: v->feature_selects[0] = value < 2 ? (uint8_t)value : 2; return;
    case TAKEN_SELECT: v->feature_selects[1] = value < 2 ? (uint8_t)value : 2; return;
    case TAKEN:
        if (v->feature_selects[1] == 0) v->features = value;
        if (v->feature_selects[1] == 1) v->high_features = value;
        return;
    case STATUS: write_status(m, (uint8_t)value); return;
    case QUEUE: v->selected = (uint16_t)value; return;
    case SIZE:
        if (!v->selected) v->queue_size = (uint16_t)value;
        return;
    case ENABLED:
        if (!v->selected && value == 1) v->is_modern = 1, v->seen = 0;
        return;
    }
    if (offset >= RINGS && offset < COMMON_BYTES && offset % 4 == 0 && !v->selected) write_ring(v, offset, value);
}

/* An access of 1, 2 or 4 bytes in the base. */
static uint32_t use_base(machine *m, uint32_t offset, uint8_t kind, uint32_t value) {
    bool is_read = kind == BOARD_READ;
    if (offset < COMMON + COMMON_BYTES) {
        if (is_read) return read_common(&m->virtio, offset - COMMON);
        write_common(m, offset - COMMON, value);
    } else if (offset == HAPPENED && is_read) {
        return virtio_take_isr(m);
    } else if (offset >= DEVICE && offset < DEVICE + DEVICE_BYTES && is_read) {
        return (uint32_t)(m->virtio.sectors >> 8 * (offset - DEVICE));
    } else if (offset == NOTIFY && !is_read) {
        virtio_do_queue(m);
    }
    return 0;
}

static void memory(machine *m, const board_part *part, uint8_t kind, uint8_t bytes, uint8_t *data) {
    uint32_t value = 0;
    if (!m->options.virtio || part->unit != VIRTIO_DEVICE || part->base != BASE) return;
    for (uint8_t k = 0; k < bytes && kind == BOARD_WRITE; k++) value |= (uint32_t)data[k] << 8 * k;
    value = use_base(m, part->offset, kind, value);
    for (uint8_t k = 0; k < bytes && kind == BOARD_READ; k++) data[k] = (uint8_t)(value >> 8 * k);
}

/* ---- configuration data */

/* A capability of virtio is 16 bytes, and two have a doubleword more. */
static uint32_t list_word(uint32_t at) {
    static const struct {
        uint8_t at, bytes, type, next;
        uint32_t offset, length;
    } list[] = {
        {LIST, 16, TYPE_COMMON, 0x50, COMMON, COMMON_BYTES}, {0x50, 20, TYPE_NOTIFY, 0x64, NOTIFY, 2},
        {0x64, 16, TYPE_HAPPENED, 0x74, HAPPENED, 1}, {0x74, 16, TYPE_DEVICE, WINDOW, DEVICE, DEVICE_BYTES},
        {WINDOW, 20, TYPE_WINDOW, 0, 0, 0},
    };
    for (uint32_t k = 0; k < sizeof list / sizeof *list; k++) {
        uint32_t in = at - list[k].at;
        if (in >= list[k].bytes) continue;
        if (in == 0) return VENDOR | list[k].next << 8 | list[k].bytes << 16 | (uint32_t)list[k].type << 24;
        if (in == 4) return k == TYPE_WINDOW - 1 ? s.base : BASE;
        if (in == 8) return k == TYPE_WINDOW - 1 ? s.place : list[k].offset;
        if (in == 12) return k == TYPE_WINDOW - 1 ? s.bytes : list[k].length;
    }
    return 0;
}

/* The window reaches as many bytes of base 1 as it says, at a multiple of them. */
static uint32_t use_window(machine *m, uint8_t kind, uint32_t value) {
    bool is_length = s.bytes == 1 || s.bytes == 2 || s.bytes == 4;
    if (s.base != BASE || !is_length || s.place % s.bytes) return 0;
    uint32_t ones = s.bytes < 4 ? (1u << 8 * s.bytes) - 1 : UINT32_MAX;
    return use_base(m, s.place, kind, value & ones) & ones;
}

static void write_window(machine *m, uint32_t at, const port_cycle *c) {
    uint32_t shift = 8 * (at % 4), ones = c->bytes < 4 ? (1u << 8 * c->bytes) - 1 : UINT32_MAX;
    uint32_t *fields[] = {&s.base, &s.place, &s.bytes}, which = (at - WINDOW_BASE) / 4;
    if (at >= WINDOW_DATA) use_window(m, BOARD_WRITE, c->value);
    else *fields[which] = (*fields[which] & ~(ones << shift)) | (c->value & ones) << shift;
    s.base &= UINT8_MAX;
}

static uint32_t config_word(machine *m, uint32_t at, uint32_t told) {
    if (at == (PCI_STATUS & ~3u)) return told | HAS_LIST << 16;
    if (at == LIST_AT) return LIST;
    if (at == WINDOW_DATA) return use_window(m, BOARD_READ, 0);
    return at >= LIST && at < LIST_END ? list_word(at) : told;
}

static void answer(machine *m, port_cycle *c, const board_reply *reply) {
    uint32_t config = machine_config(m, c), at = config - CARD, shift = 8 * (at % 4);
    (void)reply;
    if (!m->options.virtio || config < CARD || at > UINT8_MAX) return;
    if (c->kind == BOARD_WRITE) {
        if (at >= WINDOW_BASE && at < LIST_END) write_window(m, at, c);
        return;
    }
    uint32_t ones = c->bytes < 4 ? (1u << 8 * c->bytes) - 1 : UINT32_MAX;
    c->value = config_word(m, at & ~3u, c->value << shift) >> shift & ones;
}

static device it = {
    .flag = "--virtio-modern",
    .usage = "with --virtio the card has the transport of virtio 1.0 too",
    .state = &s,
    .bytes = sizeof s,
    .reset = reset,
    .card = card,
    .memory = memory,
    .answer = answer,
};

__attribute__((constructor)) static void add(void) { device_add(&it); }
