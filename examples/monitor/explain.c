/* What a firmware author looks for: an access that reached nobody, and the register that kept it out. */
#include "explain.h"
#include <stdio.h>
#include <stdlib.h>

enum { PAGE_SHIFT = 12, MOST_LISTED = 20, CARDS_FIRST = 2 };

typedef struct register_name {
    uint8_t device, function, first, last;
    const char *name; /* where there are several: followed by the number from the first on */
} register_name;

static const register_name names[] = {
    {0, 0, 0x59, 0x5F, "PAM"},    {0, 0, 0x60, 0x67, "DRB"}, {0, 0, 0x68, 0x68, "FDHC"},       {0, 0, 0x72, 0x72, "SMRAM"},
    {1, 0, 0x4E, 0x4F, "XBCS"},     {1, 1, 0x04, 0x05, "PCICMD"}, {1, 1, 0x40, 0x41, "IDETIM"},
};

static void print_register(const board_part *p) {
    fprintf(stderr, "%02X.%u.%02X", p->denial_dev, p->denial_fun, p->denial_off);
    if (p->denial_dev >= CARDS_FIRST) fprintf(stderr, " (%s)", p->denial_off == 0x04 ? "PCICMD" : "expansion ROM base");
    for (size_t k = 0; k < sizeof names / sizeof *names; k++) {
        const register_name *n = &names[k];
        if (n->device != p->denial_dev || n->function != p->denial_fun || p->denial_off < n->first || p->denial_off > n->last) continue;
        if (n->last - n->first > 1) fprintf(stderr, " (%s%d)", n->name, p->denial_off - n->first);
        else fprintf(stderr, " (%s)", n->name);
    }
}

/* The socket of the keyboard controller: firmware that waits for an answer there waits for ever. */
static bool is_socket(const board_part *p) { return p->target == BOARD_IS_DEVICE && p->unit == BOARD_KEYBOARD; }

static void print_denial(const explained *e) {
    bool config = e->what == BOARD_PORT && e->addr >= 0xCFC && e->addr <= 0xCFF;
    switch (e->part.denial) {
    case BOARD_BY_REGISTER:
        fprintf(stderr, "denied by ");
        print_register(&e->part);
        break;
    case BOARD_BY_CONFADD:
        fprintf(stderr, "denied by confadd, which is not enabled");
        break;
    default:
        fprintf(stderr, "%s", config                          ? "reaches a function that is not there"
                              : is_socket(&e->part)           ? "finds an empty socket, which reads FF"
                              : e->part.target == BOARD_ROM   ? "is lost: the ROM takes no write"
                                                              : "reaches nobody");
    }
}

static void print_access(const explained *e) {
    static const char *const memory[] = {"", "f", "r", "w"}, *const port[] = {"", "", "in", "out"};
    if (e->what == BOARD_PORT) fprintf(stderr, "port %04X %s ", e->addr, port[e->kind]);
    else fprintf(stderr, "%08X %s ", e->addr, memory[e->kind]);
    print_denial(e);
    fprintf(stderr, "\n");
}

static uint64_t key_of(const board_event *event, const board_part *p, uint32_t addr) {
    uint64_t place = event->what == BOARD_PORT ? addr : addr >> PAGE_SHIFT;
    return place << 40 | (uint64_t)p->denial_dev << 32 | (uint64_t)p->denial_fun << 24 | (uint64_t)p->denial_off << 16 |
           (uint64_t)p->denial << 12 | (uint64_t)p->target << 8 | (uint64_t)event->kind << 4 | event->what;
}

/* Counts an access, and tells it where it is the first of its key. */
static void note(explain *x, const board_event *event, const board_part *p, uint32_t addr) {
    uint64_t key = key_of(event, p, addr);
    size_t at = (size_t)(key * 0x9E3779B97F4A7C15ull >> 52) % EXPLAIN_ROOM;
    while (x->told[at].count && x->told[at].key != key) at = (at + 1) % EXPLAIN_ROOM;
    explained *e = &x->told[at];
    if (e->count++) return;
    if (x->count == EXPLAIN_ROOM - 1) {
        e->count = 0;
        x->untold++;
        return;
    }
    x->count++;
    e->key = key;
    e->addr = addr;
    e->part = *p;
    e->what = event->what;
    e->kind = event->kind;
    fflush(stdout); /* so that it stands where the guest was */
    fprintf(stderr, "[explain] ");
    print_access(e);
}

void explain_step(explain *x, const board_event *event, const board_reply *reply) {
    uint32_t addr = event->addr, left = event->bytes;
    if (event->what != BOARD_PORT && event->what != BOARD_MEMORY) return;
    for (unsigned k = 0; k < reply->parts && left > 0; k++) {
        const board_part *p = &reply->part[k];
        uint8_t bytes = board_cycle(addr, left);
        bool is_empty = is_socket(p) && !x->has_keyboard;
        if (p->denial != BOARD_NOT_DENIED || p->target == BOARD_ABORT || is_empty) note(x, event, p, addr);
        addr += bytes;
        left -= bytes;
    }
}

static int by_count(const void *a, const void *b) {
    uint64_t first = ((const explained *)a)->count, second = ((const explained *)b)->count;
    return first < second ? 1 : first > second ? -1 : 0;
}

void explain_close(explain *x) {
    qsort(x->told, EXPLAIN_ROOM, sizeof *x->told, by_count);
    fprintf(stderr, "[explain] %u kinds of access were denied, or reached nobody or an empty socket; how often:\n", x->count);
    for (size_t k = 0; k < MOST_LISTED && x->told[k].count > 0; k++) {
        fprintf(stderr, "%12llu  ", (unsigned long long)x->told[k].count);
        print_access(&x->told[k]);
    }
    if (x->untold) fprintf(stderr, "%12llu  of others\n", (unsigned long long)x->untold);
}
