/* loop.c over a mock of KVM: each exit that a guest may cause, also at rows past the memory, cut over their ends, of any
 * length and from 4 GiB on. The buffers are as long as they must be and no longer, for valgrind or AddressSanitizer. What an
 * access should come to is worked out here byte by byte, by board_decode. */
#define _GNU_SOURCE
#include <errno.h>
#include <linux/kvm.h>
#include <stdarg.h>
#include <stdio.h>
#include <stdlib.h>
#include <string.h>
#include <sys/ioctl.h>

static int mock_ioctl(int file, unsigned long request, ...);
#define ioctl mock_ioctl
#include "loop.c"
#undef ioctl

enum { MIB = 8, ROM = 65536, MOST_SLOTS = 512, VM = 3, CPU = 4, SAMPLES = 16, RUN = 2 * PAGE, BIOS = 0xF0000 };
#define END ((uint64_t)MIB << 20)

static struct kvm_userspace_memory_region slot[MOST_SLOTS];
static int failed, pending, processor_resets;

static void must(const char *what, uint64_t at, int holds) {
    if (holds) return;
    if (failed++ < 20) printf("loop: %s at %llX\n", what, (unsigned long long)at);
}

/* ---- KVM */

static int is_inside(uint64_t at, uint64_t bytes, const uint8_t *block, uint64_t size) {
    uint64_t from = (uintptr_t)block;
    return at >= from && at - from <= size && bytes <= size - (at - from);
}

static void add(const struct kvm_userspace_memory_region *r) {
    uint64_t at = r->userspace_addr;
    int in_guest = is_inside(at, r->memory_size, guest, END), in_rom = is_inside(at, r->memory_size, rom, ROM);
    must("a slot is no whole pages", r->guest_phys_addr, (r->guest_phys_addr | r->memory_size | at) % PAGE == 0);
    must("a slot leads out of the memory and the ROM", r->guest_phys_addr, in_guest || in_rom);
    must("a slot of the ROM can be written", r->guest_phys_addr, !in_rom || r->flags == KVM_MEM_READONLY);
    for (size_t k = 0; k < MOST_SLOTS; k++) {
        uint64_t other = slot[k].guest_phys_addr;
        int beside = other >= r->guest_phys_addr + r->memory_size || r->guest_phys_addr >= other + slot[k].memory_size;
        must("two slots overlap", r->guest_phys_addr, slot[k].memory_size == 0 || beside);
    }
}

static int next_run(void) {
    errno = run->immediate_exit ? EINTR : ENXIO;
    return pending && !run->immediate_exit ? pending = 0 : -1;
}

static int mock_ioctl(int file, unsigned long request, ...) {
    va_list words;
    va_start(words, request);
    if (request == KVM_RUN) {
        must("KVM_RUN of no processor", 0, file == CPU);
        va_end(words);
        return next_run();
    }
    const void *at = va_arg(words, const void *);
    va_end(words);
    if (request == KVM_SET_USER_MEMORY_REGION) {
        struct kvm_userspace_memory_region r;
        memcpy(&r, at, sizeof r);
        must("a slot's number", r.slot, file == VM && r.slot < MOST_SLOTS);
        if (r.memory_size) add(&r);
        slot[r.slot] = r;
    } else if (request == KVM_SET_REGS) {
        processor_resets++;
        must("the reset vector", 0, ((const struct kvm_regs *)at)->rip == 0xFFF0);
    }
    return 0;
}

/* ---- exits of a guest */

static void go(uint32_t reason) {
    run->exit_reason = reason;
    pending = 1;
    run_guest();
    must("the exit was not taken", reason, !pending);
}

static void memory_exit(uint64_t addr, uint32_t bytes, bool write) {
    run->mmio.phys_addr = addr;
    run->mmio.len = bytes;
    run->mmio.is_write = write;
    go(KVM_EXIT_MMIO);
}

/* A string instruction of so many elements, whose last byte is the last of the page. */
static uint8_t *port_exit(uint16_t port, uint8_t size, uint32_t count, bool out, uint64_t value) {
    uint8_t *data = (uint8_t *)run + RUN - size * count;
    run->io.direction = out ? KVM_EXIT_IO_OUT : KVM_EXIT_IO_IN;
    run->io.size = size;
    run->io.port = port;
    run->io.count = count;
    run->io.data_offset = RUN - size * count;
    for (uint32_t k = 0; k < size * count; k++) data[k] = out ? (uint8_t)(value >> 8 * (k % 8)) : 0;
    go(KVM_EXIT_IO);
    return data;
}

static void out(uint16_t port, uint8_t size, uint64_t value) { port_exit(port, size, 1, true, value); }

static void config(uint32_t device, uint8_t offset, uint8_t value) {
    out(0xCF8, 4, 0x80000000u | device << 11 | (offset & 0xFC));
    out(0xCFC + (offset & 3), 1, value);
}

/* ---- what an access should come to */

static board_part place(uint64_t addr, uint8_t kind) {
    board_part part = {.target = BOARD_ABORT};
    board_event event = {.what = BOARD_MEMORY, .kind = kind, .addr = (uint32_t)addr, .bytes = 1};
    if (addr < FOUR_GIB) must("board_decode", addr, board_decode(&b, &event, &part) == BOARD_OK);
    return part;
}

static bool is_kept(const board_part *p, uint64_t addr) { return is_memory(p->target) && addr < END; }

static uint8_t expected(uint64_t addr) {
    board_part p = place(addr, BOARD_READ);
    uint8_t byte = UINT8_MAX;
    if (is_kept(&p, addr)) return guest[addr];
    if (p.target == BOARD_ROM) return rom[p.offset];
    if (p.target == BOARD_SMRAM) board_dram_read(&b, (uint32_t)addr, &byte, 1);
    return byte;
}

static void read_and_compare(uint64_t addr, uint32_t bytes) {
    uint8_t want[8], got[8];
    for (uint32_t k = 0; k < bytes; k++) want[k] = addr + k < addr ? UINT8_MAX : expected(addr + k);
    memset(run->mmio.data, 0x77, sizeof run->mmio.data);
    memory_exit(addr, bytes, false);
    memcpy(got, run->mmio.data, sizeof got);
    must("a read gives another value", addr, memcmp(want, got, bytes) == 0);
}

/* Each byte goes where board_decode says, and the bytes beside it stay. */
static void write_and_compare(uint64_t addr, uint32_t bytes, uint64_t value) {
    uint64_t from = addr == 0 ? 0 : addr < END - 9 ? addr - 1 : END - 10;
    uint8_t want[8 + 2], *around = guest + from;
    memcpy(want, around, sizeof want);
    memcpy(run->mmio.data, &value, sizeof value);
    for (uint32_t k = 0; k < bytes; k++) {
        board_part p = place(addr + k < addr ? FOUR_GIB : addr + k, BOARD_WRITE);
        if (is_kept(&p, addr + k) && addr + k >= from && addr + k - from < sizeof want) want[addr + k - from] = (uint8_t)(value >> 8 * k);
    }
    memory_exit(addr, bytes, true);
    must("a write leaves other bytes", addr, memcmp(want, around, sizeof want) == 0);
}

static void try_both(uint64_t addr, uint32_t bytes, uint64_t value) {
    write_and_compare(addr, bytes, value);
    read_and_compare(addr, bytes);
}

/* Behind each slot lies what the board says of its addresses. */
static void compare_slots(void) {
    for (size_t k = 0; k < MOST_SLOTS; k++) {
        for (uint64_t n = 0; slot[k].memory_size && n <= SAMPLES; n++) {
            uint64_t addr = slot[k].guest_phys_addr + (slot[k].memory_size - 1) / SAMPLES * n;
            const uint8_t *at = (const uint8_t *)(uintptr_t)(slot[k].userspace_addr + (addr - slot[k].guest_phys_addr));
            board_part r = place(addr, BOARD_READ), w = place(addr, BOARD_WRITE);
            must("a slot is of other bytes", addr, at == (r.target == BOARD_ROM ? rom + r.offset : guest + addr));
            must("a slot of nobody", addr, r.target == BOARD_ROM || is_kept(&r, addr));
            must("a slot is written past the board", addr, slot[k].flags == KVM_MEM_READONLY || is_kept(&w, addr));
        }
    }
}

/* ---- the cases, each with values worked out by hand */

static void is_read(uint64_t addr, uint32_t bytes, uint64_t value) {
    read_and_compare(addr, bytes);
    must("a read gives no such value", addr, memcmp(run->mmio.data, &value, bytes) == 0);
}

static bool is_mapped(uint64_t addr) {
    for (size_t k = 0; k < MOST_SLOTS; k++)
        if (addr - slot[k].guest_phys_addr < slot[k].memory_size) return true;
    return false;
}

static void past_the_memory(void) {
    for (uint8_t row = 0; row < 8; row++) config(0, 0x60 + row, 0x40); /* row 0 alone, of 512 MiB */
    must("the memory is mapped to its last byte", END - 1, is_mapped(END - 1) && !is_mapped(END) && !is_mapped(0x1FFFFFFF));
    must("row 0 is decoded", 0x1FFFFFFF, place(0x1FFFFFFF, BOARD_WRITE).target == BOARD_DRAM);
    try_both(END, 4, 0xAAAAAAAA), is_read(END, 4, 0xFFFFFFFF);
    try_both(0x1FFFFFFC, 4, 0x55555555), is_read(0x1FFFFFFC, 4, 0xFFFFFFFF);
    try_both(END - 1, 4, 0x44332211), is_read(END - 1, 4, 0xFFFFFF11);
    must("the memory's last byte", END - 1, guest[END - 1] == 0x11);
    try_both(END - 3, 8, 0x8877665544332211), is_read(END - 3, 8, 0xFFFFFFFFFF332211);
}

static void parts(void) {
    try_both(0x9FFFE, 4, 0x44332211), is_read(0x9FFFE, 4, 0xFFFF2211); /* from A0000h on there is nobody */
    try_both(0xEFFFD, 8, 0x1122334455667788);                         /* into the BIOS: read, not written */
    config(0, 0x59, 0x20);                                            /* F0000h: writes to memory, reads from the ROM */
    guest[BIOS] = guest[BIOS + 1] = 0;
    try_both(BIOS - 2, 4, 0xBBAA9988);
    must("a shadowed write", BIOS, guest[BIOS] == 0xAA && guest[BIOS + 1] == 0xBB && rom[0] == expected(BIOS));
    config(0, 0x59, 0x30);
    is_read(BIOS, 2, 0xBBAA);
    must("the shadow can be written", BIOS, is_mapped(BIOS));
    config(0, 0x59, 0);
}

static void past_four_gib(void) {
    guest[0x1000] = 0x12;
    for (uint32_t bytes = 1; bytes <= 8; bytes++) {
        try_both(0x100001000, bytes, 0), is_read(0x100001000, bytes, UINT64_MAX);
        try_both(0xFFFFFFFF00001000, bytes, 0);
        try_both(UINT64_MAX - 2, bytes, 0), is_read(UINT64_MAX - 2, bytes, UINT64_MAX);
    }
    must("an address of 4 GiB and above reached the memory", 0x1000, guest[0x1000] == 0x12);
    is_read(0xFFFFFFFE, 4, 0xFFFFFAF3);
    is_read(0xFFFFFFFB, 8, 0xFFFFFFFAF3ECE5DE); /* the ROM's bytes are 7 * offset + 1 */
}

static void ports(void) {
    for (uint8_t size = 1; size <= 4; size *= 2)
        for (uint32_t port = 0xFFF8; port < PORTS; port++) {
            uint8_t *data = port_exit((uint16_t)port, size, 3, false, 0);
            must("a port of nobody", port, data[0] == UINT8_MAX && data[3 * size - 1] == UINT8_MAX);
            port_exit((uint16_t)port, size, 3, true, 0);
        }
    port_exit(0x1F0, 2, 256, false, 0);
    int before = processor_resets;
    out(0xCF9, 1, 0x02);
    out(0xCF9, 1, 0x06); /* hard: the rows are those of power-on again */
    must("a reset of the processor", 0xCF9, processor_resets == before + 1 && run->immediate_exit == 0);
    must("rows after a hard reset", END, place(END, BOARD_READ).target != BOARD_DRAM);
    port_exit(0xCF9, 1, 3, true, 0x020602);
    must("a string ends at its reset", 0xCF9, processor_resets == before + 2 && *port_exit(0xCF9, 1, 1, false, 0) == 0);
    run->if_flag = 0;
    go(KVM_EXIT_SHUTDOWN);
    must("a triple fault", 0, processor_resets == before + 3);
    go(KVM_EXIT_HLT);
}

/* ---- exits at random */

static uint64_t state = 88172645463325252u;

static uint64_t below(uint64_t bound) {
    state ^= state << 13, state ^= state >> 7, state ^= state << 17;
    return state % bound;
}

static uint64_t some_address(void) {
    static const uint64_t edges[] = {0,         0xA0000,    0xC0000,    0xE0000,  0xF0000, 0x100000, END,
                                     0x1000000, 0x20000000, 0xFFF80000, FOUR_GIB, 1ull << 63};
    uint64_t edge = edges[below(sizeof edges / sizeof *edges)];
    return edge + below(16) - 8;
}

static void at_random(int count) {
    for (int k = 0; k < count; k++) {
        uint8_t offset = (uint8_t)(0x57 + below(0x1D)); /* DRAM, shadow, row boundaries, the hole, SMRAM */
        if (below(4) == 0) config(0, offset, (uint8_t)state);
        if (below(16) == 0) config(1, 0x4E, (uint8_t)(state >> 8)), compare_slots();
        if (below(64) == 0) port_exit((uint16_t)(0xCF6 + below(12)), 1 << below(3), (uint32_t)(1 + below(4)), true, state);
        try_both(some_address(), (uint32_t)(1 + below(8)), state);
    }
}

int main(int count, char **words) {
    mib = MIB, rom_bytes = ROM, vm = VM, cpu = CPU;
    guest = aligned_alloc(PAGE, END), rom = aligned_alloc(PAGE, ROM), run = aligned_alloc(PAGE, RUN);
    for (uint64_t k = 0; k < END; k++) guest[k] = (uint8_t)(k >> 12 ^ k);
    for (uint32_t k = 0; k < ROM; k++) rom[k] = (uint8_t)(k * 7 + 1);
    memset(run, 0, RUN);
    board_card none = {0};
    if (board_open(&b, mib, &none, 0, rom, rom_bytes, rom, 0)) return 1;
    past_the_memory();
    compare_slots();
    parts();
    past_four_gib();
    ports();
    compare_slots();
    at_random(count > 1 ? atoi(words[1]) : 2000);
    board_close(&b);
    free(guest), free(rom), free(run);
    if (failed) printf("loop: %d are not as expected\n", failed);
    return failed != 0;
}
