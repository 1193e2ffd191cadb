/* A monitor's loop for KVM. The guest's memory and its ROM are the monitor's, in pages of their own: the processor reaches
 * them without an exit where the board's map says so, and asks the board for all else. */
#define _POSIX_C_SOURCE 200809L
#include "board.h"
#include <errno.h>
#include <linux/kvm.h>
#include <stdio.h>
#include <string.h>
#include <sys/ioctl.h>
#include <time.h>

enum { PAGE = 4096, PORTS = 0x10000, MOST_PULSES = 1000000, PIT_HERTZ = 1193182, REST = 1000000 };
#define FOUR_GIB 0x100000000ull

static board b;                  /* opened with mib, and with the bytes of rom */
static uint32_t mib;
static uint8_t *guest, *rom;     /* of mib MiB, and of rom_bytes */
static size_t rom_bytes;
static int vm, cpu;              /* of KVM, without its own interrupt controller */
static struct kvm_run *run;
static struct kvm_sregs first;   /* KVM_GET_SREGS of the new processor */
static board_reply last;
static uint32_t seen, slots, reset;

static bool is_memory(uint8_t target) { return target == BOARD_DRAM || target == BOARD_SHADOW; }

static void set_slot(uint32_t slot, uint32_t lo, uint64_t bytes, uint8_t *at, uint32_t flags) {
    struct kvm_userspace_memory_region region = {slot, flags, lo, bytes, (uintptr_t)at};
    if (ioctl(vm, KVM_SET_USER_MEMORY_REGION, &region)) perror("KVM_SET_USER_MEMORY_REGION");
}

static void add_slot(uint32_t lo, uint32_t hi, uint8_t *at, uint32_t flags) {
    uint64_t bytes = (uint64_t)hi - lo + 1;
    if (lo % PAGE == 0 && bytes % PAGE == 0) set_slot(slots++, lo, bytes, at, flags); /* of less each access exits */
}

/* The ROM, which stands in a long range again and again. */
static void add_rom(uint32_t lo, uint32_t hi) {
    for (uint64_t at = lo, end; at <= hi; at = end) {
        end = at - at % rom_bytes + rom_bytes;
        if (end > hi) end = (uint64_t)hi + 1;
        add_slot((uint32_t)at, (uint32_t)(end - 1), rom + at % rom_bytes, KVM_MEM_READONLY);
    }
}

/* The old slots go first, then the new ones come. None where a fetch and a read reach different things, nor for SMRAM, cards
 * and nobody; where only writes reach elsewhere it is read-only. Rows are decoded past the memory too: that is clipped. */
static void map_again(void) {
    static board_range ranges[BOARD_MOST_RANGES];
    static board_window window;
    board_map map;
    board_ranges(&b, &map, ranges, BOARD_MOST_RANGES, &window, 0); /* room 0: the windows are only counted */
    while (slots > 0) set_slot(--slots, 0, 0, NULL, 0);
    for (board_range *r = ranges; r < ranges + map.ranges; r++) {
        board_area fetch = board_area_of(r, BOARD_FETCH, false), read = board_area_of(r, BOARD_READ, false);
        bool writable = is_memory(board_area_of(r, BOARD_WRITE, false).target);
        if (fetch.target != read.target) continue;
        if (read.target == BOARD_ROM) add_rom(r->lo, r->hi);
        else if (is_memory(read.target) && board_range_clip(r, mib))
            add_slot(r->lo, r->hi, guest + r->lo, writable ? 0 : KVM_MEM_READONLY);
    }
    seen = map.version;
}

/* One bus cycle. Bytes of memory are the monitor's, as far as they are there. */
static void cycle(uint8_t what, uint32_t addr, uint8_t *data, uint8_t bytes, bool write) {
    uint64_t value = 0;
    if (write) memcpy(&value, data, bytes);
    board_ask(&b, what, write ? BOARD_WRITE : BOARD_READ, addr, bytes, false, value, &last);
    if (last.has_sent) putchar(last.sent);
    if (last.reset > reset) reset = last.reset;
    bool is_guest = what == BOARD_MEMORY && is_memory(last.part[0].target) && board_is_installed(mib, addr, bytes);
    if (is_guest && write) memcpy(guest + addr, data, bytes);
    else if (!write) memcpy(data, is_guest ? guest + addr : (uint8_t *)&last.value, bytes);
}

/* An access of any length, cut as the bus cuts it. Past port FFFFh and from 4 GiB on there is nobody. */
static void serve(uint8_t what, uint64_t addr, uint8_t *data, uint32_t bytes, bool write) {
    uint64_t end = what == BOARD_PORT ? PORTS : FOUR_GIB;
    for (uint8_t some; bytes > 0 && addr < end; addr += some, data += some, bytes -= some) {
        some = board_cycle((uint32_t)addr, bytes);
        cycle(what, (uint32_t)addr, data, some, write);
    }
    if (!write) memset(data, UINT8_MAX, bytes);
}

static void serve_port(void) {
    uint8_t *at = (uint8_t *)run + run->io.data_offset;
    for (uint32_t k = 0; k < run->io.count && !reset; k++, at += run->io.size)
        serve(BOARD_PORT, run->io.port, at, run->io.size, run->io.direction == KVM_EXIT_IO_OUT);
}

/* The pulses of the 8254 until now; a call takes at most 1,000,000. */
static void keep_time(void) {
    static uint64_t done;
    struct timespec now;
    clock_gettime(CLOCK_MONOTONIC, &now);
    uint64_t due = (uint64_t)now.tv_sec * PIT_HERTZ + (uint64_t)now.tv_nsec * PIT_HERTZ / 1000000000;
    if (done == 0) done = due;
    for (uint32_t some; done < due; done += some) {
        some = due - done < MOST_PULSES ? (uint32_t)(due - done) : MOST_PULSES;
        board_pulse(&b, some, &last);
    }
}

static void wait_halted(void) {
    for (struct timespec rest = {0, REST}; !last.interrupt; keep_time()) nanosleep(&rest, NULL);
}

/* The instruction that asked for the reset ends first. A hard one has reset the board too. */
static void reset_processor(void) {
    static const struct kvm_vcpu_events none;
    struct kvm_regs regs = {.rip = 0xFFF0, .rflags = 2};
    run->immediate_exit = 1;
    ioctl(cpu, KVM_RUN, 0);
    run->immediate_exit = 0;
    int failed = ioctl(cpu, KVM_SET_SREGS, &first) | ioctl(cpu, KVM_SET_REGS, &regs) | ioctl(cpu, KVM_SET_VCPU_EVENTS, &none);
    if (failed) perror("KVM_SET_REGS");
    reset = BOARD_NO_RESET;
}

/* Serves an exit: whether the guest can go on. */
static bool serve_exit(void) {
    switch (run->exit_reason) {
    case KVM_EXIT_IO: serve_port(); return true;
    case KVM_EXIT_MMIO:
        serve(BOARD_MEMORY, run->mmio.phys_addr, run->mmio.data, run->mmio.len, run->mmio.is_write);
        return true;
    case KVM_EXIT_HLT:
        if (run->if_flag) wait_halted();
        return run->if_flag;
    case KVM_EXIT_SHUTDOWN: reset = BOARD_SOFT_RESET; return true; /* a triple fault */
    default: return run->exit_reason == KVM_EXIT_IRQ_WINDOW_OPEN || run->exit_reason == KVM_EXIT_INTR;
    }
}

/* Runs the guest until it halts for good or KVM refuses. A timer's signal ends KVM_RUN (EINTR), so that time goes on. */
static void run_guest(void) {
    for (bool goes_on = true; goes_on;) {
        if (reset) reset_processor();
        if (last.version != seen || slots == 0) map_again();
        keep_time();
        if (last.interrupt && run->ready_for_interrupt_injection && run->if_flag) {
            board_ack(&b, &last);
            struct kvm_interrupt vector = {(uint32_t)last.value};
            if (ioctl(cpu, KVM_INTERRUPT, &vector)) perror("KVM_INTERRUPT");
        }
        run->request_interrupt_window = last.interrupt;
        goes_on = ioctl(cpu, KVM_RUN, 0) ? errno == EINTR : serve_exit();
    }
}
