/* The guest's processor is Unicorn, QEMU's translator as a library, for hosts without KVM. It raises no interrupts, so
 * the monitor enters them itself, in real mode and where the guest halts: enough for firmware and a boot sector, and no
 * more. The guest's time is that of the processor which the monitor had, and its rests: so a guest on a busy host is
 * none the wiser. RDTSC is the host's and knows nothing of that, so CPUID says that there is none. */
#define _GNU_SOURCE
#include "machine.h"
#include <signal.h>
#include <stdio.h>
#include <stdlib.h>
#include <string.h>
#include <sys/time.h>
#include <time.h>
#include <unicorn/unicorn.h>
#include <unistd.h>

enum {
    RESET_IP = 0xFFF0,
    RESET_CS = 0xF000,
    FLAG_TRAP = 0x100,
    FLAG_INTERRUPT = 0x200,
    PROTECTED = 1,        /* PE of CR0 */
    HALT = 0xF4,          /* the instruction HLT */
    INT_N = 0xCD,         /* the instruction INT n, of two bytes */
    FRAME = 6,            /* bytes of a real-mode interrupt's frame */
    REST = 10000000,      /* nanoseconds between two looks at a halted guest, or less where the clock runs before */
    WATCH = 100000        /* and between two looks whether the time is up */
};

typedef struct region { /* as Unicorn has it: plain memory, or addresses that exit (host NULL) */
    memory_slot slot;
    bool is_there;
} region;

enum { MOST_REGIONS = 2 * MOST_SLOTS + 1 };

static machine m;
static uc_engine *uc;
static uc_context *at_power_on;
static region regions[MOST_REGIONS];
static uint64_t began, rested, host_began;
static const char *failure;

static void check(uc_err error, const char *what) {
    if (error == UC_ERR_OK) return;
    fprintf(stderr, "monitor: unicorn: %s: %s\n", what, uc_strerror(error));
    exit(1);
}

static uint64_t time_by(clockid_t clock) {
    struct timespec t;
    clock_gettime(clock, &t);
    return (uint64_t)t.tv_sec * NANOSECONDS + (uint64_t)t.tv_nsec;
}

static uint64_t had_time(void) { return time_by(CLOCK_PROCESS_CPUTIME_ID) + rested; }

uint64_t processor_time(void) { return had_time() - began; }

static uint32_t get(int reg) {
    uint32_t value = 0;
    uc_reg_read(uc, reg, &value);
    return value;
}

static void set(int reg, uint32_t value) { uc_reg_write(uc, reg, &value); }

/* ---- memory */

static uint64_t on_read(uc_engine *u, uint64_t offset, unsigned bytes, void *first) {
    uint64_t value = 0;
    (void)u;
    machine_memory(&m, BOARD_READ, (uintptr_t)first + offset, bytes, (uint8_t *)&value);
    return value;
}

static void on_write(uc_engine *u, uint64_t offset, unsigned bytes, uint64_t value, void *first) {
    (void)u;
    machine_memory(&m, BOARD_WRITE, (uintptr_t)first + offset, bytes, (uint8_t *)&value);
}

/* A write to a read-only slot: the board says where it lands. */
static bool on_write_protected(uc_engine *u, uc_mem_type type, uint64_t addr, int bytes, int64_t value, void *x) {
    (void)u, (void)type, (void)x;
    machine_memory(&m, BOARD_WRITE, addr, (size_t)bytes, (uint8_t *)&value);
    return true;
}

static void map(const memory_slot *s) {
    size_t bytes = (size_t)s->last - s->first + 1;
    void *first = (void *)(uintptr_t)s->first;
    uint32_t rights = s->read_only ? UC_PROT_READ | UC_PROT_EXEC : UC_PROT_ALL;
    if (s->host) check(uc_mem_map_ptr(uc, s->first, bytes, rights, s->host), "map");
    else check(uc_mmio_map(uc, s->first, bytes, on_read, first, on_write, first), "map of exits");
}

static bool is_same(const memory_slot *a, const memory_slot *b) {
    return a->first == b->first && a->last == b->last && a->host == b->host && a->read_only == b->read_only;
}

/* The slots, and between them what exits, over all addresses. */
static size_t wanted_regions(memory_slot *into) {
    size_t count = 0;
    uint64_t at = 0;
    for (size_t k = 0; k < m.slot_count; k++) {
        const memory_slot *s = &m.slots[k];
        if (s->first > at) into[count++] = (memory_slot){(uint32_t)at, s->first - 1, NULL, false};
        into[count++] = *s;
        at = (uint64_t)s->last + 1;
    }
    if (at <= UINT32_MAX) into[count++] = (memory_slot){(uint32_t)at, UINT32_MAX, NULL, false};
    return count;
}

/* What is gone goes first, then what is new comes. */
static void move_slots(void) {
    memory_slot wanted[MOST_REGIONS];
    bool is_mapped[MOST_REGIONS] = {false};
    size_t count = wanted_regions(wanted), free_region = 0;
    m.slots_moved = false;
    for (size_t k = 0; k < MOST_REGIONS; k++) {
        bool stays = false;
        for (size_t w = 0; w < count && regions[k].is_there && !stays; w++)
            if (is_same(&regions[k].slot, &wanted[w])) stays = is_mapped[w] = true;
        if (!regions[k].is_there || stays) continue;
        check(uc_mem_unmap(uc, regions[k].slot.first, (size_t)regions[k].slot.last - regions[k].slot.first + 1), "unmap");
        regions[k].is_there = false;
    }
    for (size_t w = 0; w < count; w++) {
        if (is_mapped[w]) continue;
        while (regions[free_region].is_there) free_region++;
        regions[free_region] = (region){wanted[w], true};
        map(&wanted[w]);
    }
}

void processor_wrote(uint64_t addr, uint64_t bytes) { check(uc_ctl_remove_cache(uc, addr, addr + bytes), "written memory"); }

/* ---- the state, as it is kept: registers of real mode, at a HLT */

const uint32_t processor_kind = PROCESSOR_UNICORN;

static const int kept[] = {UC_X86_REG_EAX, UC_X86_REG_EBX, UC_X86_REG_ECX, UC_X86_REG_EDX, UC_X86_REG_ESI, UC_X86_REG_EDI, UC_X86_REG_EBP, UC_X86_REG_ESP,
                           UC_X86_REG_EFLAGS, UC_X86_REG_CS, UC_X86_REG_DS, UC_X86_REG_ES, UC_X86_REG_FS, UC_X86_REG_GS, UC_X86_REG_SS, UC_X86_REG_EIP};
enum { KEPT = sizeof kept / sizeof *kept };

size_t processor_bytes(void) { return KEPT * sizeof(uint32_t); }

void processor_save(uint8_t *into) {
    for (size_t k = 0; k < KEPT; k++) {
        uint32_t value = get(kept[k]);
        memcpy(into + k * sizeof value, &value, sizeof value);
    }
}

static void take_processor(void) {
    uint32_t values[KEPT] = {0};
    if (m.processor_bytes == sizeof values) memcpy(values, m.processor, sizeof values);
    for (size_t k = 0; k < KEPT; k++) set(kept[k], values[k]);
    m.processor = NULL;
}

/* ---- interrupts */

/* Enters an interrupt of real mode, which returns to an instruction at ip. */
static void enter(uint8_t vector, uint16_t ip) {
    uint32_t flags = get(UC_X86_REG_EFLAGS), sp = get(UC_X86_REG_ESP), stack = get(UC_X86_REG_SS) << 4;
    uint16_t frame[] = {ip, (uint16_t)get(UC_X86_REG_CS), (uint16_t)flags}, target[2];
    sp = (sp & 0xFFFF0000u) | (uint16_t)(sp - FRAME);
    uc_mem_write(uc, stack + (uint16_t)sp, frame, sizeof frame);
    uc_mem_read(uc, 4u * vector, target, sizeof target);
    set(UC_X86_REG_ESP, sp);
    set(UC_X86_REG_EFLAGS, flags & ~(uint32_t)(FLAG_INTERRUPT | FLAG_TRAP));
    set(UC_X86_REG_CS, target[1]);
    set(UC_X86_REG_EIP, target[0]);
}

/* INT n, which Unicorn leaves to its user. */
static void on_int(uc_engine *u, uint32_t number, void *x) {
    uint16_t ip = (uint16_t)get(UC_X86_REG_EIP);
    uint8_t instruction = 0;
    (void)u, (void)x;
    if (m.reset) { /* in the block that asked for it */
        uc_emu_stop(uc);
        return;
    }
    if (get(UC_X86_REG_CR0) & PROTECTED) {
        failure = "an exception in protected mode";
        uc_emu_stop(uc);
        return;
    }
    uc_mem_read(uc, (get(UC_X86_REG_CS) << 4) + ip, &instruction, 1);
    enter((uint8_t)number, instruction == INT_N ? (uint16_t)(ip + 2) : ip);
}

/* ---- ports */

static uint32_t on_in(uc_engine *u, uint32_t port, int bytes, void *x) {
    (void)u, (void)x;
    return m.reset ? UINT32_MAX : machine_in(&m, (uint16_t)port, (unsigned)bytes);
}

static void on_out(uc_engine *u, uint32_t port, int bytes, uint32_t value, void *x) {
    (void)u, (void)x;
    if (!m.reset) machine_out(&m, (uint16_t)port, (unsigned)bytes, value);
    if (m.slots_moved) move_slots();
    if (m.reset || console_ended()) uc_emu_stop(uc); /* it goes on to the end of its block: after a reset in vain */
}

/* A processor of family 6 with a coprocessor alone: no TSC, and no APIC. */
static int on_cpuid(uc_engine *u, void *x) {
    static const uint32_t first[] = {1, 0x756E6547, 0x6C65746E, 0x49656E69}; /* GenuineIntel */
    static const uint32_t features[] = {0x611, 0, 0, 1};
    static const int into[] = {UC_X86_REG_EAX, UC_X86_REG_EBX, UC_X86_REG_ECX, UC_X86_REG_EDX};
    uint32_t leaf = get(UC_X86_REG_EAX);
    (void)u, (void)x;
    for (size_t k = 0; k < 4; k++) set(into[k], leaf == 0 ? first[k] : leaf == 1 ? features[k] : 0);
    return 1; /* it is done */
}

/* ---- the guest */

static void reset_processor(void) {
    machine_take_reset(&m);
    if (m.slots_moved) move_slots();
    check(uc_context_restore(uc, at_power_on), "reset"); /* a write to CR0 alone leaves the engine in protected mode */
    set(UC_X86_REG_CS, RESET_CS);
    set(UC_X86_REG_EIP, RESET_IP);
}

static void keep_time(void) {
    uint64_t now = processor_time();
    if (now >= m.wake) clock_runs_to(&m, now);
    console_listen(&m);
}

static bool is_over(void) {
    uint64_t ran = time_by(CLOCK_MONOTONIC) - host_began;
    return console_ended() || (m.options.seconds && ran > m.options.seconds * NANOSECONDS);
}

/* The engine does not come back by itself while the guest does not halt. */
static void on_alarm(int number) {
    (void)number;
    if (is_over()) uc_emu_stop(uc);
}

static void watch_time(void) {
    struct sigaction act = {.sa_handler = on_alarm};
    struct itimerval every = {{0, WATCH}, {0, WATCH}};
    sigaction(SIGALRM, &act, NULL);
    setitimer(ITIMER_REAL, &every, NULL);
}

static void open_unicorn(void) {
    static uc_hook hooks[5];
    check(uc_open(UC_ARCH_X86, UC_MODE_16, &uc), "open");
    check(uc_context_alloc(uc, &at_power_on), "context");
    check(uc_context_save(uc, at_power_on), "context");
    check(uc_hook_add(uc, &hooks[0], UC_HOOK_INSN, (void *)(uintptr_t)on_in, NULL, 1, 0, UC_X86_INS_IN), "hook");
    check(uc_hook_add(uc, &hooks[1], UC_HOOK_INSN, (void *)(uintptr_t)on_out, NULL, 1, 0, UC_X86_INS_OUT), "hook");
    check(uc_hook_add(uc, &hooks[2], UC_HOOK_MEM_WRITE_PROT, (void *)(uintptr_t)on_write_protected, NULL, 1, 0), "hook");
    check(uc_hook_add(uc, &hooks[4], UC_HOOK_INSN, (void *)(uintptr_t)on_cpuid, NULL, 1, 0, UC_X86_INS_CPUID), "hook");
    check(uc_hook_add(uc, &hooks[3], UC_HOOK_INTR, (void *)(uintptr_t)on_int, NULL, 1, 0), "hook");
}

/* Only here: in protected mode the state would not be whole. */
static void save_where_asked(void) {
    if (!console_save_asked()) return;
    if (get(UC_X86_REG_CR0) & PROTECTED) fprintf(stderr, "\nmonitor: this processor is not saved in protected mode\n");
    else machine_save(&m);
}

static void rest(void) {
    uint64_t now = processor_time(), left = m.wake > now ? m.wake - now : 0, time = left < REST ? left : REST;
    nanosleep(&(struct timespec){0, (long)time}, NULL);
    rested += time;
    keep_time();
    save_where_asked();
}

/* Where the engine stopped: at a halt until an interrupt comes, which a board's INT makes. NULL, or why it is over. */
static const char *wait_halted(void) {
    uint8_t instruction = 0;
    uint32_t base = get(UC_X86_REG_CR0) & PROTECTED ? 0 : get(UC_X86_REG_CS) << 4;
    uc_mem_read(uc, base + get(UC_X86_REG_EIP) - 1, &instruction, 1);
    if (instruction != HALT) return NULL;
    if (!(get(UC_X86_REG_EFLAGS) & FLAG_INTERRUPT)) return "halted with interrupts off";
    while (!m.interrupt && !is_over()) rest();
    if (m.interrupt) enter(machine_acknowledge(&m), (uint16_t)get(UC_X86_REG_EIP));
    return NULL;
}

/* The engine runs until the guest halts: stopped in protected mode this one, of 16 bits, would cut EIP. */
static const char *run_guest(void) {
    const char *why = NULL;
    if (m.processor) take_processor();
    else reset_processor();
    if (m.options.load && (why = wait_halted())) return why;
    while (!is_over()) {
        uint64_t at = ((uint64_t)get(UC_X86_REG_CS) << 4) + (uint16_t)get(UC_X86_REG_EIP);
        uc_err error = uc_emu_start(uc, at, UINT64_MAX, 0, 0);
        if (error != UC_ERR_OK) return uc_strerror(error);
        if (failure) return failure;
        if (is_over()) break;
        keep_time();
        if (m.reset) reset_processor();
        else if ((why = wait_halted())) return why;
    }
    return console_ended() ? console_why() : "the time is up";
}

int main(int count, char **words) {
    options wanted;
    options_read(&wanted, count, words);
    machine_open(&m, &wanted);
    open_unicorn();
    move_slots();
    host_began = time_by(CLOCK_MONOTONIC);
    began = had_time() - m.loaded_at;
    watch_time();
    const char *why = run_guest();
    uint32_t cs = get(UC_X86_REG_CS), ip = get(UC_X86_REG_EIP);
    machine_close(&m, why);
    fprintf(stderr, "unicorn: at %04X:%X\n", cs, ip);
    return 0;
}
