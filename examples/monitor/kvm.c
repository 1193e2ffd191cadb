/* The guest's processor is the host's, by KVM. The interrupt controllers, the timer and the map are the board's. */
#define _GNU_SOURCE
#include "kvm_state.h"
#include "machine.h"
#include <errno.h>
#include <fcntl.h>
#include <linux/kvm.h>
#include <signal.h>
#include <stdio.h>
#include <stdlib.h>
#include <string.h>
#include <sys/ioctl.h>
#include <sys/mman.h>
#include <time.h>
#include <unistd.h>

enum {
    RESET_RIP = 0xFFF0,
    RESET_CS = 0xF000,
    FLAGS_RESERVED = 0x2,
    CPUID_FEATURES = 1,
    CPUID_KVM = 0x4000,        /* the high half of KVM's own leaves */
    EDX_APIC = 9,
    ECX_X2APIC = 21,
    ECX_TSC_DEADLINE = 24,
    ECX_HYPERVISOR = 31,
    MOST_CPUID = 256,
    LISTEN = 10000000          /* nanoseconds between two looks at the terminal */
};
#define RESET_BASE 0xFFFF0000u
#define IDENTITY_PAGE 0xFEFFC000ull /* pages that KVM keeps for itself on some hosts, outside the ROM's range */
#define TASK_PAGES 0xFEFFD000ul

static machine m;
static int kvm, vm, cpu;
static struct kvm_run *run;
static struct kvm_sregs first_sregs;
static memory_slot slots[MOST_SLOTS]; /* as KVM has them; host NULL is none */
static timer_t timer;
static uint64_t began, planned, runs, slot_calls; /* planned: the m.wake that the timer was set for */

static _Noreturn void fail(const char *what) {
    perror(what);
    exit(1);
}

static uint64_t host_time(void) {
    struct timespec t;
    clock_gettime(CLOCK_MONOTONIC, &t);
    return (uint64_t)t.tv_sec * NANOSECONDS + (uint64_t)t.tv_nsec;
}

uint64_t processor_time(void) { return host_time() - began; }

void processor_wrote(uint64_t addr, uint64_t bytes) { (void)addr, (void)bytes; }

static void on_alarm(int number) {
    (void)number;
    run->immediate_exit = 1;
}

/* ---- memory */

static void set_slot(size_t k, const memory_slot *s) {
    struct kvm_userspace_memory_region region = {
        .slot = (uint32_t)k,
        .flags = s->read_only ? KVM_MEM_READONLY : 0,
        .guest_phys_addr = s->first,
        .memory_size = s->host ? (uint64_t)s->last - s->first + 1 : 0,
        .userspace_addr = (uint64_t)s->host,
    };
    slot_calls++;
    if (ioctl(vm, KVM_SET_USER_MEMORY_REGION, &region)) fail("KVM_SET_USER_MEMORY_REGION");
}

static bool is_among(const memory_slot *s, const memory_slot *of, size_t count) {
    for (size_t k = 0; k < count; k++)
        if (of[k].first == s->first && of[k].last == s->last && of[k].host == s->host && of[k].read_only == s->read_only) return true;
    return false;
}

/* Slots may not overlap: those that are gone go first, then the new ones come. */
static void move_slots(void) {
    size_t free_slot = 0;
    m.slots_moved = false;
    for (size_t k = 0; k < MOST_SLOTS; k++) {
        if (!slots[k].host || is_among(&slots[k], m.slots, m.slot_count)) continue;
        slots[k].host = NULL;
        set_slot(k, &slots[k]);
    }
    for (size_t k = 0; k < m.slot_count; k++) {
        if (is_among(&m.slots[k], slots, MOST_SLOTS)) continue;
        while (slots[free_slot].host) free_slot++;
        slots[free_slot] = m.slots[k];
        set_slot(free_slot, &slots[free_slot]);
    }
}

/* ---- the processor */

/* The host's processor without an APIC, since the board has none, and without KVM's own devices. */
static void set_cpuid(void) {
    struct kvm_cpuid2 *id = calloc(1, sizeof *id + MOST_CPUID * sizeof *id->entries);
    uint32_t kept = 0;
    if (!id) fail("memory");
    id->nent = MOST_CPUID;
    if (ioctl(kvm, KVM_GET_SUPPORTED_CPUID, id)) fail("KVM_GET_SUPPORTED_CPUID");
    for (uint32_t k = 0; k < id->nent; k++) {
        struct kvm_cpuid_entry2 e = id->entries[k];
        if (e.function >> 16 == CPUID_KVM) continue;
        if (e.function == CPUID_FEATURES) {
            e.edx &= ~(1u << EDX_APIC);
            e.ecx &= ~(1u << ECX_X2APIC | 1u << ECX_TSC_DEADLINE | 1u << ECX_HYPERVISOR);
        }
        id->entries[kept++] = e;
    }
    id->nent = kept;
    if (ioctl(cpu, KVM_SET_CPUID2, id)) fail("KVM_SET_CPUID2");
    free(id);
}

static void reset_processor(void) {
    struct kvm_sregs s = first_sregs;
    struct kvm_regs r = {.rip = RESET_RIP, .rflags = FLAGS_RESERVED};
    struct kvm_vcpu_events none;
    memset(&none, 0, sizeof none);
    s.cs.selector = RESET_CS;
    s.cs.base = RESET_BASE;
    s.apic_base = 0; /* disabled: else KVM tells of an APIC in CPUID */
    if (ioctl(cpu, KVM_SET_SREGS, &s) || ioctl(cpu, KVM_SET_REGS, &r) || ioctl(cpu, KVM_SET_VCPU_EVENTS, &none)) fail("KVM_SET_REGS");
}

const uint32_t processor_kind = PROCESSOR_KVM;
static bool halted; /* it waits for an interrupt, and runs no more in KVM until then */

size_t processor_bytes(void) { return kvm_state_bytes(); }

void processor_save(uint8_t *into) { kvm_state_save(kvm, cpu, halted, into); }

/* The processor at reset, or that of a guest that was loaded. */
static void start_processor(void) {
    reset_processor();
    if (!m.processor) return;
    if (m.processor_bytes != kvm_state_bytes()) {
        fprintf(stderr, "monitor: %s: a processor that another monitor saved\n", m.options.load);
        exit(1);
    }
    halted = kvm_state_load(cpu, m.processor);
    m.processor = NULL;
}

static void open_kvm(void) {
    uint64_t identity = IDENTITY_PAGE;
    kvm = open("/dev/kvm", O_RDWR | O_CLOEXEC);
    if (kvm < 0) fail("/dev/kvm");
    if ((vm = ioctl(kvm, KVM_CREATE_VM, 0)) < 0) fail("KVM_CREATE_VM");
    ioctl(vm, KVM_SET_IDENTITY_MAP_ADDR, &identity);
    ioctl(vm, KVM_SET_TSS_ADDR, TASK_PAGES);
    if ((cpu = ioctl(vm, KVM_CREATE_VCPU, 0)) < 0) fail("KVM_CREATE_VCPU");
    int bytes = ioctl(kvm, KVM_GET_VCPU_MMAP_SIZE, 0);
    run = mmap(NULL, (size_t)bytes, PROT_READ | PROT_WRITE, MAP_SHARED, cpu, 0);
    if (run == MAP_FAILED) fail("KVM_GET_VCPU_MMAP_SIZE");
    set_cpuid();
    if (ioctl(cpu, KVM_GET_SREGS, &first_sregs)) fail("KVM_GET_SREGS");
}

/* ---- exits */

static void serve_port(void) {
    uint8_t *data = (uint8_t *)run + run->io.data_offset, kind = run->io.direction == KVM_EXIT_IO_OUT ? BOARD_WRITE : BOARD_READ;
    for (size_t left = run->io.count, done; left > 0; left -= done, data += done * run->io.size)
        done = machine_string(&m, kind, run->io.port, run->io.size, data, left);
}

static const char *serve(void);

/* The instruction that made the last exit ends, and no other begins. It may make further exits, as one does that reads
 * and writes memory outside the slots: KVM says by EINTR that it has ended. */
static void end_instruction(void) {
    run->immediate_exit = 1;
    while (ioctl(cpu, KVM_RUN, 0) == 0) {
        serve();
        run->immediate_exit = 1;
    }
}

static void save_where_asked(void) {
    if (!console_save_asked()) return;
    end_instruction();
    machine_save(&m);
}

/* A soft reset is the processor's alone. */
static void serve_reset(void) {
    end_instruction();
    machine_take_reset(&m);
    reset_processor();
}

/* The time that has come, and what was typed. The timer ends KVM_RUN when there is something to do again. */
static void keep_time(void) {
    run->immediate_exit = 0; /* first: from here on the timer sets it */
    uint64_t now = processor_time();
    if (now >= m.wake) clock_runs_to(&m, now);
    console_listen(&m);
    uint64_t next = began + (m.wake < now + LISTEN ? m.wake : now + LISTEN);
    struct itimerspec at = {.it_value = {(time_t)(next / NANOSECONDS), (long)(next % NANOSECONDS)}};
    timer_settime(timer, TIMER_ABSTIME, &at, NULL);
    planned = m.wake;
}

/* The processor takes INT where it can; else KVM says when it can. */
static void offer_interrupt(void) {
    if (m.interrupt && run->ready_for_interrupt_injection && run->if_flag) {
        struct kvm_interrupt interrupt = {machine_acknowledge(&m)};
        if (ioctl(cpu, KVM_INTERRUPT, &interrupt)) fail("KVM_INTERRUPT");
    }
    run->request_interrupt_window = m.interrupt;
}

static bool is_over(void) { return console_ended() || (m.options.seconds && processor_time() - m.loaded_at > m.options.seconds * NANOSECONDS); }

static void wait_halted(void) {
    halted = true;
    while (!m.interrupt && !is_over()) {
        keep_time();
        save_where_asked();
        if (m.interrupt) break;
        uint64_t now = processor_time(), next = m.wake < now + LISTEN ? m.wake : now + LISTEN;
        struct timespec rest = {0, (long)(next > now ? next - now : 0)};
        nanosleep(&rest, NULL);
    }
    halted = false;
}

/* Serves an exit: NULL, or why the guest cannot go on. */
static const char *serve(void) {
    switch (run->exit_reason) {
    case KVM_EXIT_IO:
        serve_port();
        if (m.reset) serve_reset();
        if (m.slots_moved) move_slots();
        return NULL;
    case KVM_EXIT_MMIO:
        machine_memory(&m, run->mmio.is_write ? BOARD_WRITE : BOARD_READ, run->mmio.phys_addr, run->mmio.len, run->mmio.data);
        return NULL;
    case KVM_EXIT_HLT:
        if (!run->if_flag) return "halted with interrupts off";
        wait_halted();
        return NULL;
    case KVM_EXIT_SHUTDOWN: /* a triple fault: the south bridge answers it with INIT */
        reset_processor();
        return NULL;
    case KVM_EXIT_IRQ_WINDOW_OPEN:
    case KVM_EXIT_INTR: return NULL;
    default: return "an exit that is not served";
    }
}

static const char *run_guest(void) {
    if (halted) wait_halted();
    while (!is_over()) {
        save_where_asked();
        if (run->immediate_exit || m.wake != planned || processor_time() >= m.wake) keep_time();
        offer_interrupt();
        runs++;
        if (ioctl(cpu, KVM_RUN, 0) == 0) {
            const char *why = serve();
            if (why) return why;
        } else if (errno != EINTR && errno != EAGAIN) {
            fail("KVM_RUN");
        }
    }
    save_where_asked();
    return console_ended() ? console_why() : "the time is up";
}

int main(int count, char **words) {
    options wanted;
    struct sigaction act = {.sa_handler = on_alarm};
    struct sigevent event = {.sigev_notify = SIGEV_SIGNAL, .sigev_signo = SIGALRM};
    options_read(&wanted, count, words);
    machine_open(&m, &wanted);
    open_kvm();
    move_slots();
    start_processor();
    sigaction(SIGALRM, &act, NULL);
    if (timer_create(CLOCK_MONOTONIC, &event, &timer)) fail("timer_create");
    began = host_time() - m.loaded_at;
    run->immediate_exit = 1; /* so that the first round sets the timer */
    const char *why = run_guest();
    struct kvm_regs r;
    struct kvm_sregs s;
    ioctl(cpu, KVM_GET_REGS, &r);
    ioctl(cpu, KVM_GET_SREGS, &s);
    machine_close(&m, why);
    fprintf(stderr, "kvm: at %04X:%llX; %llu runs, %llu slot calls, exit %u\n", s.cs.selector, r.rip, (unsigned long long)runs,
            (unsigned long long)slot_calls, run->exit_reason);
    return 0;
}
