/* A whole monitor: a PC of one processor by KVM on the board's chips. cc -O2 kvm.c $(pkg-config --cflags --libs board)
 *
 *     a.out BIOS DISK MIB [SAVE [LOAD]]      as in a.out /usr/share/seabios/bios.bin disk.img 64 saved
 *
 * COM1 is standard input and output, so `stty raw -echo` stands before it, and Ctrl-] ends it. SIGUSR1 writes the guest
 * as it runs into SAVE; LOAD goes on from such a file. DISK gets what was written at FLUSH CACHE, save and end. */
#define _GNU_SOURCE
#include "board.h"
#include <errno.h>
#include <fcntl.h>
#include <linux/kvm.h>
#include <signal.h>
#include <stdio.h>
#include <stdlib.h>
#include <string.h>
#include <sys/ioctl.h>
#include <sys/mman.h>
#include <time.h>
#include <unistd.h>

enum { TICK = 1000 /* us */, END_KEY = 0x1D, ROM_BYTES = 512 << 10, SECTOR = 512, LEAVES = 256, MSRS = 11 };
enum { DISK_COMMAND = 0x1F7, FLUSH_CACHE = 0xE7 };
static struct saved { /* what is saved between the memory and the board */
    uint64_t mib, image_bytes, is_halted;
    board_clocks clocks;
    struct kvm_regs regs; struct kvm_sregs sregs; struct kvm_xcrs xcrs; struct kvm_xsave xsave;
    struct kvm_vcpu_events events;
    struct { struct kvm_msrs head; struct kvm_msr_entry entry[MSRS]; } msrs; /* TSC, SYSENTER, PAT, EFER, SYSCALL, GS */
} s = {.msrs = {{.nmsrs = MSRS}, {{0x10}, {0x174}, {0x175}, {0x176}, {0x277}, {0xC0000080}, {0xC0000081}, {0xC0000082},
                                  {0xC0000083}, {0xC0000084}, {0xC0000102}}}};
static board b;
static board_reply last; /* of each step: INT, whether COM1 has room, the version of the map */
static _Alignas(BOARD_PAGE) uint8_t rom[ROM_BYTES]; /* the BIOS again and again, so that each range of it is one slot */
static uint8_t *guest, *disk;
static size_t disk_bytes;
static uint32_t reset, seen = UINT32_MAX; /* what is to be done yet; the version of the map that the slots are of */
static int kvm, vm, cpu;
static struct kvm_run *run;
static struct kvm_sregs first; /* of a processor at reset */
static volatile sig_atomic_t is_save_asked, is_ended;

static void need(bool is_done, const char *what) { if (!is_done) { perror(what); exit(1); } }
static void ok(uint32_t status) { if (status) { fprintf(stderr, "kvm: %s\n", board_status_text(status)); exit(1); } }
static uint8_t *map_file(const char *name, int flags, size_t *bytes) { /* of /dev/zero as many bytes as are asked for */
    int file = open(name, (flags == MAP_SHARED ? O_RDWR : O_RDONLY) | O_CLOEXEC);
    off_t end = lseek(file, 0, SEEK_END);
    if (end > 0) *bytes = (size_t)end;
    void *at = mmap(NULL, *bytes, PROT_READ | PROT_WRITE, flags, file, 0);
    need(at != MAP_FAILED && !close(file), name);
    return at;
}
static void on_signal(int number) {
    is_save_asked |= number == SIGUSR1;
    run->immediate_exit = 1; /* so that a KVM_RUN ends which only begins */
}

static void follow_map(void) {
    static board_slots slots;
    static board_slot_change changes[BOARD_MOST_CHANGES];
    static board_range ranges[BOARD_MOST_RANGES];
    board_window window; board_map map;
    ok(board_ranges(&b, &map, ranges, BOARD_MOST_RANGES, &window, 0));
    uint32_t count = board_slots_follow(&slots, ranges, map.ranges, (uint32_t)s.mib, ROM_BYTES, changes);
    for (board_slot_change *c = changes; c < changes + count; c++) {
        uint8_t *at = (c->slot.is_rom ? rom : guest) + c->slot.offset;
        uint64_t bytes = c->is_added ? (uint64_t)c->slot.hi - c->slot.lo + 1 : 0; /* 0 takes it away */
        uint32_t flags = c->slot.is_read_only ? KVM_MEM_READONLY : 0;
        struct kvm_userspace_memory_region region = {c->number, flags, c->slot.lo, bytes, (uintptr_t)at};
        need(!ioctl(vm, KVM_SET_USER_MEMORY_REGION, &region), "KVM_SET_USER_MEMORY_REGION");
    }
    seen = map.version;
}

static void serve(uint8_t what, bool is_write, uint64_t addr, uint8_t *data, uint32_t bytes) {
    uint8_t kind = is_write ? BOARD_WRITE : BOARD_READ;
    ok(board_access(&b, what, kind, addr, data, bytes, guest, (uint32_t)s.mib, &last));
}
static void write_disk(void) {
    for (uint32_t k = 0; k < disk_bytes / SECTOR; k++) ok(board_disk_read(&b, k, disk + (size_t)k * SECTOR, SECTOR));
}
static void serve_port(void) { /* a string instruction is many accesses of one port */
    uint8_t *data = (uint8_t *)run + run->io.data_offset, is_write = run->io.direction == KVM_EXIT_IO_OUT;
    for (uint32_t k = 0; k < run->io.count && !reset; k++, data += run->io.size, reset = last.reset) {
        serve(BOARD_PORT, is_write, run->io.port, data, run->io.size);
        if (last.has_sent) putchar(last.sent), fflush(stdout);
        if (is_write && run->io.port == DISK_COMMAND && *data == FLUSH_CACHE) write_disk();
    }
}
static bool serve_exit(void) { /* whether the guest can go on */
    typeof(run->mmio) *at = &run->mmio;
    switch (run->exit_reason) {
    case KVM_EXIT_IO: serve_port(); return true;
    case KVM_EXIT_MMIO: serve(BOARD_MEMORY, at->is_write, at->phys_addr, at->data, at->len); return true;
    case KVM_EXIT_HLT: return (s.is_halted = run->if_flag);
    case KVM_EXIT_SHUTDOWN: reset = BOARD_SOFT_RESET; return true; /* a triple fault */
    default: return run->exit_reason == KVM_EXIT_IRQ_WINDOW_OPEN || run->exit_reason == KVM_EXIT_INTR;
    }
}
static void end_instruction(void) { /* the one that made the last exit, and may make more; none begins */
    do run->immediate_exit = 1; while (!ioctl(cpu, KVM_RUN, 0) && serve_exit());
}
static void keep_time(void) { /* by the host's clock, but for what the guest was kept from: no flood of ticks */
    static uint64_t began;
    struct timespec host;
    clock_gettime(CLOCK_MONOTONIC, &host);
    uint64_t now = host.tv_sec * 1000000000ull + host.tv_nsec, had = s.clocks.pulses * 1000 / 1193182 * 1000000;
    if (!began || now - began > had + 50000 * TICK) began = now - had; /* a loaded guest has had some */
    ok(board_run_until(&b, &s.clocks, now - began, &last));
}
static void listen_to_terminal(void) {
    uint8_t key;
    for (int typed; last.serial_room && !ioctl(STDIN_FILENO, FIONREAD, &typed) && typed > 0;)
        if (read(STDIN_FILENO, &key, 1) != 1 || key == END_KEY) is_ended = 1;
        else ok(board_receive(&b, key, &last));
}

static void open_kvm(void) { /* its processor has no APIC, as the board has none, and does not know of KVM */
    static struct { struct kvm_cpuid2 head; struct kvm_cpuid_entry2 leaf[LEAVES]; } id = {.head.nent = LEAVES};
    uint64_t identity = 0xFEFFC000, task = 0xFEFFD000; /* pages that KVM takes for itself: not in the ROM's range */
    need((kvm = open("/dev/kvm", O_RDWR | O_CLOEXEC)) >= 0 && (vm = ioctl(kvm, KVM_CREATE_VM, 0)) >= 0, "/dev/kvm");
    need(!ioctl(vm, KVM_SET_IDENTITY_MAP_ADDR, &identity) && !ioctl(vm, KVM_SET_TSS_ADDR, task), "KVM_SET_TSS_ADDR");
    need((cpu = ioctl(vm, KVM_CREATE_VCPU, 0)) >= 0 && !ioctl(cpu, KVM_GET_SREGS, &first), "KVM_CREATE_VCPU");
    run = mmap(NULL, (size_t)ioctl(kvm, KVM_GET_VCPU_MMAP_SIZE, 0), PROT_READ | PROT_WRITE, MAP_SHARED, cpu, 0);
    need(run != MAP_FAILED && !ioctl(kvm, KVM_GET_SUPPORTED_CPUID, &id), "KVM_GET_SUPPORTED_CPUID");
    for (struct kvm_cpuid_entry2 *e = id.leaf; e < id.leaf + id.head.nent; e++) {
        if (e->function == 1) e->edx &= ~(1u << 9), e->ecx &= ~(1u << 21 | 1u << 24 | 1u << 31); /* APIC, timer, KVM */
        if (e->function >> 16 == 0x4000) e->eax = e->ebx = e->ecx = e->edx = 0; /* KVM's own leaves */
    }
    need(!ioctl(cpu, KVM_SET_CPUID2, &id), "KVM_SET_CPUID2");
    first.apic_base = 0; /* else CPUID has an APIC after all */
    first.cs.base = 0xFFFF0000, first.cs.selector = 0xF000;
}
static void move_part(unsigned long what, void *at) { need(ioctl(cpu, what, at) >= 0, "a part of the processor"); }
static void reset_processor(void) {
    end_instruction();
    move_part(KVM_SET_SREGS, &first), move_part(KVM_SET_REGS, &(struct kvm_regs){.rip = 0xFFF0, .rflags = 2});
    move_part(KVM_SET_VCPU_EVENTS, &(struct kvm_vcpu_events){0});
    if (reset == BOARD_HARD_RESET) ok(board_prepare(&b, &last));
    s.is_halted = reset = 0;
}
#define MOVE_ALL(way) move_part(KVM_##way##_SREGS, &s.sregs), move_part(KVM_##way##_XCRS, &s.xcrs), \
    move_part(KVM_##way##_XSAVE, &s.xsave), move_part(KVM_##way##_MSRS, &s.msrs), \
    move_part(KVM_##way##_REGS, &s.regs), move_part(KVM_##way##_VCPU_EVENTS, &s.events)
static void save(const char *name) {
    (void)board_save(&b, rom, 0, &s.image_bytes); /* without room it tells how many bytes they are */
    uint8_t *image = map_file("/dev/zero", MAP_PRIVATE, &s.image_bytes);
    ok(board_save(&b, image, s.image_bytes, &s.image_bytes));
    MOVE_ALL(GET);
    remove(name); /* it may be the file that was loaded, whose pages are the guest's */
    FILE *to = fopen(name, "wb");
    need(to && fwrite(guest, s.mib << 20, 1, to) && fwrite(&s, sizeof s, 1, to), name);
    need(fwrite(image, s.image_bytes, 1, to) && !fclose(to), name);
    munmap(image, s.image_bytes), write_disk();
}
static void load(const char *name) {
    size_t bytes = 0, place = s.mib << 20;
    guest = map_file(name, MAP_PRIVATE, &bytes);
    if (bytes > place + sizeof s) memcpy(&s, guest + place, sizeof s);
    if (s.mib << 20 != place || bytes != place + sizeof s + s.image_bytes) ok(BOARD_BAD_IMAGE);
    ok(board_load(&b, guest + place + sizeof s, s.image_bytes));
    ok(board_now(&b, &last)); /* a load tells no reply */
    MOVE_ALL(SET);
}
static void power_on(const uint8_t *bios, size_t bios_bytes) {
    char digits[16];
    guest = map_file("/dev/zero", MAP_PRIVATE, &(size_t){s.mib << 20});
    strftime(digits, sizeof digits, "%Y%m%d%H%M%S", gmtime(&(time_t){time(NULL)}));
    ok(board_open(&b, (uint32_t)s.mib, &(board_card){0}, 0, bios, bios_bytes, disk, disk_bytes));
    ok(board_ask(&b, BOARD_TIME, 0, 0, 0, 0, strtoull(digits, NULL, 10), &last));
    reset = BOARD_HARD_RESET;
}

int main(int count, char **words) {
    if (count < 4) return fprintf(stderr, "usage: kvm BIOS DISK MIB [SAVE [LOAD]]\n"), 2;
    size_t bios_bytes;
    uint8_t *bios = map_file(words[1], MAP_PRIVATE, &bios_bytes);
    for (size_t at = 0; at < ROM_BYTES; at++) rom[at] = bios[at % bios_bytes];
    disk = map_file(words[2], MAP_SHARED, &disk_bytes);
    s.mib = strtoul(words[3], NULL, 10);
    open_kvm();
    if (count > 5) load(words[5]);
    else power_on(bios, bios_bytes);
    signal(SIGALRM, on_signal), signal(SIGUSR1, on_signal), ualarm(TICK, TICK);
    for (bool goes_on = true; goes_on && !is_ended;) {
        run->immediate_exit = 0; /* from here on a signal sets it */
        if (reset) reset_processor();
        if (is_save_asked && count > 4) end_instruction(), save(words[4]), is_save_asked = 0;
        keep_time(), listen_to_terminal();
        if (last.version != seen) follow_map();
        if (s.is_halted && !last.interrupt) { usleep(TICK); continue; }
        if (last.interrupt && run->ready_for_interrupt_injection && run->if_flag) {
            ok(board_ack(&b, &last));
            need(!ioctl(cpu, KVM_INTERRUPT, &(struct kvm_interrupt){(uint32_t)last.value}), "KVM_INTERRUPT");
            s.is_halted = 0;
        }
        run->request_interrupt_window = last.interrupt;
        goes_on = ioctl(cpu, KVM_RUN, 0) ? errno == EINTR || errno == EAGAIN : serve_exit();
    }
    write_disk(), fprintf(stderr, "kvm: ended after exit %u\n", run->exit_reason);
}
