/* A whole monitor without KVM: the processor is Unicorn. cc -O2 unicorn.c $(pkg-config --cflags --libs board) -lunicorn
 *
 *     a.out BIOS DISK MIB [SAVE [LOAD]]      as in a.out /usr/share/seabios/bios.bin disk.img 8 saved
 *
 * It is as kvm.c beside it, but that Unicorn has no interrupts: they are entered here, in real mode and where the guest
 * halts. That is enough for firmware and a boot sector, and no more; there the guest is saved too. */
#define _GNU_SOURCE
#include "board.h"
#include <fcntl.h>
#include <signal.h>
#include <stdio.h>
#include <stdlib.h>
#include <string.h>
#include <sys/ioctl.h>
#include <sys/mman.h>
#include <time.h>
#include <unicorn/unicorn.h>
#include <unistd.h>

enum { TICK = 1000 /* us */, END_KEY = 0x1D, ROM_BYTES = 512 << 10, SECTOR = 512, REGISTERS = 14 };
enum { PROTECTED = 1, TRAP = 0x100, INTERRUPTS = 0x200, HLT = 0xF4, INT = 0xCD, DISK_COMMAND = 0x1F7, FLUSH_CACHE = 0xE7 };
static const int registers[REGISTERS] = {UC_X86_REG_EAX, UC_X86_REG_EBX, UC_X86_REG_ECX, UC_X86_REG_EDX, UC_X86_REG_ESI,
    UC_X86_REG_EDI, UC_X86_REG_EBP, UC_X86_REG_ESP, UC_X86_REG_EFLAGS, UC_X86_REG_CS, UC_X86_REG_DS, UC_X86_REG_ES,
    UC_X86_REG_SS, UC_X86_REG_EIP};
static struct saved { /* what is saved between the memory and the board */
    uint64_t mib, image_bytes;
    board_clocks clocks;
    uint32_t value[REGISTERS];
} s;
static board b;
static board_reply last; /* of each step: INT, whether COM1 has room, the version of the map */
static _Alignas(BOARD_PAGE) uint8_t rom[ROM_BYTES]; /* the BIOS again and again, so that each range of it is one slot */
static uint8_t *guest, *disk;
static size_t disk_bytes;
static uint32_t reset, seen = UINT32_MAX; /* what is to be done yet; the version of the map that the slots are of */
static uc_engine *uc;
static uc_context *first; /* of a processor at reset */
static volatile sig_atomic_t is_save_asked, is_ended;

static void need(bool is_done, const char *what) { if (!is_done) { perror(what); exit(1); } }
static void ok(uint32_t status) { if (status) { fprintf(stderr, "%s\n", board_status_text(status)); exit(1); } }
static void on_signal(int number) { is_save_asked = number == SIGUSR1; }
static uint8_t *map_file(const char *name, int flags, size_t *bytes) { /* of /dev/zero as many bytes as are asked for */
    int file = open(name, (flags == MAP_SHARED ? O_RDWR : O_RDONLY) | O_CLOEXEC);
    off_t end = lseek(file, 0, SEEK_END);
    if (end > 0) *bytes = (size_t)end;
    void *at = mmap(NULL, *bytes, PROT_READ | PROT_WRITE, flags, file, 0);
    need(at != MAP_FAILED && !close(file), name);
    return at;
}
static uint32_t get(int name) { uint32_t value = 0; uc_reg_read(uc, name, &value); return value; }
static void set(int name, uint32_t value) { uc_reg_write(uc, name, &value); }
static uint64_t serve(uint8_t what, uint8_t kind, uint64_t addr, uint64_t value, uint32_t bytes) {
    ok(board_access(&b, what, kind, addr, (uint8_t *)&value, bytes, guest, (uint32_t)s.mib, &last));
    return value;
}
static uint64_t on_read(uc_engine *u, uint64_t offset, unsigned bytes, void *lo) {
    return (void)u, serve(BOARD_MEMORY, BOARD_READ, (uintptr_t)lo + offset, 0, bytes);
}
static void on_write(uc_engine *u, uint64_t offset, unsigned bytes, uint64_t value, void *lo) {
    (void)u, serve(BOARD_MEMORY, BOARD_WRITE, (uintptr_t)lo + offset, value, bytes);
}
static bool on_read_only(uc_engine *u, uc_mem_type type, uint64_t addr, int bytes, int64_t value, void *x) {
    return (void)u, (void)type, (void)x, serve(BOARD_MEMORY, BOARD_WRITE, addr, (uint64_t)value, (uint32_t)bytes), true;
}
static void follow_map(void) { /* all anew: the slots, and between them what exits */
    static board_slot slot[BOARD_MOST_SLOTS + 1];
    static board_range ranges[BOARD_MOST_RANGES];
    board_window window; board_map map;
    ok(board_ranges(&b, &map, ranges, BOARD_MOST_RANGES, &window, 0));
    if (seen != UINT32_MAX) uc_mem_unmap(uc, 0, 1ull << 32);
    uint32_t count = board_slots_of(ranges, map.ranges, (uint32_t)s.mib, ROM_BYTES, slot);
    for (uint64_t k = 0, at = 0, lo; k <= count; at = slot[k++].hi + 1ull) {
        uint32_t rights = slot[k].is_read_only ? UC_PROT_READ | UC_PROT_EXEC : UC_PROT_ALL;
        uint8_t *bytes = (slot[k].is_rom ? rom : guest) + slot[k].offset;
        lo = k < count ? slot[k].lo : 1ull << 32;
        if (at < lo) uc_mmio_map(uc, at, lo - at, on_read, (void *)(uintptr_t)at, on_write, (void *)(uintptr_t)at);
        if (k < count) uc_mem_map_ptr(uc, lo, slot[k].hi + 1ull - lo, rights, bytes);
    }
    seen = map.version;
}
static void keep_time(void) { /* by the host's clock, but for what the guest was kept from: no flood of ticks */
    static uint64_t began;
    struct timespec host;
    clock_gettime(CLOCK_MONOTONIC, &host);
    uint64_t now = host.tv_sec * 1000000000ull + host.tv_nsec, had = s.clocks.pulses * 1000 / 1193182 * 1000000;
    if (!began || now - began > had + 50000 * TICK) began = now - had; /* a loaded guest has had some */
    ok(board_run_until(&b, &s.clocks, now - began, &last));
}
static void listen_to_terminal(void) {
    uint8_t key;
    for (int typed; last.serial_room && !ioctl(STDIN_FILENO, FIONREAD, &typed) && typed > 0;)
        if (read(STDIN_FILENO, &key, 1) != 1 || key == END_KEY) is_ended = 1;
        else ok(board_receive(&b, key, &last));
}
static void write_disk(void) {
    for (uint32_t k = 0; k < disk_bytes / SECTOR; k++) ok(board_disk_read(&b, k, disk + (size_t)k * SECTOR, SECTOR));
}
static uint64_t serve_port(uint8_t kind, uint32_t port, uint32_t value, int bytes) {
    if (reset || is_ended) return UINT32_MAX; /* the engine goes on to the end of its block */
    keep_time(), listen_to_terminal();
    uint64_t got = serve(BOARD_PORT, kind, port, value, (uint32_t)bytes);
    if (last.has_sent) putchar(last.sent), fflush(stdout);
    if (kind == BOARD_WRITE && port == DISK_COMMAND && value == FLUSH_CACHE) write_disk();
    if (last.version != seen) follow_map();
    if ((reset = last.reset) || is_ended) uc_emu_stop(uc);
    return got;
}
static uint32_t on_in(uc_engine *u, uint32_t port, int bytes, void *x) {
    return (void)u, (void)x, (uint32_t)serve_port(BOARD_READ, port, 0, bytes);
}
static void on_out(uc_engine *u, uint32_t port, int bytes, uint32_t value, void *x) {
    (void)u, (void)x, serve_port(BOARD_WRITE, port, value, bytes);
}

static void enter(uint8_t vector, uint16_t ip) {
    uint32_t flags = get(UC_X86_REG_EFLAGS), sp = (uint16_t)(get(UC_X86_REG_ESP) - 6);
    uint16_t frame[] = {ip, (uint16_t)get(UC_X86_REG_CS), (uint16_t)flags}, target[2] = {0};
    uc_mem_write(uc, (get(UC_X86_REG_SS) << 4) + sp, frame, sizeof frame);
    uc_mem_read(uc, 4u * vector, target, sizeof target);
    set(UC_X86_REG_ESP, (get(UC_X86_REG_ESP) & 0xFFFF0000u) | sp), set(UC_X86_REG_CS, target[1]);
    set(UC_X86_REG_EFLAGS, flags & ~(uint32_t)(INTERRUPTS | TRAP)), set(UC_X86_REG_EIP, target[0]);
}
static void on_int(uc_engine *u, uint32_t number, void *x) { /* INT n, which Unicorn leaves to its user */
    uint8_t instruction = 0;
    uint16_t ip = (uint16_t)get(UC_X86_REG_EIP);
    if (get(UC_X86_REG_CR0) & PROTECTED) is_ended = !reset; /* an exception in protected mode */
    if (reset || is_ended) { uc_emu_stop(uc); return; }
    uc_mem_read(uc, (get(UC_X86_REG_CS) << 4) + ip, &instruction, 1);
    (void)u, (void)x, enter((uint8_t)number, instruction == INT ? (uint16_t)(ip + 2) : ip);
}
static void reset_processor(void) {
    uc_context_restore(uc, first); /* a write to CR0 alone would leave the engine in protected mode */
    set(UC_X86_REG_CS, 0xF000), set(UC_X86_REG_EIP, 0xFFF0);
    if (reset == BOARD_HARD_RESET) ok(board_prepare(&b, &last));
    reset = BOARD_NO_RESET;
}
static void save(const char *name) {
    (void)board_save(&b, rom, 0, &s.image_bytes); /* without room it tells how many bytes they are */
    uint8_t *image = map_file("/dev/zero", MAP_PRIVATE, &s.image_bytes);
    ok(board_save(&b, image, s.image_bytes, &s.image_bytes));
    for (int k = 0; k < REGISTERS; k++) s.value[k] = get(registers[k]);
    s.value[REGISTERS - 1]--; /* the HLT once more */
    remove(name); /* it may be the file that was loaded, whose pages are the guest's */
    FILE *to = fopen(name, "wb");
    need(to && fwrite(guest, s.mib << 20, 1, to) && fwrite(&s, sizeof s, 1, to), name);
    need(fwrite(image, s.image_bytes, 1, to) && !fclose(to) && !munmap(image, s.image_bytes), name);
    write_disk();
}
static void load(const char *name) {
    size_t bytes = 0, place = s.mib << 20;
    guest = map_file(name, MAP_PRIVATE, &bytes);
    if (bytes > place + sizeof s) memcpy(&s, guest + place, sizeof s);
    if (s.mib << 20 != place || bytes != place + sizeof s + s.image_bytes) ok(BOARD_BAD_IMAGE);
    ok(board_load(&b, guest + place + sizeof s, s.image_bytes));
    ok(board_now(&b, &last)); /* a load tells no reply */
    for (int k = 0; k < REGISTERS; k++) set(registers[k], s.value[k]);
}
static void power_on(const uint8_t *bios, size_t bios_bytes) {
    char digits[16];
    guest = map_file("/dev/zero", MAP_PRIVATE, &(size_t){s.mib << 20});
    strftime(digits, sizeof digits, "%Y%m%d%H%M%S", gmtime(&(time_t){time(NULL)}));
    ok(board_open(&b, (uint32_t)s.mib, &(board_card){0}, 0, bios, bios_bytes, disk, disk_bytes));
    ok(board_ask(&b, BOARD_TIME, 0, 0, 0, 0, strtoull(digits, NULL, 10), &last));
    reset = BOARD_HARD_RESET;
}
static bool wait_halted(const char *name) { /* where the engine stopped: whether the guest goes on */
    uint8_t instruction = 0;
    uint32_t ip = get(UC_X86_REG_EIP), base = get(UC_X86_REG_CR0) & PROTECTED ? 0 : get(UC_X86_REG_CS) << 4;
    uc_mem_read(uc, base + ip - 1, &instruction, 1);
    if (reset || instruction != HLT) return true;
    if (!(get(UC_X86_REG_EFLAGS) & INTERRUPTS)) return false; /* halted for good */
    for (; !last.interrupt && !is_ended; usleep(TICK), keep_time(), listen_to_terminal())
        if (is_save_asked && name) save(name), is_save_asked = 0;
    if (!is_ended) ok(board_ack(&b, &last)), enter((uint8_t)last.value, (uint16_t)ip);
    return true;
}

int main(int count, char **words) {
    if (count < 4) return fprintf(stderr, "usage: unicorn BIOS DISK MIB [SAVE [LOAD]]\n"), 2;
    size_t bios_bytes; uc_hook hook[4]; signal(SIGUSR1, on_signal);
    uint8_t *bios = map_file(words[1], MAP_PRIVATE, &bios_bytes);
    for (size_t at = 0; at < ROM_BYTES; at++) rom[at] = bios[at % bios_bytes];
    disk = map_file(words[2], MAP_SHARED, &disk_bytes);
    s.mib = strtoul(words[3], NULL, 10);
    need(!uc_open(UC_ARCH_X86, UC_MODE_16, &uc) && !uc_context_alloc(uc, &first) && !uc_context_save(uc, first), "uc");
    uc_hook_add(uc, &hook[0], UC_HOOK_INSN, (void *)(uintptr_t)on_in, NULL, 1, 0, UC_X86_INS_IN);
    uc_hook_add(uc, &hook[1], UC_HOOK_INSN, (void *)(uintptr_t)on_out, NULL, 1, 0, UC_X86_INS_OUT);
    uc_hook_add(uc, &hook[2], UC_HOOK_MEM_WRITE_PROT, (void *)(uintptr_t)on_read_only, NULL, 1, 0);
    uc_hook_add(uc, &hook[3], UC_HOOK_INTR, (void *)(uintptr_t)on_int, NULL, 1, 0);
    if (count > 5) load(words[5]);
    else power_on(bios, bios_bytes);
    for (bool goes_on = true; goes_on && !is_ended;) {
        if (reset) reset_processor();
        if (last.version != seen) follow_map();
        uint64_t at = (get(UC_X86_REG_CS) << 4) + (uint16_t)get(UC_X86_REG_EIP);
        goes_on = !uc_emu_start(uc, at, UINT64_MAX, 0, 0) && wait_halted(count > 4 ? words[4] : NULL);
    }
    write_disk(), fprintf(stderr, "unicorn: ended at %04X:%X\n", get(UC_X86_REG_CS), get(UC_X86_REG_EIP));
}
