/* --acpi, with --fw-cfg and --power: the tables of ACPI 1.0 as files of fw_cfg, which SeaBIOS puts into memory as the
 * file etc/table-loader says (QEMU's hw/acpi/bios-linker-loader.c has its form). They name the registers of power.c,
 * the state in which the power is off, and the PCI bus with the routes of its interrupts as SeaBIOS sets them. */
#include "machine.h"
#include <string.h>

enum { PM1_EVENT = 0x600, PM1_CONTROL = 0x604, PM_TIMER = 0x608, SCI = 9, OFF_TYPE = 5 };
enum { HEADER = 36, FADT_BYTES = 116, RSDT_BYTES = HEADER + 4, RSDP_BYTES = 20, FACS_BYTES = 64, CHECKSUM = 9 };
enum { FADT_FACS = 36, FADT_DSDT = 40, RSDT_ENTRY = 36, RSDP_CHECKSUM = 8, RSDP_RSDT = 16 };
enum { ALLOCATE = 1, ADD_POINTER = 2, ADD_CHECKSUM = 3, COMMAND_BYTES = 128, NAME_BYTES = 56 };
enum { HIGH_MEMORY = 1, F_SEGMENT = 2 };
enum { FIRST_CARD = 2, LAST_CARD = 9 };
static const uint8_t lines[] = {10, 10, 11, 11}; /* of PIRQA to PIRQD, by SeaBIOS */
#define TABLES "etc/acpi/tables"
#define RSDP "etc/acpi/rsdp"
#define FACS "etc/acpi/facs"

/* Bytes that grow. */
typedef struct bytes {
    uint8_t at[1024];
    size_t count;
} bytes;

static void put(bytes *b, uint64_t value, size_t count) {
    for (size_t k = 0; k < count && b->count < sizeof b->at; k++) b->at[b->count++] = (uint8_t)(value >> 8 * k);
}

static void put_text(bytes *b, const char *text) {
    for (; *text; text++) put(b, (uint8_t)*text, 1);
}

static void put_at(bytes *b, size_t place, uint64_t value, size_t count) {
    for (size_t k = 0; k < count; k++) b->at[place + k] = (uint8_t)(value >> 8 * k);
}

/* The head of a table, whose length end_table fills in: the loader adds the checksum. */
static size_t begin_table(bytes *b, const char *signature, uint8_t revision) {
    size_t begin = b->count;
    put_text(b, signature);
    put(b, 0, 4);
    put(b, revision, 1);
    put(b, 0, 1);
    put_text(b, "BOARD MONITOR ");
    put(b, 1, 4);
    put_text(b, "BORD");
    put(b, 1, 4);
    return begin;
}

static void end_table(bytes *b, size_t begin) { put_at(b, begin + 4, b->count - begin, 4); }

/* ---- AML: an object that has a length holds all until its end */

enum { NAME = 0x08, SCOPE = 0x10, BUFFER = 0x11, PACKAGE = 0x12, DEVICE = 0x825B };
enum { BYTE = 0x0A, WORD = 0x0B, DWORD = 0x0C };

static size_t begin_object(bytes *b, uint32_t operation) {
    put(b, operation, operation > UINT8_MAX ? 2 : 1);
    put(b, 0, 2); /* the length, of two bytes */
    return b->count - 2;
}

static void end_object(bytes *b, size_t place) {
    size_t length = b->count - place;
    put_at(b, place, 0x40 | (length & 15), 1);
    put_at(b, place + 1, length >> 4, 1);
}

static void put_name(bytes *b, const char *name) {
    put(b, NAME, 1);
    put_text(b, name);
}

static void put_byte(bytes *b, uint8_t value) { put(b, BYTE | value << 8, 2); }

static void put_off_state(bytes *b) {
    put_name(b, "_S5_");
    size_t package = begin_object(b, PACKAGE);
    put(b, 4, 1);
    for (int k = 0; k < 4; k++) put_byte(b, k < 2 ? OFF_TYPE : 0);
    end_object(b, package);
}

/* Addresses of a bus: of words, or of doublewords for memory. */
static void put_range(bytes *b, uint8_t kind, uint32_t first, uint32_t last) {
    size_t width = kind == 0 ? 4 : 2;
    put(b, kind == 0 ? 0x87 : 0x88, 1);
    put(b, 3 + 5 * width, 2);
    put(b, kind, 1); /* memory, ports, bus numbers */
    put(b, 0x0C, 1); /* both ends are fixed */
    put(b, kind == 2 ? 0 : 3, 1);
    put(b, 0, width);
    put(b, first, width);
    put(b, last, width);
    put(b, 0, width);
    put(b, (uint64_t)last - first + 1, width);
}

static void put_resources(bytes *b) {
    put_name(b, "_CRS");
    size_t buffer = begin_object(b, BUFFER);
    put(b, WORD, 1);
    size_t count = b->count;
    put(b, 0, 2);
    put_range(b, 2, 0, 0);
    put(b, 0x08010CF80CF80147, 8); /* ports CF8h to CFFh, the bridge's own */
    put_range(b, 1, 0x0000, 0x0CF7);
    put_range(b, 1, 0x0D00, 0xFFFF);
    put_range(b, 0, 0x000A0000, 0x000BFFFF);
    put_range(b, 0, 0x80000000, 0xFEBFFFFF);
    put(b, 0x0079, 2); /* the end, without a checksum */
    put_at(b, count, b->count - count - 2, 2);
    end_object(b, buffer);
}

/* INTA# of each card drives PIRQ (device - 1) mod 4. */
static void put_routes(bytes *b) {
    put_name(b, "_PRT");
    size_t all = begin_object(b, PACKAGE);
    put(b, LAST_CARD - FIRST_CARD + 1, 1);
    for (uint32_t card = FIRST_CARD; card <= LAST_CARD; card++) {
        size_t one = begin_object(b, PACKAGE);
        put(b, 4, 1);
        put(b, DWORD, 1);
        put(b, card << 16 | 0xFFFF, 4);
        put_byte(b, 0);
        put_byte(b, 0);
        put_byte(b, lines[(card - 1) % 4]);
        end_object(b, one);
    }
    end_object(b, all);
}

static void put_dsdt(bytes *b) {
    size_t begin = begin_table(b, "DSDT", 1);
    put_off_state(b);
    size_t scope = begin_object(b, SCOPE);
    put_text(b, "_SB_");
    size_t bus = begin_object(b, DEVICE);
    put_text(b, "PCI0");
    put_name(b, "_HID");
    put(b, DWORD, 1);
    put(b, 0x030AD041, 4); /* PNP0A03 */
    put_resources(b);
    put_routes(b);
    end_object(b, bus);
    end_object(b, scope);
    end_table(b, begin);
}

/* ---- the tables */

/* No SMI takes ACPI on, so it is on; C2 and C3 are not there, nor a sleep button. */
static void put_fadt(bytes *b) {
    size_t begin = begin_table(b, "FACP", 1);
    while (b->count < begin + FADT_BYTES) put(b, 0, 1);
    put_at(b, begin + 46, SCI, 2);
    put_at(b, begin + 56, PM1_EVENT, 4);
    put_at(b, begin + 64, PM1_CONTROL, 4);
    put_at(b, begin + 76, PM_TIMER, 4);
    put_at(b, begin + 88, 4, 1); /* bytes of the events, of the control, and of the timer */
    put_at(b, begin + 89, 2, 1);
    put_at(b, begin + 91, 4, 1);
    put_at(b, begin + 96, 101, 2);
    put_at(b, begin + 98, 1001, 2);
    put_at(b, begin + 108, 0x32, 1); /* the clock's byte of the century */
    put_at(b, begin + 112, 0x65, 4); /* WBINVD, C1, no sleep button, no wake by the clock */
    end_table(b, begin);
}

/* The tables one after another, and where each begins. */
typedef struct tables {
    bytes all;
    size_t fadt, rsdt;
} tables;

static tables make_tables(void) {
    tables t = {0};
    put_dsdt(&t.all);
    t.fadt = t.all.count;
    put_fadt(&t.all); /* its DSDT is at 0 of the file, as it stands */
    t.rsdt = begin_table(&t.all, "RSDT", 1);
    put(&t.all, t.fadt, 4);
    end_table(&t.all, t.rsdt);
    return t;
}

static void put_tables(machine *m) {
    tables t = make_tables();
    fw_cfg_put(m, t.all.at, t.all.count);
}

static void put_rsdp(machine *m) {
    bytes b = {0};
    put_text(&b, "RSD PTR ");
    put(&b, 0, 1);
    put_text(&b, "BOARD ");
    put(&b, 0, 1);
    put(&b, make_tables().rsdt, 4);
    fw_cfg_put(m, b.at, b.count);
}

static void put_facs(machine *m) {
    uint8_t facs[FACS_BYTES] = {'F', 'A', 'C', 'S', FACS_BYTES};
    fw_cfg_put(m, facs, sizeof facs);
}

/* ---- what the loader does */

static void put_command(machine *m, bytes *b) {
    while (b->count < COMMAND_BYTES) put(b, 0, 1);
    fw_cfg_put(m, b->at, b->count);
}

static void put_file_name(bytes *b, const char *name) {
    size_t end = b->count + NAME_BYTES;
    put_text(b, name);
    while (b->count < end) put(b, 0, 1);
}

static void allocate(machine *m, const char *file, uint32_t alignment, uint8_t zone) {
    bytes b = {0};
    put(&b, ALLOCATE, 4);
    put_file_name(&b, file);
    put(&b, alignment, 4);
    put(&b, zone, 1);
    put_command(m, &b);
}

/* The four bytes at a place, an offset in a file, become an address. */
static void add_pointer(machine *m, const char *in, size_t place, const char *to) {
    bytes b = {0};
    put(&b, ADD_POINTER, 4);
    put_file_name(&b, in);
    put_file_name(&b, to);
    put(&b, place, 4);
    put(&b, 4, 1);
    put_command(m, &b);
}

static void add_checksum(machine *m, const char *file, size_t place, size_t begin, size_t length) {
    bytes b = {0};
    put(&b, ADD_CHECKSUM, 4);
    put_file_name(&b, file);
    put(&b, place, 4);
    put(&b, begin, 4);
    put(&b, length, 4);
    put_command(m, &b);
}

static void put_loader(machine *m) {
    tables t = make_tables();
    allocate(m, FACS, 64, HIGH_MEMORY);
    allocate(m, TABLES, 16, F_SEGMENT);
    allocate(m, RSDP, 16, F_SEGMENT);
    add_pointer(m, TABLES, t.fadt + FADT_FACS, FACS);
    add_pointer(m, TABLES, t.fadt + FADT_DSDT, TABLES);
    add_pointer(m, TABLES, t.rsdt + RSDT_ENTRY, TABLES);
    add_pointer(m, RSDP, RSDP_RSDT, TABLES);
    add_checksum(m, TABLES, CHECKSUM, 0, t.fadt);
    add_checksum(m, TABLES, t.fadt + CHECKSUM, t.fadt, FADT_BYTES);
    add_checksum(m, TABLES, t.rsdt + CHECKSUM, t.rsdt, RSDT_BYTES);
    add_checksum(m, RSDP, RSDP_CHECKSUM, 0, RSDP_BYTES);
}

static const fw_cfg_file files[] = {
    {FACS, put_facs}, {RSDP, put_rsdp}, {TABLES, put_tables}, {"etc/table-loader", put_loader}, {0},
};

static device it = {.flag = "--acpi", .usage = "with --fw-cfg and --power the tables of ACPI", .files = files};

__attribute__((constructor)) static void add(void) { device_add(&it); }
