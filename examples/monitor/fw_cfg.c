/* QEMU's fw_cfg, with --fw-cfg: a word at port 510h selects an item, and port 511h gives its bytes one after another.
 * SeaBIOS takes from it how much memory there is, and what to boot; QEMU's docs/specs/fw_cfg has the form. */
#include "machine.h"
#include <string.h>

enum {
    SELECTOR = 0x510,       /* a word is written */
    DATA = 0x511,           /* a byte is read; writes are lost, as with QEMU since 2.4 */
    FOR_WRITING = 0x4000,   /* a bit of the selector that is not heard any more */
    /* the items */
    SIGNATURE = 0x00,
    INTERFACES = 0x01,
    RAM_BYTES = 0x03,
    NO_PICTURE = 0x04,      /* SeaBIOS takes COM1 for screen and keyboard then */
    PROCESSORS = 0x05,
    BOOT_DEVICE = 0x0C,
    MOST_PROCESSORS = 0x0F,
    FILES = 0x19,
    FIRST_FILE = 0x20,
    /* of the interfaces this bit is these ports; the next one is DMA, which is not here */
    BY_PORTS = 0x01,
    IS_RAM = 1,             /* the type of an entry of the memory's table */
    NAME_BYTES = 56,
    MOST_FILES = 16
};

/* The disk, as Open Firmware names it: function 1 of device 1, the first drive of the first channel. */
static const char disk_path[] = "/pci@i0cf8/ide@1,1/drive@0/disk@0";

/* A number of so many bytes, the low one first. */
static void put(fw_cfg *f, uint64_t value, size_t bytes) {
    for (size_t k = 0; k < bytes; k++) f->item[f->bytes++] = (uint8_t)(value >> 8 * k);
}

/* The same, the high one first: the directory is so. */
static void put_high_first(fw_cfg *f, uint64_t value, size_t bytes) {
    while (bytes-- > 0) f->item[f->bytes++] = (uint8_t)(value >> 8 * bytes);
}

static void put_bytes(fw_cfg *f, const void *from, size_t bytes) {
    if (bytes > sizeof f->item - f->bytes) bytes = sizeof f->item - f->bytes;
    memcpy(f->item + f->bytes, from, bytes);
    f->bytes += bytes;
}

void fw_cfg_put(machine *m, const void *from, size_t bytes) { put_bytes(&m->fw_cfg, from, bytes); }

/* Where memory is: one piece from 0 on, of which SeaBIOS itself leaves out what lies below 1 MiB. */
static void put_memory(machine *m) {
    put(&m->fw_cfg, 0, 8);
    put(&m->fw_cfg, (uint64_t)m->options.mib << 20, 8);
    put(&m->fw_cfg, IS_RAM, 4);
}

/* What is tried first: a path a line, and the end of a string. Nothing where there is no disk. */
static void put_boot_order(machine *m) {
    if (m->options.disk) put_bytes(&m->fw_cfg, disk_path, sizeof disk_path);
}

/* The files, of which number k has the selector FIRST_FILE + k: the monitor's own, and then those of devices. */
static const fw_cfg_file own_files[] = {{"bootorder", put_boot_order}, {"etc/e820", put_memory}, {0}};

/* File number k, or NULL. */
static const fw_cfg_file *file_at(size_t k) {
    for (const fw_cfg_file *f = own_files; f->name; f++)
        if (k-- == 0) return f;
    for (EACH_DEVICE(d))
        for (const fw_cfg_file *f = d->files; f && f->name; f++)
            if (k-- == 0) return f;
    return NULL;
}

/* How many bytes a file has; the item is begun anew. */
static size_t file_bytes(machine *m, const fw_cfg_file *file) {
    m->fw_cfg.bytes = 0;
    file->put(m);
    return m->fw_cfg.bytes;
}

/* The directory: a count, and for each file its bytes, its selector, two bytes of nothing, and its name. */
static void put_files(machine *m) {
    fw_cfg *f = &m->fw_cfg;
    size_t bytes[MOST_FILES], count = 0;
    for (; count < MOST_FILES && file_at(count); count++) bytes[count] = file_bytes(m, file_at(count));
    f->bytes = 0;
    put_high_first(f, count, 4);
    for (size_t k = 0; k < count; k++) {
        char name[NAME_BYTES] = {0};
        memcpy(name, file_at(k)->name, strlen(file_at(k)->name));
        put_high_first(f, bytes[k], 4);
        put_high_first(f, FIRST_FILE + k, 2);
        put(f, 0, 2);
        put_bytes(f, name, NAME_BYTES);
    }
}

/* An item that is not here has no bytes, and reads 0: no UUID, no nodes of memory, no boot menu. */
static void select_item(machine *m, uint16_t key) {
    fw_cfg *f = &m->fw_cfg;
    f->bytes = f->next = 0;
    switch (key) {
    case SIGNATURE: put_bytes(f, "QEMU", 4); return;
    case INTERFACES: put(f, BY_PORTS, 4); return;
    case RAM_BYTES: put(f, (uint64_t)m->options.mib << 20, 8); return;
    case NO_PICTURE: put(f, m->options.text, 2); return;
    case PROCESSORS: case MOST_PROCESSORS: put(f, 1, 2); return;
    case BOOT_DEVICE: put(f, 'c', 2); return; /* the disk */
    case FILES: put_files(m); return;
    default: {
        const fw_cfg_file *file = key >= FIRST_FILE ? file_at((size_t)key - FIRST_FILE) : NULL;
        if (file) file->put(m);
    }
    }
}

void fw_cfg_reset(machine *m) { select_item(m, SIGNATURE); }

bool fw_cfg_hears(uint8_t kind, uint32_t port, uint8_t bytes) {
    return (port == SELECTOR && bytes == 2 && kind == BOARD_WRITE) || (port == DATA && bytes == 1);
}

uint8_t fw_cfg_read(machine *m) {
    fw_cfg *f = &m->fw_cfg;
    return f->next < f->bytes ? f->item[f->next++] : 0;
}

void fw_cfg_write(machine *m, uint32_t port, uint16_t value) {
    if (port == SELECTOR) select_item(m, value & (uint16_t)~FOR_WRITING);
}
