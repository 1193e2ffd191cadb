/* The four functions of examples/adapter.c, over libboard as the monitor. */
#include <board.h>
#include <stdio.h>
#include <string.h>

enum { MOST_BYTES = 32 << 20 };

static board machine;
static board_reply reply;

static size_t read_file(const char *name, uint8_t *into) {
    FILE *file = name[0] ? fopen(name, "rb") : NULL;
    size_t bytes = file ? fread(into, 1, MOST_BYTES, file) : 0;
    if (file) fclose(file);
    return bytes;
}

static bool step(board_event event) {
    return board_step(&machine, &event, &reply) == BOARD_OK;
}

bool monitor_begin(unsigned mib, const char *rom, const char *disk) {
    static uint8_t rom_bytes[MOST_BYTES], disk_bytes[MOST_BYTES];
    size_t of_rom = read_file(rom, rom_bytes), of_disk = read_file(disk, disk_bytes);
    board_close(&machine);
    return board_open(&machine, mib, NULL, 0, rom_bytes, of_rom, disk_bytes, of_disk) == BOARD_OK;
}

bool monitor_read(const char *word, uint32_t place, int bytes, bool smm, uint64_t *value) {
    bool is_port = !strcmp(word, "in");
    board_event event = {.addr = place, .bytes = (uint8_t)bytes, .smm = smm};
    event.what = is_port ? BOARD_PORT : BOARD_MEMORY;
    event.kind = !strcmp(word, "f") ? BOARD_FETCH : BOARD_READ;
    bool done = step(event);
    *value = reply.value;
    return done;
}

bool monitor_write(const char *word, uint32_t place, int bytes, bool smm, uint64_t value) {
    board_event event = {.addr = place, .bytes = (uint8_t)bytes, .smm = smm, .value = value, .kind = BOARD_WRITE};
    event.what = !strcmp(word, "out") ? BOARD_PORT : BOARD_MEMORY;
    return step(event);
}

bool monitor_outside(const char *word, unsigned first, unsigned second, uint64_t *value) {
    board_event moment;
    if (!strcmp(word, "irq")) return step((board_event){.what = BOARD_IRQ, .addr = first, .value = second});
    if (!strcmp(word, "wire")) return step((board_event){.what = BOARD_WIRE, .addr = first, .value = second});
    if (!strcmp(word, "bad")) return step((board_event){.what = BOARD_BAD_SECTOR, .addr = first});
    if (!strcmp(word, "pulse")) return step((board_event){.what = BOARD_PULSE, .value = first});
    if (!strcmp(word, "second")) return board_second(&machine, &moment, &reply), true; /* a clock that is held stands */
    if (strcmp(word, "ack") != 0 || !step((board_event){.what = BOARD_ACK})) return false;
    *value = reply.value;
    return true;
}
