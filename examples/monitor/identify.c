/* What IDENTIFY DEVICE gives, where some of its words are others than the board's: those of devices, and with --bochs-
 * bios words 4 and 5, which ATA-4 has retired and the board has as 0. Bochs's BIOS takes the second for the bytes of a
 * sector, and reads nothing where it is 0. */
#include "machine.h"

enum {
    IDENTIFY_DEVICE = 0xEC,
    WORDS = 256,
    BYTES_OF_A_TRACK = 4, /* a word of the answer, as ATA-1 has it: here 63 sectors, which word 6 says */
    BYTES_OF_A_SECTOR = 5,
    SECTOR = 512,
    TRACK = 63 * SECTOR
};

bool identify_awaits(const machine *m) { return m->identify < WORDS && (m->options.bochs_bios || devices_identify()); }

static uint32_t word(const machine *m, uint32_t index, uint32_t told) {
    uint16_t now = (uint16_t)told;
    if (m->options.bochs_bios && index == BYTES_OF_A_TRACK) now = TRACK;
    if (m->options.bochs_bios && index == BYTES_OF_A_SECTOR) now = SECTOR;
    for (EACH_DEVICE(d))
        if (d->identify) d->identify(index, &now);
    return now;
}

uint32_t identify_see(machine *m, uint8_t kind, uint32_t port, uint8_t bytes, uint32_t value) {
    if (port == DISK_COMMAND && kind == BOARD_WRITE) m->identify = value == IDENTIFY_DEVICE ? 0 : UINT32_MAX;
    if (port != DISK_DATA || kind != BOARD_READ || !identify_awaits(m)) return value;
    uint32_t first = m->identify, low = word(m, first, value & UINT16_MAX);
    m->identify += bytes / 2;
    return bytes == 4 ? low | word(m, first + 1, value >> 16) << 16 : low;
}
