/* The cards of the board, and what each says that it is: the virtio block card of --virtio, and one with an expansion ROM
 * for each --card rom=FILE. Firmware runs the ROM of a card where both name the same vendor and device, so the card is what
 * the ROM's PCI data structure says (PCI Local Bus 2.1, section 6.3.1.2). */
#include "machine.h"
#include <stdio.h>
#include <stdlib.h>
#include <string.h>

enum { LEAST_ROM_BITS = 11, MOST_ROM_BITS = 24 };
enum { EXPANSION_ROM = 6 }; /* in the place of a base */
/* Of a ROM, and of the structure that it points to. */
enum { DATA_POINTER = 0x18, DATA_BYTES = 0x18, DATA_VENDOR = 0x04, DATA_DEVICE = 0x06, DATA_REVISION = 0x0C, DATA_CLASS = 0x0D };

static _Noreturn void refuse(const char *name, const char *why) {
    fprintf(stderr, "monitor: %s: %s\n", name, why);
    exit(1);
}

/* The least power of two, as board_card counts it, that a ROM of so many bytes fits into. */
static uint8_t rom_bits(const char *name, size_t bytes) {
    uint8_t bits = LEAST_ROM_BITS;
    while (bits <= MOST_ROM_BITS && (size_t)1 << bits < bytes) bits++;
    if (bits > MOST_ROM_BITS) refuse(name, "an expansion ROM has at most 16 MiB");
    return bits;
}

static uint16_t word_at(const uint8_t *at) { return (uint16_t)(at[0] | at[1] << 8); }

/* A card that has this ROM. */
static board_card card_of(const char *name, uint8_t device, const uint8_t *rom, size_t bytes) {
    size_t at = bytes < DATA_POINTER + 2 ? bytes : word_at(rom + DATA_POINTER);
    if (bytes < DATA_BYTES || at > bytes - DATA_BYTES || memcmp(rom + at, "PCIR", 4)) refuse(name, "no PCI expansion ROM: it has no PCI data structure");
    const uint8_t *data = rom + at, *class_code = data + DATA_CLASS;
    return (board_card){
        .device = device,
        .rom = rom_bits(name, bytes),
        .vendor_id = word_at(data + DATA_VENDOR),
        .device_id = word_at(data + DATA_DEVICE),
        .revision_id = data[DATA_REVISION],
        .class_code = class_code[0] | (uint32_t)class_code[1] << 8 | (uint32_t)class_code[2] << 16,
    };
}

size_t cards_list(const options *o, board_card *into) {
    size_t count = 0, bytes;
    if (o->virtio) into[count++] = virtio_card();
    for (uint32_t k = 0; k < o->rom_cards; k++) {
        uint8_t *rom = machine_file(o->card_rom[k], &bytes);
        into[count++] = card_of(o->card_rom[k], (uint8_t)(ROM_DEVICE + k), rom, bytes);
        machine_file_free(rom, bytes);
    }
    return count;
}

#if BOARD_INTERFACE >= 6
void cards_fill(machine *m) {
    size_t bytes;
    for (uint32_t k = 0; k < m->options.rom_cards; k++) {
        const char *name = m->options.card_rom[k];
        uint8_t *rom = machine_file(name, &bytes);
        uint32_t status = board_card_write(&m->board, (uint8_t)(ROM_DEVICE + k), EXPANSION_ROM, 0, rom, bytes);
        if (status != BOARD_OK) refuse(name, board_status_text(status));
        machine_file_free(rom, bytes);
    }
}
#else
void cards_fill(machine *m) {
    if (m->options.rom_cards) refuse(m->options.card_rom[0], "this library has no bytes of expansion ROMs; interface 6 has");
}
#endif
