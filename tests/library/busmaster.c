/* Bus-master IDE of a monitor that keeps the guest's memory, the disk and the registers of the channel: where start of the
 * command is 1 and the drive has READ DMA or WRITE DMA, move() does the whole transfer. */
#include "board.h"

static board b;                                                    /* opened with mib, and with the bytes of rom */
static uint32_t mib, rom_bytes, drive_sectors;
static uint8_t *guest, *rom, *drive;
static struct { uint8_t command, status; uint32_t table; } master; /* at the offsets 0, 2 and 4 to 7 */

/* Bytes that lie where a part says, read or written as the bus master does. */
static void reach(const board_part *part, uint32_t addr, uint8_t *data, uint32_t bytes, bool write) {
    bool is_memory = part->target == BOARD_DRAM || part->target == BOARD_SHADOW;
    bool is_rom = part->target == BOARD_ROM || (part->target == BOARD_CARD && part->base == 6); /* no write changes one */
    if (part->target == BOARD_CARD && !write) board_card_read(&b, part->unit, part->base, part->offset, data, bytes);
    else if (part->target == BOARD_CARD && !is_rom) board_card_write(&b, part->unit, part->base, part->offset, data, bytes);
    else for (uint32_t k = 0; k < bytes; k++) {
        bool is_kept = is_memory && board_is_installed(mib, addr + k, 1);
        if (write && is_kept) guest[addr + k] = data[k];
        if (!write) data[k] = is_rom ? rom[(part->offset + k) % rom_bytes] : is_kept ? guest[addr + k] : 0xFF;
    }
}

static uint32_t doubleword(const board_part *part, uint32_t addr) {
    uint8_t d[4];
    reach(part, addr, d, 4, false);
    return d[0] | d[1] << 8 | d[2] << 16 | (uint32_t)d[3] << 24;
}

static void move(uint32_t lba, uint32_t sectors) {
    bool to_memory = master.command & 8;
    board_transfer t;
    board_piece p = {0};
    uint32_t readable = lba < drive_sectors ? drive_sectors - lba : 0;
    if (board_transfer_begin(&t, master.table, lba, sectors, readable, to_memory)) return;
    while (!board_transfer_next(&b, &t, &p) && p.what != BOARD_ENDED)
        if (p.what == BOARD_WORDS) reach(&p.part[0], p.addr, drive + p.disk, p.bytes, to_memory);
        else board_transfer_region(&t, doubleword(&p.part[0], p.addr), doubleword(&p.part[1], p.addr + 4));
    master.command &= 0xFE, master.status = (uint8_t)((master.status & 0xF8) | p.status), master.table = t.table;
}
