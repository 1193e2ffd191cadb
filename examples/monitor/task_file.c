/* The disk's registers as they read, none of which is changed by that: no steps of the guest's, and the log has none.
 * */
#include "machine.h"

enum { LOW = 0x1F3, MID = 0x1F4, HIGH = 0x1F5 };
enum { BUSY = 0x80, WANTS_WORDS = 0x08 }; /* of the status */
enum { BY_LBA = 0x40, HEAD = 0x0F };     /* of the device register */
enum { HEADS = 16, TRACK_SECTORS = 63 }; /* the board's disk has no other geometry */

uint8_t task_file(machine *m, uint16_t port) {
    board_reply reply = {0};
    return board_in(&m->board, port, 1, &reply) == BOARD_OK ? (uint8_t)reply.value : UINT8_MAX;
}

bool task_file_wants_words(machine *m) { return (task_file(m, DISK_STATUS) & (BUSY | WANTS_WORDS)) == WANTS_WORDS; }

uint32_t task_file_sector(machine *m) {
    uint32_t low = task_file(m, LOW), device = task_file(m, DISK_DEVICE);
    uint32_t cylinder = task_file(m, MID) | (uint32_t)task_file(m, HIGH) << 8;
    if (device & BY_LBA) return (device & HEAD) << 24 | cylinder << 8 | low;
    return (cylinder * HEADS + (device & HEAD)) * TRACK_SECTORS + low - 1;
}
