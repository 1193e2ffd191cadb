/* --keep-disk FILE: the disk in a file, which has each sector as soon as the guest has written it, so that a monitor
 * that is killed loses none; with a FLUSH CACHE it is on the host's medium too. The steps of the board say what was
 * written: the registers name the first sector of a WRITE SECTORS, and each 256 words after it store one (AT
 * Attachment). */
#define _GNU_SOURCE
#include "machine.h"
#include <errno.h>
#include <fcntl.h>
#include <stdio.h>
#include <stdlib.h>
#include <string.h>
#include <unistd.h>

enum { WRITE_SECTORS = 0x30, FLUSH_CACHE = 0xE7 };
enum { SECTOR = 512, SECTOR_WORDS = 256 };

static _Noreturn void fail(const machine *m) {
    fprintf(stderr, "monitor: %s: %s\n", m->options.keep_disk, strerror(errno));
    exit(1);
}

/* Whether the file now has the sector; none where the disk has not. */
static bool put_sector(machine *m, uint32_t sector) {
    uint8_t bytes[SECTOR];
    if (board_disk_read(&m->board, sector, bytes, SECTOR) != BOARD_OK) return false;
    if (pwrite(m->kept_disk.file, bytes, SECTOR, (off_t)sector * SECTOR) != SECTOR) fail(m);
    return true;
}

void kept_disk_open(machine *m) {
    uint32_t sectors = 0;
    m->kept_disk.file = open(m->options.keep_disk, O_RDWR | O_CREAT | O_CLOEXEC, 0666);
    if (m->kept_disk.file < 0) fail(m);
    while (put_sector(m, sectors)) sectors++;
    if (ftruncate(m->kept_disk.file, (off_t)sectors * SECTOR)) fail(m);
}

static void begin_command(machine *m, uint8_t command) {
    kept_disk *k = &m->kept_disk;
    k->words = 0;
    k->is_writing = command == WRITE_SECTORS && task_file_wants_words(m);
    if (k->is_writing) k->sector = task_file_sector(m);
    if (command == FLUSH_CACHE && fdatasync(k->file)) fail(m);
}

void kept_disk_see(machine *m, const board_event *event, size_t times) {
    kept_disk *k = &m->kept_disk;
    if (event->what != BOARD_PORT || event->kind != BOARD_WRITE) return;
    if (event->addr == DISK_COMMAND) begin_command(m, (uint8_t)event->value);
    if (event->addr != DISK_DATA || !k->is_writing) return;
    k->words += (uint32_t)(event->bytes / 2 * times);
    for (; k->words >= SECTOR_WORDS; k->words -= SECTOR_WORDS) put_sector(m, k->sector++);
}

void kept_disk_close(machine *m) {
    if (close(m->kept_disk.file)) fail(m);
}
