/* Eight threads share a board under a lock, and move the guest's bytes, which the monitor keeps, without it: each its
 * own. Each adds to a byte of the clock, with the lock held over index and data, and writes a window.
 *
 *   threads [--without]      exit status 1 where a count does not come out
 *
 * --without is without the lock, so that a detector of races has one to find. */
#include "board.h"
#include <pthread.h>
#include <stdio.h>
#include <string.h>

enum { THREADS = 8, ROUNDS = 200, MIB = 2, ROM = 1 << 16, INDEX = 0x70, DATA = 0x71, BYTE = 0x40, WINDOW = 0xCC000 };
enum { AREA = 64, PAM2 = 0x5B, WRITES_ALONE = 0x20 };

static board b;
static pthread_mutex_t lock = PTHREAD_MUTEX_INITIALIZER;
static uint8_t guest[MIB << 20];
static bool is_locked = true;
static unsigned faults[THREADS];

static void take(void) {
    if (is_locked) pthread_mutex_lock(&lock);
}

static void give(void) {
    if (is_locked) pthread_mutex_unlock(&lock);
}

static void *one(void *at) {
    unsigned thread = (unsigned)(size_t)at;
    board_reply reply;
    for (unsigned round = 0; round < ROUNDS; round++) {
        uint8_t data[7] = {(uint8_t)thread, (uint8_t)round, 3, 4, 5, 6, 7};
        uint32_t place = WINDOW + AREA * thread + 1;
        take();
        board_access(&b, BOARD_MEMORY, BOARD_WRITE, place, data, sizeof data, guest, MIB, &reply);
        board_out(&b, INDEX, 1, BYTE, &reply);
        board_in(&b, DATA, 1, &reply);
        board_out(&b, DATA, 1, (uint8_t)(reply.value + 1), &reply);
        give();
        faults[thread] += memcmp(guest + place, data, sizeof data) != 0;
    }
    return NULL;
}

int main(int count, char **words) {
    static uint8_t rom[ROM];
    static board_card none[1];
    pthread_t threads[THREADS];
    board_reply reply;
    uint8_t byte = 0;
    is_locked = !(count > 1 && strcmp(words[1], "--without") == 0);
    if (board_open(&b, MIB, none, 0, rom, ROM, rom, 0)) return 1;
    if (board_config_write(&b, 0, PAM2, WRITES_ALONE, &reply)) return 1;
    for (size_t k = 0; k < THREADS; k++) pthread_create(&threads[k], NULL, one, (void *)k);
    for (size_t k = 0; k < THREADS; k++) pthread_join(threads[k], NULL);
    unsigned wrong = 0;
    for (size_t k = 0; k < THREADS; k++) wrong += faults[k];
    board_cmos_read(&b, BYTE, &byte);
    board_close(&b);
    printf("threads: the clock's byte is %02X, %u windows are wrong\n", byte, wrong);
    return is_locked && (byte != (uint8_t)(THREADS * ROUNDS) || wrong);
}
