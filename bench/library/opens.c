/* What `bench/library/opens` shows: the page faults of board_open that needed no disk, and the memory that it takes, in
 * MiB. Each row is opened in a process of its own, over a disk that has no page of zeros. */
#include "board.h"
#include <stdio.h>
#include <stdlib.h>
#include <string.h>
#include <sys/resource.h>
#include <sys/wait.h>
#include <unistd.h>

enum { ROM = 65536, MIB = 1 << 20, MOST_CARDS = 8, FIRST_DEVICE = 2 };

static const struct { const char *name; uint32_t mib; uint8_t cards, bits; size_t disk; } rows[] = {
    {"8 MiB of memory", 8, 0, 0, 0},
    {"512 MiB of memory", 512, 0, 0, 0},
    {"8 cards of 1 MiB", 8, 8, 20, 0},
    {"8 cards of 8 MiB", 8, 8, 23, 0},
    {"a disk of 1 MiB", 8, 0, 0, MIB},
    {"a disk of 32 MiB", 8, 0, 0, 32 * MIB},
};

static struct rusage used(void) {
    struct rusage it;
    getrusage(RUSAGE_SELF, &it);
    return it;
}

static int open_row(size_t row) {
    static uint8_t rom[ROM];
    board_card cards[MOST_CARDS] = {0};
    for (uint8_t k = 0; k < rows[row].cards; k++) {
        cards[k].device = FIRST_DEVICE + k;
        cards[k].bases = 1;
        cards[k].base[0] = (board_base){BOARD_MEMORY_BASE, rows[row].bits};
    }
    size_t bytes = rows[row].disk;
    uint8_t *disk = bytes ? malloc(bytes) : NULL;
    if (bytes && !disk) return 1;
    if (bytes) memset(disk, 1, bytes);
    board b = {0};
    struct rusage before = used();
    if (board_open(&b, rows[row].mib, cards, rows[row].cards, rom, ROM, disk, bytes) != BOARD_OK) return 1;
    struct rusage after = used();
    printf("%-20s %8ld %8.1f\n", rows[row].name, after.ru_minflt - before.ru_minflt,
        (double)(after.ru_maxrss - before.ru_maxrss) / 1024);
    board_close(&b);
    return fflush(stdout) ? 1 : 0;
}

int main(void) {
    printf("%-20s %8s %8s\n", "board_open of", "faults", "MiB");
    fflush(stdout);
    for (size_t row = 0; row < sizeof rows / sizeof *rows; row++) {
        pid_t child = fork();
        if (child == 0) _exit(open_row(row));
        int status;
        if (child < 0 || waitpid(child, &status, 0) != child || status != 0) return 1;
    }
    return 0;
}
