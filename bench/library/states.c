/* Milliseconds of saving and loading a board of 64 MiB all of whose pages are written, beside a copy of these pages: the
 * best of some rounds, each into memory that was just taken. */
#define _DEFAULT_SOURCE
#include "board.h"
#include <stdio.h>
#include <stdlib.h>
#include <string.h>
#include <time.h>

enum { MIB = 64, SIZE = MIB << 20, PAGE = 4096, ROM = 0x10000, ROUNDS = 9 };

static double now(void) {
    struct timespec t;
    clock_gettime(CLOCK_MONOTONIC, &t);
    return t.tv_sec * 1e3 + t.tv_nsec / 1e6;
}

static void need(int is, const char *what) {
    if (is) return;
    fprintf(stderr, "states: %s\n", what);
    exit(1);
}

static uint8_t *room(size_t bytes) {
    uint8_t *taken = malloc(bytes);
    need(taken != NULL, "no memory");
    return taken;
}

static void least(double *best, double spent) {
    if (*best == 0 || spent < *best) *best = spent;
}

int main(void) {
    static uint8_t rom[ROM];
    uint8_t *pages = room(SIZE);
    for (size_t k = 0; k < SIZE; k++) pages[k] = (uint8_t)(k / PAGE + k % 251 + 1);
    board b = {0}, loaded = {0};
    need(board_open(&b, MIB, NULL, 0, rom, ROM, NULL, 0) == BOARD_OK, "not opened");
    need(board_dram_write(&b, 0, pages, SIZE) == BOARD_OK, "not written");
    size_t bytes = 0;
    need(board_save(&b, NULL, 0, &bytes) == BOARD_NO_ROOM, "no size");
    double copy = 0, size = 0, save = 0, load = 0;
    for (int round = 0; round < ROUNDS; round++) {
        uint8_t *copied = room(SIZE), *image = room(bytes);
        double start = now();
        memcpy(copied, pages, SIZE);
        double end = now();
        need(copied[round * PAGE] == pages[round * PAGE], "not copied");
        least(&copy, end - start);
        free(copied);
        start = now();
        need(board_save(&b, NULL, 0, &bytes) == BOARD_NO_ROOM, "no size");
        end = now();
        least(&size, end - start);
        start = now();
        need(board_save(&b, image, bytes, &bytes) == BOARD_OK, "not saved");
        end = now();
        least(&save, end - start);
        start = now();
        need(board_load(&loaded, image, bytes) == BOARD_OK, "not loaded");
        end = now();
        least(&load, end - start);
        uint8_t one = 0;
        need(board_dram_read(&loaded, SIZE - 1, &one, 1) == BOARD_OK && one == pages[SIZE - 1], "another board");
        board_close(&loaded);
        free(image);
    }
    board_close(&b);
    printf("copy of the pages %8.1f ms\nsize alone        %8.1f ms  %5.2f copies\nsave              %8.1f ms  %5.2f copies\n"
           "load              %8.1f ms  %5.2f copies\n",
        copy, size, size / copy, save, save / copy, load, load / copy);
    free(pages);
    return 0;
}
