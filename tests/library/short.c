/* Images of running boards that are short and say that much follows: each is refused, and no memory is taken for bytes
 * that are not there. Linked with --wrap of malloc and realloc.
 *
 *   short      exit status 1 at the first other answer
 *
 * The bytes are written by docs/FORMATS.md, "Running boards": mark, version, MiB, cards, ROM and disk by pages of 4,096
 * bytes, of which one of zeros is a byte 0. */
#include "board.h"
#include <stdio.h>
#include <stdlib.h>
#include <string.h>

enum { IMAGE = 200, PAGE = 4096, ROM_PAGES = 16, DISK_BYTES = 0x2000000, MOST_MIB = 512 };

void *__real_malloc(size_t size);
void *__real_realloc(void *at, size_t size);

static size_t largest;

static void note(size_t size) {
    if (size > largest) largest = size;
}

void *__wrap_malloc(size_t size) {
    note(size);
    return __real_malloc(size);
}

void *__wrap_realloc(void *at, size_t size) {
    note(size);
    return __real_realloc(at, size);
}

/* numbers have their low byte first */
static uint8_t *put(uint8_t *at, uint32_t number, int bytes) {
    for (int k = 0; k < bytes; k++) *at++ = (uint8_t)(number >> 8 * k);
    return at;
}

/* what stands before the disk: no cards, and a ROM of zeros */
static uint8_t *front(uint8_t *at, uint32_t mib) {
    memcpy(at, "BOARDRUN", 8);
    at = put(put(at + 8, 1, 2), mib, 4);
    *at++ = 0;
    at = put(at, ROM_PAGES * PAGE, 4);
    memset(at, 0, ROM_PAGES);
    return at + ROM_PAGES;
}

static void expect(const char *what, unsigned long told, unsigned long wanted) {
    if (told == wanted) return;
    printf("short: %s: %lu, and not %lu\n", what, told, wanted);
    exit(1);
}

/* the image is refused, and no allocation is larger than the pages that its bytes tell */
static void refused(const char *what, const uint8_t *image, size_t bytes) {
    board b = {0};
    largest = 0;
    expect(what, board_load(&b, image, bytes), BOARD_BAD_IMAGE);
    if (largest <= bytes * PAGE) return;
    printf("short: %s: %zu bytes were taken for an image of %zu\n", what, largest, bytes);
    exit(1);
}

int main(void) {
    uint8_t image[IMAGE] = {0};
    /* the largest disk, of zeros, of which most pages are missing */
    put(front(image, MOST_MIB), DISK_BYTES, 4);
    refused("a disk of zeros", image, IMAGE);
    /* and one of which the bytes end at its length */
    uint8_t *end = put(front(image, MOST_MIB), DISK_BYTES, 4);
    refused("no page of the disk", image, (size_t)(end - image));
    /* and one whose first page is told, and ends early */
    end[0] = 1;
    memset(end + 1, 0xD4, IMAGE - (size_t)(end + 1 - image));
    refused("a page that ends early", image, IMAGE);
    /* no disk, and no state */
    memset(image, 0, IMAGE);
    end = put(front(image, MOST_MIB), 0, 4);
    refused("no state", image, (size_t)(end - image));
    printf("short: as expected\n");
    return 0;
}
