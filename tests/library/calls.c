/* The calls of the library by themselves: each line of standard input is a call, a word and hexadecimal numbers, and is
 * told with the status by which it ends and with what it tells. `#` begins a comment, which is told as it is.
 *
 *     card DEVICE VGA ROM BASES RESERVED [KIND BITS]..   one more card for the next open
 *     is VENDOR DEVICE CLASS REVISION SUBVENDOR SUBSYSTEM PIN   what the last card says that it is
 *     open MIB ROM DISK                                  a board, with a ROM and a disk of so many bytes
 *     close                                              ends it
 *     step WHAT KIND ADDR BYTES SMM VALUE RESERVED       an event
 *     place WHAT KIND ADDR BYTES SMM VALUE RESERVED      where it would land
 *     text NUMBER PROCESSOR STATEMENT ROOM               the line of the last event and reply
 *     map RANGES WINDOWS                                 the memory map, with room for so many of each
 *     rise                                               pulses until line 0 rises
 *     dram ADDR BYTES, sector NUMBER BYTES, clock ADDR   bytes out; of a sector the first and the last
 *     lines, serial                                      the interrupt lines, a bit each; what COM1 holds
 *     second                                             one second of the clock
 *     in PORT BYTES COUNT, out PORT BYTES VALUE..        accesses to a port in turn
 *     put ADDR BYTE.., set ADDR BYTE                     bytes into the DRAM and into the clock
 *     fill ADDR BYTES BYTE                               as many bytes of one value into the DRAM
 *     save ROOM [DRAM] [DISK], load                      the board as bytes, without those of the DRAM or of the disk where
 *                                                        a number is not 0, and the board of these bytes
 *     keep DRAM SECTORS                                  keeps so many bytes of the DRAM, and so many sectors
 *     with DRAM FITTED SECTORS                           the board of the bytes that were saved, with so many of those that
 *                                                        are kept, and of a disk as it is fitted
 *     turn AT BITS, cut COUNT                            turns bits of a byte that was saved; keeps so many
 *     master ADDR BYTES WRITE                            where an access of a bus master would land
 *     begin TABLE LBA SECTORS READABLE TO_MEMORY         a transfer of the bus master
 *     stand TABLE ADDR LEFT MOVED WORDS LBA READABLE LAST TO_MEMORY RESERVED   one with these numbers
 *     next, region BASE COUNT                            its next piece; the region of a descriptor
 *     memory [ADDR DOUBLEWORD]..                         8 MiB of zeros of the caller's own, with these doublewords, and a
 *                                                        disk of four sectors, whose bytes are their number and 1
 *     move TABLE LBA SECTORS TO_MEMORY                   a transfer over these: each piece, which is done as it is told
 *     moved TABLE LBA SECTORS TO_MEMORY                  the same, of which the end alone is told
 *     doublewords ADDR.., words SECTOR INDEX..           what that memory and that disk then have
 *     told DEVICE BASE OFFSET BYTES                      bytes of a card, out
 *     give DEVICE BASE OFFSET BYTE..                     and in
 *
 * What is left out at the end of a line is 0. Byte K of a ROM is K modulo 256, and byte K of a disk K / 256 modulo 256.
 * Of a record the fields are told that are not 0. An open or a load that is refused leaves the board that is open. Some
 * words stand for many calls of a new board of 1 MiB with cards at devices 2 to 5:
 *
 *     uart STEP..     the registers of COM1: `4=10` writes offset 4, and tells what is sent, `2?` reads, `<41` is a
 *                     byte that comes; `room` is whether there is room for one, `int` the level of line 4
 *     pair STEP..     the 8259As: `20=11` writes a port, `20?` reads it; `@21` gives the lines that can be set their
 *                     levels, a bit each, and `@801/800` also says which are level triggered; `int` is the level of
 *                     INT, `ack` the vector and the chip of an acknowledge, and whether it is spurious; `reset` is one
 *     routes STEP..   the routes of PIRQA to PIRQD: `60=0B` writes a register, `60?` reads it; `@1101` tells the lines
 *                     to which these levels of the four are routed
 *     config STEP..   registers in configuration space: `00.0.59=30` writes a byte of one, `00.0.59?` reads it; `@CC000`
 *                     tells where a fetch, a read and a write of a byte of memory land, `!A0000` the same in SMM, and
 *                     `:60` where a read of a port does, `:1F0/2` of two; `reset` is one
 *     moment YEAR MONTH DAY HOUR MINUTE SECOND   in decimal numbers: the weekday that the clock then shows, 1 for
 *                     Sunday, or that it takes no such moment */
#include "board.h"
#include <stdio.h>
#include <stdlib.h>
#include <string.h>

enum { MOST_CARDS = 10, MOST_NUMBERS = 64, LINE = 1024, WEEKDAY = 6, SECTOR = 512 };
enum { OWN_MEMORY = 0x800000, OWN_SECTORS = 4 };

/* The numbers after the first word of a line; those that are left out are 0. */
static uint64_t numbers[MOST_NUMBERS];
static size_t count;

/* The board, and the one that takes its place; the cards for it; the last event with its reply; what was saved. */
static board boards[2];
static int current;
static board_card cards[MOST_CARDS];
static size_t card_count;
static board_event event;
static board_reply reply;
static uint8_t *image;
static size_t image_bytes;

/* Bytes that are kept beside what was saved; the bus master's transfer, and the memory and the disk that it moves
 * between. */
static uint8_t *kept_dram, *kept_sectors;
static board_transfer transfer;
static uint8_t *own_memory, own_disk[OWN_SECTORS * SECTOR];

static board *open_board(void) {
    return &boards[current];
}

static void must(uint32_t status) {
    if (status != BOARD_OK) exit(8);
}

/* As many bytes as a call is given room for, and never none at all. */
static void *room_for(size_t things, size_t bytes) {
    void *room = calloc(things ? things : 1, bytes);
    if (!room) exit(8);
    return room;
}

/* The numbers of a line from one on, as bytes. */
static uint8_t *bytes_from(size_t first, size_t *bytes) {
    *bytes = count > first ? count - first : 0;
    uint8_t *from = room_for(*bytes, 1);
    for (size_t k = 0; k < *bytes; k++) from[k] = (uint8_t)numbers[first + k];
    return from;
}

/* ---- what is told */

static uint32_t tell_status(uint32_t status) {
    printf(" %X", status);
    return status;
}

static void tell_field(const char *of, const char *name, uint64_t value) {
    if (value) printf(" %s%s=%llX", of, name, (unsigned long long)value);
}
#define TELL(of, record, name) tell_field(of, #name, (record)->name)

static void tell_bytes(const uint8_t *bytes, size_t how_many) {
    for (size_t k = 0; k < how_many; k++) printf(" %02X", bytes[k]);
}

static void tell_part(const char *of, const board_part *part) {
    TELL(of, part, offset), TELL(of, part, target), TELL(of, part, unit), TELL(of, part, base);
    TELL(of, part, denial), TELL(of, part, denial_dev), TELL(of, part, denial_fun), TELL(of, part, denial_off);
    TELL(of, part, reserved);
}

static void tell_reply(void) {
    const board_reply *r = &reply;
    TELL("", r, value), TELL("", r, version), TELL("", r, seen), TELL("", r, lo), TELL("", r, hi);
    TELL("", r, form), TELL("", r, has_value), TELL("", r, parts), TELL("", r, interrupt), TELL("", r, reset);
    for (int k = 0; k < 4; k++) tell_part((const char *[]){"0.", "1.", "2.", "3."}[k], &r->part[k]);
    TELL("", r, sent), TELL("", r, has_sent), TELL("", r, irq4), TELL("", r, serial_room), TELL("", r, rose);
}

static void tell_com1(const board_com1 *c) {
    tell_bytes(c->received, sizeof c->received);
    TELL("", c, count), TELL("", c, ier), TELL("", c, iir), TELL("", c, lcr), TELL("", c, mcr), TELL("", c, lsr);
    TELL("", c, msr), TELL("", c, scr), TELL("", c, dll), TELL("", c, dlm), TELL("", c, emptied), TELL("", c, irq4);
    TELL("", c, reserved);
}

static void tell_map(const board_map *map, const board_range *ranges, size_t room, const board_window *windows,
                     size_t more) {
    TELL("", map, ranges), TELL("", map, windows), TELL("", map, version), TELL("", map, mib);
    for (size_t k = 0; k < room; k++) {
        printf("\n%08X %08X", ranges[k].lo, ranges[k].hi);
        for (int a = 0; a < 6; a++) {
            const board_area *area = &ranges[k].area[a];
            printf(" %X.%X.%X", area->target, area->unit, area->base);
            TELL("", area, reserved);
        }
    }
    for (size_t k = 0; k < more; k++) printf("\nchanged %08X %08X", windows[k].lo, windows[k].hi);
}

static void tell_word(bool so, const char *word, const char *other) {
    printf(" %s", so ? word : other);
}

/* ---- boards */

static void card(void) {
    board_card *c = &cards[card_count++];
    if (card_count > MOST_CARDS) exit(8);
    *c = (board_card){.device = (uint8_t)numbers[0], .vga = (uint8_t)numbers[1], .rom = (uint8_t)numbers[2],
                      .bases = (uint8_t)numbers[3], .reserved = (uint16_t)numbers[4]};
    for (int k = 0; k < 6; k++) c->base[k] = (board_base){(uint8_t)numbers[5 + 2 * k], (uint8_t)numbers[6 + 2 * k]};
}

static void identify(void) {
    board_card *c = &cards[card_count - 1];
    c->vendor_id = (uint16_t)numbers[0], c->device_id = (uint16_t)numbers[1], c->class_code = (uint32_t)numbers[2];
    c->revision_id = (uint8_t)numbers[3], c->subsystem_vendor_id = (uint16_t)numbers[4];
    c->subsystem_id = (uint16_t)numbers[5], c->interrupt_pin = (uint8_t)numbers[6];
}

/* The board that was opened beside the one before takes its place. */
static void take_place(uint32_t status) {
    if (tell_status(status) != BOARD_OK) return;
    board_close(open_board());
    current ^= 1;
}

static uint8_t *disk_of(size_t bytes) {
    uint8_t *disk = room_for(bytes, 1);
    for (size_t k = 0; k < bytes; k++) disk[k] = (uint8_t)(k / 0x100);
    return disk;
}

static void opened(void) {
    size_t rom_bytes = (size_t)numbers[1], disk_bytes = (size_t)numbers[2];
    uint8_t *rom = room_for(rom_bytes, 1), *disk = disk_of(disk_bytes);
    for (size_t k = 0; k < rom_bytes; k++) rom[k] = (uint8_t)k;
    take_place(board_open(&boards[current ^ 1], (uint32_t)numbers[0], cards, card_count, rom, rom_bytes, disk,
                          disk_bytes));
    card_count = 0;
    free(rom), free(disk);
}

static void closed(void) {
    board_close(open_board());
}

static void save(void) {
    size_t room = (size_t)numbers[0], bytes = 0;
    uint8_t *into = room_for(room, 1);
    bool dram_out = numbers[1] != 0, disk_out = numbers[2] != 0;
    uint32_t status = tell_status(dram_out || disk_out
                                      ? board_save_without(open_board(), dram_out, disk_out, into, room, &bytes)
                                      : board_save(open_board(), into, room, &bytes));
    printf(" bytes=%zX", bytes);
    if (status == BOARD_OK) {
        free(image);
        image = into, image_bytes = bytes;
    } else {
        free(into);
    }
}

/* What was saved, in a room of just its size. */
static uint8_t *saved_bytes(void) {
    uint8_t *from = room_for(image_bytes, 1);
    if (image_bytes) memcpy(from, image, image_bytes);
    return from;
}

static void load(void) {
    uint8_t *from = saved_bytes();
    take_place(board_load(&boards[current ^ 1], from, image_bytes));
    free(from);
}

static void keep(void) {
    size_t sectors = (size_t)numbers[1];
    free(kept_dram), free(kept_sectors);
    kept_dram = room_for((size_t)numbers[0], 1), kept_sectors = room_for(sectors, SECTOR);
    tell_status(board_dram_read(open_board(), 0, kept_dram, (size_t)numbers[0]));
    for (size_t k = 0; k < sectors; k++)
        tell_status(board_disk_read(open_board(), (uint32_t)k, kept_sectors + SECTOR * k, SECTOR));
}

static void load_with(void) {
    uint8_t *from = saved_bytes(), *fitted = disk_of((size_t)numbers[1]);
    take_place(board_load_with(&boards[current ^ 1], from, image_bytes, kept_dram, (size_t)numbers[0], fitted,
                               (size_t)numbers[1], kept_sectors, (size_t)numbers[2]));
    free(from), free(fitted);
}

static void turn(void) {
    if (numbers[0] < image_bytes) image[numbers[0]] ^= (uint8_t)numbers[1];
}

static void cut(void) {
    if (numbers[0] < image_bytes) image_bytes = (size_t)numbers[0];
}

/* ---- steps */

static board_event event_of_line(void) {
    return (board_event){.what = (uint8_t)numbers[0], .kind = (uint8_t)numbers[1], .addr = (uint32_t)numbers[2],
                         .bytes = (uint8_t)numbers[3], .smm = (uint8_t)numbers[4], .value = numbers[5],
                         .reserved = numbers[6]};
}

static void step(void) {
    event = event_of_line();
    if (tell_status(board_step(open_board(), &event, &reply)) == BOARD_OK) tell_reply();
}

static void second(void) {
    if (tell_status(board_second(open_board(), &event, &reply)) == BOARD_OK) tell_reply();
}

static void in(void) {
    size_t values = (uint8_t)numbers[2], done = 0;
    uint32_t *into = room_for(values, sizeof *into);
    uint16_t port = (uint16_t)numbers[0];
    uint32_t status = board_in_many(open_board(), port, (uint8_t)numbers[1], into, values, &done, &reply);
    if (tell_status(status) == BOARD_OK) {
        printf(" done=%zX", done);
        for (size_t k = 0; k < values; k++) printf(" %X", into[k]);
        tell_reply();
    }
    free(into);
}

static void out(void) {
    size_t values = count > 2 ? count - 2 : 0, done = 0;
    uint32_t *from = room_for(values, sizeof *from);
    for (size_t k = 0; k < values; k++) from[k] = (uint32_t)numbers[2 + k];
    uint16_t port = (uint16_t)numbers[0];
    uint32_t status = board_out_many(open_board(), port, (uint8_t)numbers[1], from, values, &done, &reply);
    if (tell_status(status) == BOARD_OK) {
        printf(" done=%zX", done);
        tell_reply();
    }
    free(from);
}

static void text(void) {
    size_t room = (uint8_t)numbers[3], length = 0;
    uint8_t *line = room_for(room, 1);
    uint8_t processor = (uint8_t)numbers[1];
    uint32_t status = board_text(&event, &reply, numbers[0], processor, (uint32_t)numbers[2], line, room, &length);
    tell_status(status);
    printf(" length=%zX", length);
    if (status == BOARD_OK) printf("\n%.*s", (int)length, (const char *)line);
    free(line);
}

/* ---- what is asked between two steps */

static void place(void) {
    board_part part = {0};
    board_event asked = event_of_line();
    tell_status(board_decode(open_board(), &asked, &part));
    tell_part("", &part);
}

static void master(void) {
    board_part part = {0};
    tell_status(board_decode_master(open_board(), (uint32_t)numbers[0], (uint8_t)numbers[1], numbers[2] != 0, &part));
    tell_part("", &part);
}

static void tell_transfer(void) {
    const board_transfer *t = &transfer;
    printf(" |");
    TELL("", t, table), TELL("", t, addr), TELL("", t, left), TELL("", t, moved), TELL("", t, words), TELL("", t, lba);
    TELL("", t, readable), TELL("", t, is_last), TELL("", t, to_memory), TELL("", t, reserved);
}

static void begin(void) {
    tell_status(board_transfer_begin(&transfer, (uint32_t)numbers[0], (uint32_t)numbers[1], (uint32_t)numbers[2],
                                     (uint32_t)numbers[3], numbers[4] != 0));
    tell_transfer();
}

static void stand(void) {
    transfer = (board_transfer){.table = (uint32_t)numbers[0], .addr = (uint32_t)numbers[1], .left = (uint32_t)numbers[2],
                                .moved = (uint32_t)numbers[3], .words = (uint32_t)numbers[4], .lba = (uint32_t)numbers[5],
                                .readable = (uint32_t)numbers[6], .is_last = (uint8_t)numbers[7],
                                .to_memory = (uint8_t)numbers[8], .reserved = (uint16_t)numbers[9]};
    tell_transfer();
}

static void tell_piece(const board_piece *p) {
    TELL("", p, what), TELL("", p, end), TELL("", p, status), TELL("", p, addr), TELL("", p, bytes), TELL("", p, disk);
    TELL("", p, sector), TELL("", p, reserved);
    tell_part("0.", &p->part[0]), tell_part("1.", &p->part[1]);
}

static void next(void) {
    board_piece piece = {0};
    tell_status(board_transfer_next(open_board(), &transfer, &piece));
    tell_piece(&piece);
    tell_transfer();
}

static void region(void) {
    tell_status(board_transfer_region(&transfer, (uint32_t)numbers[0], (uint32_t)numbers[1]));
    tell_transfer();
}

static uint32_t doubleword(const uint8_t *at) {
    return at[0] | (uint32_t)at[1] << 8 | (uint32_t)at[2] << 16 | (uint32_t)at[3] << 24;
}

static void own(void) {
    free(own_memory);
    own_memory = room_for(OWN_MEMORY, 1);
    for (size_t k = 0; k + 1 < count; k += 2)
        for (int b = 0; b < 4; b++) own_memory[numbers[k] + b] = (uint8_t)(numbers[k + 1] >> 8 * b);
    for (size_t k = 0; k < sizeof own_disk; k++) own_disk[k] = (uint8_t)(k / SECTOR + 1);
}

/* Moves bytes to where a part says that they lie, or from there. */
static void move_bytes(const board_part *part, uint32_t addr, uint8_t *bytes, size_t how_many, bool to_memory) {
    if (part->target == BOARD_DRAM || part->target == BOARD_SHADOW)
        memcpy(to_memory ? own_memory + addr : bytes, to_memory ? bytes : own_memory + addr, how_many);
    else if (part->target == BOARD_CARD && to_memory)
        must(board_card_write(open_board(), part->unit, part->base, part->offset, bytes, how_many));
    else if (part->target == BOARD_CARD)
        must(board_card_read(open_board(), part->unit, part->base, part->offset, bytes, how_many));
}

static void take_descriptor(const board_piece *p) {
    uint8_t bytes[8] = {0};
    for (int k = 0; k < 2; k++) move_bytes(&p->part[k], p->addr + 4 * k, bytes + 4 * k, 4, false);
    must(board_transfer_region(&transfer, doubleword(bytes), doubleword(bytes + 4)));
}

/* Does the transfer of a line, piece by piece, which are told, or the last one alone. */
static void move_all(bool tells_each) {
    uint32_t lba = (uint32_t)numbers[1], sectors = (uint32_t)numbers[2];
    uint32_t left = lba < OWN_SECTORS ? OWN_SECTORS - lba : 0, readable = sectors < left ? sectors : left;
    board_piece piece = {0};
    must(board_transfer_begin(&transfer, (uint32_t)numbers[0], lba, sectors, readable, numbers[3] != 0));
    while (piece.what != BOARD_ENDED) {
        must(board_transfer_next(open_board(), &transfer, &piece));
        if (tells_each) printf("\n ");
        if (tells_each || piece.what == BOARD_ENDED) tell_piece(&piece);
        if (piece.what == BOARD_DESCRIPTOR) take_descriptor(&piece);
        if (piece.what == BOARD_WORDS)
            move_bytes(&piece.part[0], piece.addr, own_disk + piece.disk, piece.bytes, transfer.to_memory);
    }
}

static void move(void) {
    move_all(true);
}

static void moved(void) {
    move_all(false);
}

static void doublewords(void) {
    for (size_t k = 0; k < count; k++) printf(" %X", doubleword(own_memory + numbers[k]));
}

static void words(void) {
    for (size_t k = 1; k < count; k++) {
        const uint8_t *at = own_disk + numbers[0] * SECTOR + 2 * numbers[k];
        printf(" %X", at[0] | at[1] << 8);
    }
}

static void map(void) {
    size_t room = (uint8_t)numbers[0], more = (uint8_t)numbers[1];
    board_map found = {0};
    board_range *ranges = room_for(room, sizeof *ranges);
    board_window *windows = room_for(more, sizeof *windows);
    if (tell_status(board_ranges(open_board(), &found, ranges, room, windows, more)) == BOARD_OK)
        tell_map(&found, ranges, room, windows, more);
    free(ranges), free(windows);
}

static void rise(void) {
    uint32_t pulses = 0;
    if (tell_status(board_pulses_to_rise(open_board(), &pulses)) == BOARD_OK) printf(" %X", pulses);
}

static void lines(void) {
    uint16_t levels = 0;
    if (tell_status(board_lines(open_board(), &levels)) == BOARD_OK) printf(" %X", levels);
}

static void serial(void) {
    board_com1 state = {0};
    if (tell_status(board_serial_state(open_board(), &state)) == BOARD_OK) tell_com1(&state);
}

static void dram(void) {
    size_t bytes = (uint8_t)numbers[1];
    uint8_t *into = room_for(bytes, 1);
    if (tell_status(board_dram_read(open_board(), (uint32_t)numbers[0], into, bytes)) == BOARD_OK)
        tell_bytes(into, bytes);
    free(into);
}

static void sector(void) {
    size_t bytes = (uint16_t)numbers[1];
    uint8_t *into = room_for(bytes, 1);
    if (tell_status(board_disk_read(open_board(), (uint32_t)numbers[0], into, bytes)) == BOARD_OK && bytes)
        tell_bytes((uint8_t[]){into[0], into[bytes - 1]}, 2);
    free(into);
}

static void clock_byte(void) {
    uint8_t byte = 0;
    if (tell_status(board_cmos_read(open_board(), (uint8_t)numbers[0], &byte)) == BOARD_OK) tell_bytes(&byte, 1);
}

static void told(void) {
    size_t bytes = (uint8_t)numbers[3];
    uint8_t *into = room_for(bytes, 1), dev = (uint8_t)numbers[0], base = (uint8_t)numbers[1];
    if (tell_status(board_card_read(open_board(), dev, base, (uint32_t)numbers[2], into, bytes)) == BOARD_OK)
        tell_bytes(into, bytes);
    free(into);
}

/* ---- bytes that the guest did not write */

static void put(void) {
    size_t bytes;
    uint8_t *from = bytes_from(1, &bytes);
    tell_status(board_dram_write(open_board(), (uint32_t)numbers[0], from, bytes));
    free(from);
}

static void fill(void) {
    size_t bytes = (uint32_t)numbers[1];
    uint8_t *from = room_for(bytes, 1);
    memset(from, (uint8_t)numbers[2], bytes);
    tell_status(board_dram_write(open_board(), (uint32_t)numbers[0], from, bytes));
    free(from);
}

static void set(void) {
    tell_status(board_cmos_write(open_board(), (uint8_t)numbers[0], (uint8_t)numbers[1]));
}

static void give(void) {
    size_t bytes;
    uint8_t *from = bytes_from(3, &bytes), dev = (uint8_t)numbers[0], base = (uint8_t)numbers[1];
    tell_status(board_card_write(open_board(), dev, base, (uint32_t)numbers[2], from, bytes));
    free(from);
}

/* ---- many calls of a new board */

enum { COM1 = 0x3F8, ELCR = 0x4D0, CONFADD = 0xCF8, CONFDATA = 0xCFC, RESET = 0xCF9, ISA_BRIDGE = 0x80000800 };

/* The board, and what its last step replied. */
static board fresh;
static board_reply after;

/* Opens it with cards at devices 2 to 5, whose INTA# drive PIRQB, PIRQC, PIRQD and PIRQA. */
static void open_fresh(void) {
    static const uint8_t rom[0x10000];
    static const board_card four[4] = {{.device = 2}, {.device = 3}, {.device = 4}, {.device = 5}};
    must(board_open(&fresh, 1, four, 4, rom, sizeof rom, rom, SECTOR));
    must(board_look(&fresh, BOARD_READ, 0, false, &after));
}

static uint8_t hex_byte(const char *digits) {
    return (uint8_t)strtoul(digits, NULL, 16);
}

/* Writes a port where the sign is `=`, and else reads it. */
static void at_port(uint16_t port, const char *sign) {
    must(*sign == '=' ? board_out(&fresh, port, 1, hex_byte(sign + 1), &after) : board_in(&fresh, port, 1, &after));
}

/* A hard reset; bit 2 of the port rises. */
static void reset(void) {
    must(board_out(&fresh, RESET, 1, 2, &after));
    must(board_out(&fresh, RESET, 1, 6, &after));
}

/* A step at COM1 that has no sign. */
static void uart_step(const char *step) {
    board_reply r;
    if (*step == '<') {
        bool received = board_receive(&fresh, hex_byte(step + 1), &r) == BOARD_OK;
        if (received) after = r;
        tell_word(received, "-", "no room");
    } else if (!strcmp(step, "room")) {
        tell_word(after.serial_room, "room", "full");
    } else {
        tell_word(after.irq4, "high", "low");
    }
}

static void uart(const char *step, const char *sign) {
    if (!sign) {
        uart_step(step);
        return;
    }
    at_port(COM1 + hex_byte(step) % 8, sign);
    if (after.has_value) printf(" %02X", (unsigned)after.value);
    else if (after.has_sent) printf(" sent:%02X", after.sent);
    else printf(" -");
}

/* Gives the lines that can be set their levels, a bit each. */
static void set_lines(unsigned levels) {
    for (uint8_t line = 0; line < 16; line++) {
        board_reply r;
        if (board_irq(&fresh, line, levels >> line & 1, &r) == BOARD_OK) after = r;
    }
}

static void set_triggers(unsigned triggers) {
    must(board_out(&fresh, ELCR, 1, triggers & 0xFF, &after));
    must(board_out(&fresh, ELCR + 1, 1, triggers >> 8, &after));
}

static void acknowledge(void) {
    must(board_ack(&fresh, &after));
    unsigned unit = after.part[0].unit;
    printf(" %02X.%d", (unsigned)after.value, unit == BOARD_VECTOR1 || unit == BOARD_SPURIOUS1);
    if (unit == BOARD_SPURIOUS0 || unit == BOARD_SPURIOUS1) printf(" spurious");
}

static void pair(const char *step, const char *sign) {
    const char *triggers = strchr(step, '/');
    if (sign) {
        at_port((uint16_t)strtoul(step, NULL, 16), sign);
        if (after.has_value) printf(" %02X", (unsigned)after.value);
    } else if (*step == '@') {
        set_triggers(triggers ? (unsigned)strtoul(triggers + 1, NULL, 16) : 0);
        set_lines((unsigned)strtoul(step + 1, NULL, 16));
    } else if (!strcmp(step, "reset")) {
        set_lines(0);
        reset();
    } else if (!strcmp(step, "ack")) {
        acknowledge();
    } else {
        tell_word(after.interrupt, "high", "low");
    }
}

/* Gives PIRQA to PIRQD their levels, and tells the lines beside line 0 that are up. */
static void tell_routed(const char *levels) {
    static const uint8_t drives[4] = {5, 2, 3, 4};
    uint16_t up = 0;
    for (int k = 0; k < 4; k++) must(board_wire(&fresh, drives[k], levels[k] == '1', &after));
    must(board_lines(&fresh, &up));
    for (int line = 1; line < 16; line++)
        if (up >> line & 1) printf(" line %d", line);
    if (up >> 1 == 0) printf(" no line");
}

static void routes(const char *step, const char *sign) {
    if (*step == '@') {
        tell_routed(step + 1);
    } else if (!sign) {
        reset();
    } else {
        uint8_t at = hex_byte(step);
        must(board_out(&fresh, CONFADD, 4, ISA_BRIDGE | (at & 0xFC), &after));
        at_port(CONFDATA + at % 4, sign);
        if (after.has_value) printf(" %02X", (unsigned)after.value);
    }
}

/* Where an access lands, of one byte or of as many as stand behind a `/`, and what denies it. */
static void tell_landing(uint8_t what, uint8_t kind, const char *addr, bool smm) {
    static const char *const names[] = {"nothing", "dram", "shadow", "smram", "rom",
                                        "card", "device", "config", "abort"};
    char *after_addr;
    board_event asked = {.what = what, .kind = kind, .addr = (uint32_t)strtoul(addr, &after_addr, 16), .smm = smm};
    board_part p = {0};
    asked.bytes = *after_addr == '/' ? hex_byte(after_addr + 1) : 1;
    must(board_decode(&fresh, &asked, &p));
    printf(" %s", names[p.target]);
    if (p.target == BOARD_DRAM || p.target == BOARD_SHADOW || p.target == BOARD_IS_DEVICE) printf(":%u", p.unit);
    if (p.target == BOARD_ROM) printf(":%X", p.offset);
    if (p.denial == BOARD_BY_REGISTER) printf("/%02X.%u.%02X", p.denial_dev, p.denial_fun, p.denial_off);
}

static void config(const char *step, const char *sign) {
    unsigned dev, fun, off;
    if (*step == '@' || *step == '!') {
        for (uint8_t kind = BOARD_FETCH; kind <= BOARD_WRITE; kind++)
            tell_landing(BOARD_MEMORY, kind, step + 1, *step == '!');
    } else if (*step == ':') {
        tell_landing(BOARD_PORT, BOARD_READ, step + 1, false);
    } else if (sscanf(step, "%x.%x.%x", &dev, &fun, &off) == 3 && sign) {
        must(board_out(&fresh, CONFADD, 4, 0x80000000 | dev << 11 | fun << 8 | (off & 0xFC), &after));
        at_port((uint16_t)(CONFDATA + off % 4), sign);
        if (after.has_value) printf(" %02X", (unsigned)after.value);
    } else {
        reset();
    }
}

/* The steps of a line, each with the place of its sign. */
static void steps(char *words, void (*step_of)(const char *, const char *)) {
    open_fresh();
    for (char *step = strtok(words, " "); step; step = strtok(NULL, " ")) step_of(step, strpbrk(step, "=?"));
    board_close(&fresh);
}

static void moment(char *words) {
    uint32_t n[6] = {0};
    uint8_t weekday = 0;
    open_fresh();
    for (int k = 0; k < 6; k++) n[k] = (uint32_t)strtoul(words, &words, 10);
    uint32_t status = board_time(&fresh, n[0], n[1], n[2], n[3], n[4], n[5], &after);
    if (status == BOARD_OK && board_cmos_read(&fresh, WEEKDAY, &weekday) == BOARD_OK) printf(" %u", weekday);
    else tell_word(status == BOARD_NO_EVENT, "none", "refused");
    board_close(&fresh);
}

/* ---- lines */

static const struct { const char *word; void (*call)(void); } calls[] = {
    {"card", card}, {"is", identify}, {"open", opened}, {"close", closed}, {"step", step}, {"place", place},
    {"text", text}, {"map", map}, {"rise", rise}, {"dram", dram}, {"sector", sector}, {"clock", clock_byte},
    {"lines", lines}, {"serial", serial}, {"second", second}, {"in", in}, {"out", out}, {"put", put}, {"set", set},
    {"fill", fill}, {"save", save}, {"load", load}, {"turn", turn}, {"cut", cut}, {"master", master}, {"told", told},
    {"give", give}, {"keep", keep}, {"with", load_with}, {"begin", begin}, {"stand", stand}, {"next", next},
    {"region", region}, {"memory", own}, {"move", move}, {"moved", moved}, {"doublewords", doublewords},
    {"words", words},
};

static void read_numbers(char *words) {
    memset(numbers, 0, sizeof numbers);
    count = 0;
    for (char *word = strtok(words, " "); word && count < MOST_NUMBERS; word = strtok(NULL, " "))
        numbers[count++] = strtoull(word, NULL, 16);
}

/* Makes the calls of a word and of what stands after it. */
static void call(const char *word, char *rest) {
    if (!strcmp(word, "uart")) { steps(rest, uart); return; }
    if (!strcmp(word, "pair")) { steps(rest, pair); return; }
    if (!strcmp(word, "routes")) { steps(rest, routes); return; }
    if (!strcmp(word, "config")) { steps(rest, config); return; }
    if (!strcmp(word, "moment")) { moment(rest); return; }
    read_numbers(rest);
    for (size_t k = 0; k < sizeof calls / sizeof *calls; k++)
        if (!strcmp(word, calls[k].word)) { calls[k].call(); return; }
    printf(" no such call");
}

int main(void) {
    static char line[LINE];
    while (fgets(line, sizeof line, stdin)) {
        line[strcspn(line, "\n")] = 0;
        printf("%s", line);
        if (*line != '#') {
            char *rest = strchr(line, ' ');
            if (rest) *rest++ = 0;
            printf(":");
            call(line, rest ? rest : line + strlen(line));
        }
        printf("\n");
    }
    board_close(open_board());
    free(image), free(kept_dram), free(kept_sectors), free(own_memory);
    return 0;
}
