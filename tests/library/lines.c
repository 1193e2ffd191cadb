/* The interrupt lines in a reply: their levels after the step, and those that rose in it; and board_now. What is
 * expected is the datasheets': Intel 8254 (Mode 0, 2 and 3), MC146818 (Register C, IRQF), ATA-2 (INTRQ of PIO), PC16550D
 * (IIR), 82371SB (PIRQx Route Control). */
#include "board.h"
#include <stdio.h>
#include <stdlib.h>
#include <string.h>

static board b, other;
static board_reply r;
static int wrong;

static void expect(const char *what, uint64_t is, uint64_t should) {
    if (is == should) return;
    printf("lines: %s is %llX and not %llX\n", what, (unsigned long long)is, (unsigned long long)should);
    wrong = 1;
}

static void must(uint32_t status) {
    if (status == BOARD_OK) return;
    printf("lines: %s\n", board_status_text(status));
    exit(1);
}

static void out(uint16_t port, uint32_t value) { must(board_out(&b, port, 1, value, &r)); }

/* After a step: the level of a line and whether it rose, and of the others nothing rose. */
static void stands(const char *what, uint32_t line, uint32_t level, uint32_t rose) {
    expect(what, r.lines >> line & 1, level);
    expect(what, r.rose, rose << line);
}

static void pulse(const char *what, uint32_t count, uint32_t level, uint32_t rose) {
    must(board_pulse(&b, count, &r));
    stands(what, 0, level, rose);
}

static void counter(uint8_t control, uint16_t count) {
    out(0x43, control), out(0x40, count & 0xFF), out(0x40, count >> 8);
}

/* ---- OUT of counter 0, which is line 0 */

/* Mode 0: OUT is low from the control word on, and high N + 1 pulses after the count was written; there it stays. */
static void mode_0(void) {
    counter(0x30, 3);
    stands("mode 0: the count", 0, 0, 0);
    pulse("mode 0: three pulses", 3, 0, 0);
    pulse("mode 0: the fourth", 1, 1, 1);
    pulse("mode 0: a million more", 1000000, 1, 0);
}

/* Mode 2: OUT is high from the control word on. The next pulse loads N; where CE comes to 1 OUT is low, for one pulse. */
static void mode_2(void) {
    out(0x43, 0x30), stands("mode 0: the control word", 0, 0, 0);
    out(0x43, 0x34), stands("mode 2: the control word", 0, 1, 1);
    out(0x40, 4), out(0x40, 0), stands("mode 2: the count", 0, 1, 0);
    pulse("mode 2: loads, 3, 2", 3, 1, 0);
    pulse("mode 2: 1", 1, 0, 0);
    pulse("mode 2: loads again", 1, 1, 1);
    pulse("mode 2: a whole period, in which OUT falls and rises", 4, 1, 1);
    pulse("mode 2: to 1", 3, 0, 0);
    pulse("mode 2: past a rise, to the next 1", 4, 0, 1);
    pulse("mode 2: many periods", 1000000, 0, 1);
    counter(0x34, 0);
    pulse("mode 2: 65,536, until 2", 65535, 1, 0);
    pulse("mode 2: 65,536, 1", 1, 0, 0);
    pulse("mode 2: 65,536, loads", 1, 1, 1);
}

/* Mode 3: OUT is high for the first half of N, (N + 1) / 2 pulses, and low for the second. The first pulse loads. */
static void mode_3(void) {
    counter(0x36, 4);
    stands("mode 3: the count", 0, 1, 0);
    pulse("mode 3: of 4, loads and one", 2, 1, 0);
    pulse("mode 3: of 4, the half ends", 1, 0, 0);
    pulse("mode 3: of 4, the whole ends", 2, 1, 1);
    pulse("mode 3: of 4, a whole period", 4, 1, 1);
    pulse("mode 3: of 4, a half", 2, 0, 0);
    counter(0x36, 5);
    stands("mode 3: the control word while OUT was low", 0, 1, 0);
    pulse("mode 3: of 5, loads and two", 3, 1, 0);
    pulse("mode 3: of 5, three of high", 1, 0, 0);
    pulse("mode 3: of 5, one of low", 1, 0, 0);
    pulse("mode 3: of 5, two of low", 1, 1, 1);
}

/* A word at port 43h is cut: the rise is that of its first cycle, and the reply of the whole has it. */
static void cut(void) {
    out(0x43, 0x30);
    must(board_out(&b, 0x43, 2, 0x34, &r));
    stands("a word at port 43h", 0, 1, 1);
    uint8_t bytes[2] = {0x34, 0};
    out(0x43, 0x30);
    must(board_access(&b, BOARD_PORT, BOARD_WRITE, 0x43, bytes, 2, NULL, 1, &r));
    stands("an access to ports 43h and 44h", 0, 1, 1);
}

/* ---- the lines of the others */

/* IRQF is UF and UIE; a read of register C clears it (MC146818, Register C). */
static void clock_line(void) {
    board_event event;
    must(board_time(&b, 2026, 1, 1, 0, 0, 0, &r));
    must(board_in(&b, 0x71, 1, &r));
    out(0x70, 0x0C), must(board_in(&b, 0x71, 1, &r));
    out(0x70, 0x0B), out(0x71, 0x12);
    stands("UIE without UF", 8, 0, 0);
    must(board_second(&b, &event, &r)), stands("UF with UIE", 8, 1, 1);
    must(board_second(&b, &event, &r)), stands("UF again, which nobody read", 8, 1, 0);
    out(0x70, 0x0C), must(board_in(&b, 0x71, 1, &r)), stands("register C is read", 8, 0, 0);
    must(board_cmos_write(&b, 0x0B, 0x02));
    must(board_second(&b, &event, &r)), stands("UF without UIE", 8, 0, 0);
    must(board_cmos_write(&b, 0x0B, 0x12));
    must(board_now(&b, &r)), stands("UIE is written from outside", 8, 1, 0);
    out(0x70, 0x0C), must(board_in(&b, 0x71, 1, &r)), stands("it is read again", 8, 0, 0);
}

/* PIO of two sectors: INTRQ at each one's data, and a read of status takes it back (ATA-2, PIO data in). */
static void disk_line(void) {
    static uint32_t words[512];
    size_t done = 0;
    must(board_out(&b, 0xCF8, 4, 0x80000904, &r)), must(board_out(&b, 0xCFC, 1, 1, &r));
    must(board_out(&b, 0xCF8, 4, 0x80000940, &r)), must(board_out(&b, 0xCFC, 2, 0x8000, &r));
    out(0x1F6, 0xE0), out(0x1F2, 2), out(0x1F3, 0), out(0x1F4, 0), out(0x1F5, 0), out(0x1F7, 0x20);
    stands("READ SECTORS", 14, 1, 1);
    must(board_in(&b, 0x1F7, 1, &r)), stands("status is read", 14, 0, 0);
    must(board_in_many(&b, 0x1F0, 2, words, 512, &done, &r));
    expect("the words of the first sector", done, 256);
    stands("the next sector's data", 14, 1, 1);
    expect("INT of a pair that nobody set up", r.interrupt, 0);
    must(board_in(&b, 0x1F7, 1, &r));
    must(board_in_many(&b, 0x1F0, 2, words, 256, &done, &r));
    expect("the words of the second sector", done, 256);
    stands("after the last word", 14, 0, 0);
    out(0x3F6, 0x02), out(0x1F2, 1), out(0x1F7, 0x20);
    stands("READ SECTORS with nIEN", 14, 0, 0);
    out(0x3F6, 0x00), stands("without it, while the interrupt is pending", 14, 1, 1);
}

/* Received data available (PC16550D, IIR), with OUT2, by which a PC lets the port through. */
static void com1_line(void) {
    out(0x3F9, 0x01), out(0x3FC, 0x08);
    must(board_receive(&b, 'a', &r)), stands("a byte comes", 4, 1, 1);
    expect("irq4", r.irq4, 1);
    must(board_in(&b, 0x3F8, 1, &r)), stands("it is read", 4, 0, 0);
    must(board_receive(&b, 'b', &r));
    must(board_irq(&b, 4, true, &r)), stands("the line is 1 already", 4, 1, 0);
    must(board_in(&b, 0x3F8, 1, &r)), stands("and stays so", 4, 1, 0);
    must(board_irq(&b, 4, false, &r)), stands("until both are 0", 4, 0, 0);
}

/* PIRQA, which devices 5 and 9 share, by its route control register: to line 11, then to line 10, then to none. */
static void routed_line(void) {
    must(board_config_write(&b, 0x08, 0x60, 11, &r)), stands("no wire", 11, 0, 0);
    must(board_wire(&b, 5, true, &r)), stands("INTA# of device 5", 11, 1, 1);
    must(board_wire(&b, 9, true, &r)), stands("that of device 9 beside it", 11, 1, 0);
    must(board_wire(&b, 5, false, &r)), stands("that of device 9 alone", 11, 1, 0);
    must(board_config_write(&b, 0x08, 0x60, 10, &r)), stands("routed to line 10", 10, 1, 1);
    expect("line 11", r.lines >> 11 & 1, 0);
    must(board_config_write(&b, 0x08, 0x60, 0x80, &r)), stands("routed to none", 10, 0, 0);
    must(board_wire(&b, 9, false, &r));
    must(board_irq(&b, 3, true, &r)), stands("a line from outside", 3, 1, 1);
    must(board_irq(&b, 3, true, &r)), stands("given again", 3, 1, 0);
    must(board_read(&b, 0x1000, 4, false, &r)), stands("a read of memory", 3, 1, 0);
    must(board_irq(&b, 3, false, &r)), stands("taken back", 3, 0, 0);
}

/* ---- what stands without a step */

static void now(void) {
    static const board_part none;
    static uint8_t image[4 << 20];
    size_t bytes = 0;
    board closed = {0};
    board_reply before;
    memset(&before, 0xA5, sizeof before);
    r = before;
    expect("board_now of a closed handle", board_now(&closed, &r), BOARD_BAD_HANDLE);
    expect("what it told", memcmp(&r, &before, sizeof r), 0);
    must(board_irq(&b, 15, true, &r)), must(board_config_write(&b, 0x00, 0x5A, 0x33, &r));
    before = r;
    must(board_save(&b, image, sizeof image, &bytes)), must(board_load(&other, image, bytes));
    must(board_now(&other, &r));
    expect("lines of a loaded board", r.lines, before.lines);
    expect("its line 15", r.lines >> 15, 1);
    expect("its version", r.version, before.version);
    expect("its INT, line 4 and room", r.interrupt << 2 | r.irq4 << 1 | r.serial_room,
           before.interrupt << 2 | before.irq4 << 1 | before.serial_room);
    expect("what rose", r.rose, 0);
    expect("what answered", r.value | r.seen | r.lo | r.hi | r.form | r.has_value | r.parts | r.reset | r.sent | r.has_sent, 0);
    for (int k = 0; k < 4; k++) expect("a part", memcmp(&r.part[k], &none, sizeof none), 0);
    must(board_irq(&other, 15, true, &r));
    expect("a line that the saved board had at 1", r.rose, 0);
    board_close(&other);
}

int main(void) {
    static uint8_t rom[65536], disk[4 * 512];
    static board_card cards[2] = {{.device = 5}, {.device = 9}};
    must(board_open(&b, 1, cards, 2, rom, sizeof rom, disk, sizeof disk));
    must(board_now(&b, &r));
    expect("the lines at power-on", r.lines, 1);
    mode_0(), mode_2(), mode_3(), cut();
    clock_line(), disk_line(), com1_line(), routed_line();
    now();
    board_close(&b);
    return wrong;
}
