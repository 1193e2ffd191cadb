/* The keyboard controller that the board has a socket for, with --keyboard: an 8042, and a keyboard, on which nobody
 * types without --type-keys (typed.c). It does its tests, restarts the processor, and has the gate of A20 at its output
 * port and at port 92h; the gate is kept and does nothing, since the board has none. */
#include "machine.h"
#include <string.h>

enum {
    DATA = 0x60,             /* the other port is 64h: commands and status */
    SYSTEM_CONTROL = 0x92,
    KEYBOARD_LINE = 1,
    /* the status, port 64h */
    OUTPUT_FULL = 0x01,
    TESTED = 0x04,
    WAS_COMMAND = 0x08,
    UNLOCKED = 0x10,
    /* the command byte */
    INTERRUPTS = 0x01,
    KEYBOARD_OFF = 0x10,
    /* the output port, and port 92h */
    PROCESSOR_RUNS = 0x01,   /* of port 92h the rise of this bit restarts it */
    A20 = 0x02,
    OTHER_PINS = 0xDC,       /* of the output port that stand at 1 */
    INPUT_PINS = 0xA0,       /* of the input port: no lock, and a colour display */
    /* what the keyboard answers */
    TAKEN = 0xFA,
    AGAIN = 0xFE,
    KEYBOARD_WELL = 0xAA,
    CONTROLLER_WELL = 0x55
};

/* Line 1 follows the output buffer: for each byte it rises anew. */
static void move_line(machine *m) {
    keyboard *k = &m->keyboard;
    bool level = k->count > 0 && k->command_byte & INTERRUPTS;
    board_reply reply;
    if (level == k->line) return;
    k->line = level;
    machine_step(m, &(board_event){.what = BOARD_IRQ, .addr = KEYBOARD_LINE, .value = level}, &reply);
}

void keyboard_give(machine *m, uint8_t byte) {
    keyboard *k = &m->keyboard;
    if (k->count < sizeof k->queue) k->queue[k->count++] = byte;
    move_line(m);
}

bool keyboard_has_room(const machine *m, size_t bytes) {
    const keyboard *k = &m->keyboard;
    return sizeof k->queue - k->count >= bytes && !(k->command_byte & KEYBOARD_OFF);
}

static uint8_t take(machine *m) {
    keyboard *k = &m->keyboard;
    if (k->count == 0) return k->last;
    k->last = k->queue[0];
    memmove(k->queue, k->queue + 1, --k->count);
    size_t left = k->count;
    k->count = 0;
    move_line(m);
    k->count = left;
    move_line(m);
    return k->last;
}

/* INIT, as from the controller's pin: the processor restarts, and the board stays as it is. */
static void restart(machine *m) {
    if (m->reset == BOARD_NO_RESET) m->reset = BOARD_SOFT_RESET;
}

static void write_output_port(machine *m, uint8_t value) {
    m->keyboard.a20 = value & A20;
    if (!(value & PROCESSOR_RUNS)) restart(m);
}

/* A command of the controller, at port 64h. Those of a second device are not known. */
static void command(machine *m, uint8_t value) {
    keyboard *k = &m->keyboard;
    k->awaits = 0;
    switch (value) {
    case 0x20: keyboard_give(m, k->command_byte); return;
    case 0x60: case 0xD1: case 0xD2: case 0xD3: case 0xD4: k->awaits = value; return; /* a byte at port 60h follows */
    case 0xAA:
        k->tested = true;
        keyboard_give(m, CONTROLLER_WELL);
        return;
    case 0xAB: keyboard_give(m, 0); return; /* the keyboard's wires are well */
    case 0xAD: k->command_byte |= KEYBOARD_OFF; return;
    case 0xAE: k->command_byte &= (uint8_t)~KEYBOARD_OFF; return;
    case 0xC0: keyboard_give(m, INPUT_PINS); return;
    case 0xD0: keyboard_give(m, OTHER_PINS | k->a20 | PROCESSOR_RUNS); return;
    default:
        if (value >= 0xF0 && !(value & PROCESSOR_RUNS)) restart(m); /* a pulse of the output port: FEh */
    }
}

/* The byte that a command of the controller waits for. */
static void follow(machine *m, uint8_t value) {
    keyboard *k = &m->keyboard;
    uint8_t of = k->awaits;
    k->awaits = 0;
    if (of == 0x60) k->command_byte = value;
    else if (of == 0xD1) write_output_port(m, value);
    else if (of == 0xD2) keyboard_give(m, value);
    move_line(m);
}

/* A byte for the keyboard. */
static void tell_keyboard(machine *m, uint8_t value) {
    keyboard *k = &m->keyboard;
    if (k->keyboard_awaits) {
        k->keyboard_awaits = false;
        keyboard_give(m, TAKEN);
        return;
    }
    switch (value) {
    case 0xED: case 0xF0: case 0xF3: /* lights, codes, rate: a byte follows */
        k->keyboard_awaits = true;
        keyboard_give(m, TAKEN);
        return;
    case 0xEE: keyboard_give(m, value); return;
    case 0xF2: /* what it is, translated */
        keyboard_give(m, TAKEN), keyboard_give(m, 0xAB), keyboard_give(m, 0x41);
        return;
    case 0xF4: case 0xF5: case 0xF6: keyboard_give(m, TAKEN); return;
    case 0xFF: keyboard_give(m, TAKEN), keyboard_give(m, KEYBOARD_WELL); return;
    default: keyboard_give(m, AGAIN);
    }
}

void keyboard_reset(machine *m) {
    bool line = m->keyboard.line;
    m->keyboard = (keyboard){.a20 = A20, .line = line};
    move_line(m);
}

uint8_t keyboard_read(machine *m, uint32_t port) {
    const keyboard *k = &m->keyboard;
    if (port == SYSTEM_CONTROL) return k->a20 | k->fast_restart;
    if (port == DATA) return take(m);
    return (uint8_t)(UNLOCKED | (k->count ? OUTPUT_FULL : 0) | (k->tested ? TESTED : 0) | (k->was_command ? WAS_COMMAND : 0));
}

void keyboard_write(machine *m, uint32_t port, uint8_t value) {
    keyboard *k = &m->keyboard;
    if (port == SYSTEM_CONTROL) {
        if (value & ~k->fast_restart & PROCESSOR_RUNS) restart(m);
        k->a20 = value & A20;
        k->fast_restart = value & PROCESSOR_RUNS;
        return;
    }
    k->was_command = port != DATA;
    if (k->was_command) command(m, value);
    else if (k->awaits) follow(m, value);
    else tell_keyboard(m, value);
}
