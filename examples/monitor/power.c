/* --power: the fixed registers of ACPI (ACPI 1.0, 4.7) at ports of the monitor's: a power button, which is Ctrl-A and
 * p, its interrupt on line 9, the timer, and the register by which a guest takes the power away. acpi.c has tables that
 * name them. */
#include "machine.h"

enum { FIRST = 0x600, STATUS = 0x600, ENABLE = 0x602, CONTROL = 0x604, TIMER = 0x608, END = 0x60C };
enum { BUTTON = 0x0100, EVENTS = 0x0521 };         /* of status and enable; all that enable keeps */
enum { BY_INTERRUPT = 0x0001, SLEEP_TYPE = 0x1C00, SLEEP = 0x2000, OFF = 5 << 10 }; /* of the control */
enum { LINE = 9, TIMER_HERTZ = 3579545, TIMER_BITS = 0xFFFFFF };

static struct power {
    uint16_t status, enable, control;
    uint16_t line; /* the level that was given to the board last */
} s;

static void set_line(machine *m) {
    board_reply reply;
    uint16_t level = (s.status & s.enable & BUTTON) != 0;
    if (s.line == level) return;
    s.line = level;
    machine_step(m, &(board_event){.what = BOARD_IRQ, .addr = LINE, .value = level}, &reply);
}

static void reset(machine *m) {
    s.status = s.enable = s.control = 0;
    set_line(m);
}

static uint32_t timer(void) {
    uint64_t now = processor_time();
    return (uint32_t)(now / NANOSECONDS * TIMER_HERTZ + now % NANOSECONDS * TIMER_HERTZ / NANOSECONDS) & TIMER_BITS;
}

/* A byte of a register. */
static uint8_t read_byte(uint32_t port, uint32_t now) {
    if (port >= TIMER) return (uint8_t)(now >> 8 * (port - TIMER));
    uint32_t control = port < CONTROL + 2 ? s.control | BY_INTERRUPT : 0;
    uint32_t value = port < ENABLE ? s.status : port < CONTROL ? s.enable : control;
    return (uint8_t)(value >> 8 * (port % 2));
}

/* Of the status a 1 takes away what has happened. */
static void write_byte(uint32_t port, uint8_t value) {
    uint16_t bits = (uint16_t)(value << 8 * (port % 2)), others = (uint16_t)(port % 2 ? 0x00FF : 0xFF00);
    if (port < ENABLE) s.status &= (uint16_t)~bits;
    else if (port < CONTROL) s.enable = (uint16_t)((s.enable & others) | bits) & EVENTS;
    else if (port < CONTROL + 2) s.control = (uint16_t)((s.control & others) | (bits & (SLEEP_TYPE | SLEEP)));
}

/* Of the sleeping states there is the last alone, in which the power is off. */
static void sleep_where_asked(void) {
    if (s.control & SLEEP && (s.control & SLEEP_TYPE) == OFF) console_end("the guest has taken the power away");
    s.control &= (uint16_t)~SLEEP;
}

static void answer(machine *m, port_cycle *c, const board_reply *reply) {
    uint32_t value = 0, now = timer();
    if (reply->part[0].target != BOARD_ABORT || c->port < FIRST || c->port >= END) return;
    for (uint32_t k = 0; k < c->bytes; k++) {
        if (c->kind == BOARD_WRITE) write_byte(c->port + k, (uint8_t)(c->value >> 8 * k));
        else value |= (uint32_t)read_byte(c->port + k, now) << 8 * k;
    }
    if (c->kind == BOARD_READ) c->value = value;
    else sleep_where_asked();
    set_line(m);
}

static bool key(machine *m, uint8_t typed) {
    if (typed != 'p') return false;
    s.status |= BUTTON;
    set_line(m);
    return true;
}

static device it = {
    .flag = "--power",
    .usage = "a power button, Ctrl-A p, and ACPI's registers at ports 600h to 60Bh",
    .state = &s,
    .bytes = sizeof s,
    .reset = reset,
    .answer = answer,
    .key = key,
};

__attribute__((constructor)) static void add(void) { device_add(&it); }
