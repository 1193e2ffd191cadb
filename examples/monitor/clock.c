/* Time: the board has none of its own. The 8254 gets a pulse each 1/1,193,182 of a second; the MC146818 begins with the
 * host's date, and then goes on each second from the one that it shows, which the guest may have set. The processor says how
 * much time has passed, and asks when it must come back. */
#define _DEFAULT_SOURCE
#include "machine.h"
#include <time.h>

enum {
    PIT_HERTZ = 1193182,
    MOST_PULSES = 1000000
};

uint64_t clock_pulses_at(uint64_t nanoseconds) {
    return nanoseconds / NANOSECONDS * PIT_HERTZ + nanoseconds % NANOSECONDS * PIT_HERTZ / NANOSECONDS;
}

/* The first nanosecond at which there have been so many pulses. */
static uint64_t time_of(uint64_t pulses) {
    uint64_t rest = pulses % PIT_HERTZ * NANOSECONDS;
    return pulses / PIT_HERTZ * NANOSECONDS + (rest + PIT_HERTZ - 1) / PIT_HERTZ;
}

static void pulse_to(machine *m, uint64_t due) {
    while (m->pulses < due) {
        uint64_t count = due - m->pulses;
        if (count > MOST_PULSES) count = MOST_PULSES;
        board_reply reply;
        machine_step(m, &(board_event){.what = BOARD_PULSE, .value = count}, &reply);
        m->pulses += count;
    }
}

void clock_start(machine *m) {
    time_t now = time(NULL);
    struct tm t;
    gmtime_r(&now, &t);
    uint64_t digits = (uint64_t)(t.tm_year + 1900);
    const int parts[] = {t.tm_mon + 1, t.tm_mday, t.tm_hour, t.tm_min, t.tm_sec};
    for (size_t k = 0; k < sizeof parts / sizeof *parts; k++) digits = digits * 100 + (uint64_t)parts[k];
    board_reply reply;
    machine_step(m, &(board_event){.what = BOARD_TIME, .value = digits}, &reply);
    clock_plan(m);
}

void clock_runs_to(machine *m, uint64_t nanoseconds) {
    if (nanoseconds < m->time) return;
    m->time = nanoseconds;
    pulse_to(m, clock_pulses_at(nanoseconds));
    for (; m->second < nanoseconds / NANOSECONDS; m->second++) machine_second(m);
    clock_plan(m);
}

void clock_plan(machine *m) {
    uint32_t pulses;
    m->wake = (m->time / NANOSECONDS + 1) * NANOSECONDS;
    if (board_pulses_to_rise(&m->board, &pulses) != BOARD_OK || pulses == 0) return;
    uint64_t rise = time_of(m->pulses + pulses);
    if (rise < m->wake) m->wake = rise;
}
