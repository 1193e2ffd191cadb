/* The terminal on COM1: what the guest sends is printed, what is typed it receives. Ctrl-A takes a key for the monitor: x ends
 * it, s saves the guest, f tells the figures. */
#define _POSIX_C_SOURCE 200809L
#include "machine.h"
#include <poll.h>
#include <signal.h>
#include <stdio.h>
#include <stdlib.h>
#include <termios.h>
#include <unistd.h>

enum { CTRL_A = 1, ENDING = 'x', SAVING = 's', FIGURES = 'f' };

static struct termios before;
static volatile sig_atomic_t ended, save_asked;

static void give_back(void) { tcsetattr(STDIN_FILENO, TCSANOW, &before); }

static void on_signal(int number) {
    if (number == SIGUSR1) save_asked = 1;
    else ended = 1;
}

bool console_ended(void) { return ended; }

static const char *why_ended = "ended";

const char *console_why(void) { return why_ended; }

void console_end(const char *why) {
    why_ended = why;
    ended = 1;
}

bool console_save_asked(void) {
    bool asked = save_asked;
    save_asked = 0;
    return asked;
}

void console_open(void) {
    struct sigaction act = {.sa_handler = on_signal};
    sigaction(SIGTERM, &act, NULL);
    sigaction(SIGINT, &act, NULL);
    sigaction(SIGUSR1, &act, NULL);
    if (!isatty(STDIN_FILENO) || tcgetattr(STDIN_FILENO, &before)) return;
    atexit(give_back);
    struct termios raw = before;
    raw.c_lflag &= ~(tcflag_t)(ICANON | ECHO | ISIG);
    raw.c_iflag &= ~(tcflag_t)(ICRNL | IXON);
    raw.c_cc[VMIN] = 1;
    raw.c_cc[VTIME] = 0;
    tcsetattr(STDIN_FILENO, TCSANOW, &raw);
}

void console_put(uint8_t byte) {
    putchar(byte);
}

/* A key for the monitor. Any other than these is sent to the guest. */
static bool is_taken(machine *m, uint8_t key) {
    switch (key) {
    case ENDING: ended = 1; return true;
    case SAVING: save_asked = 1; return true;
    case FIGURES: machine_tell(m, "running"); return true;
    }
    for (EACH_DEVICE(d))
        if (d->key && d->key(m, key)) return true;
    return false;
}

/* A byte that was typed for the guest, or -1. */
static int typed(machine *m) {
    static bool for_monitor;
    struct pollfd in = {.fd = STDIN_FILENO, .events = POLLIN};
    uint8_t byte;
    while (!m->console_closed && poll(&in, 1, 0) > 0) {
        if (read(STDIN_FILENO, &byte, 1) != 1) m->console_closed = true;
        else if (for_monitor) {
            for_monitor = false;
            if (!is_taken(m, byte)) return byte;
        } else if (byte == CTRL_A) for_monitor = true;
        else return byte;
    }
    return -1;
}

void console_listen(machine *m) {
    fflush(stdout);
    int byte;
    board_reply reply;
    while (m->options.type_keys && typed_has_room(m) && (byte = typed(m)) >= 0) typed_key(m, (uint8_t)byte);
    while (!m->options.type_keys && m->serial_room && (byte = typed(m)) >= 0) machine_step(m, &(board_event){.what = BOARD_SERIAL, .value = (uint64_t)byte}, &reply);
}
