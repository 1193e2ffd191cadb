/* What is typed at the terminal as keys of the 8042's keyboard, with --keyboard --type-keys: codes of set 1, those of a
 * US keyboard, each key pressed and released. */
#include "machine.h"
#include <string.h>

enum { CTRL = 0x1D, SHIFT = 0x2A, RELEASED = 0x80, MOST_CODES = 4, DELETE = 0x7F, CTRL_Z = 0x1A, TO_LETTER = 0x60 };

/* By code: what a key gives, and with Shift. */
static const char plain[] = "\0\0331234567890-=\b\tqwertyuiop[]\r\0asdfghjkl;'`\0\\zxcvbnm,./\0*\0 ";
static const char shifted[] = "\0\033!@#$%^&*()_+\b\tQWERTYUIOP{}\r\0ASDFGHJKL:\"~\0|ZXCVBNM<>?\0*\0 ";

static uint8_t code_in(const char *keys, uint8_t key) {
    const char *at = key ? memchr(keys, key, sizeof plain - 1) : NULL;
    return at ? (uint8_t)(at - keys) : 0;
}

static void press(machine *m, uint8_t code, uint8_t with) {
    if (with) keyboard_give(m, with);
    keyboard_give(m, code);
    keyboard_give(m, code | RELEASED);
    if (with) keyboard_give(m, with | RELEASED);
}

bool typed_has_room(const machine *m) { return keyboard_has_room(m, MOST_CODES); }

void typed_key(machine *m, uint8_t key) {
    uint8_t of = key == DELETE ? '\b' : key == '\n' ? '\r' : key;
    uint8_t code = code_in(plain, of), with_shift = code_in(shifted, of);
    if (code) press(m, code, 0);
    else if (with_shift) press(m, with_shift, SHIFT);
    else if (key && key <= CTRL_Z) press(m, code_in(plain, key | TO_LETTER), CTRL);
}
