/* record.h: what the guest did as a script, and its log, which `board check` accepts. */
#ifndef RECORD_H
#define RECORD_H
#include "board.h"
#include "options.h"
#include <stdio.h>
#ifdef __cplusplus
extern "C" {
#endif

typedef struct record {
    FILE *script; /* NULL: none is kept */
    FILE *log;
    uint32_t statements;
    uint64_t pulses;
    bool line_4; /* as the script has it */
} record;

void record_open(record *r, const options *o, const uint8_t *rom, size_t rom_bytes, const uint8_t *disk, size_t disk_bytes);
/* A step of the board. What COM1 does and receives is no statement of a script, and is left out. */
void record_step(record *r, const board_event *event, const board_reply *reply);
/* The level of line 4, which COM1 moves: where it is another one, the script moves it by `irq`. */
void record_line_4(record *r, bool level);
void record_close(record *r);

#ifdef __cplusplus
}
#endif
#endif
