/* The script and the log of a guest. The library writes each line of the log; the statement in it is the script's. */
#include "record.h"
#include <stdlib.h>
#include <string.h>

enum { MOST_STATEMENTS = 250000, MOST_PULSES = 100000000, MOST_NAME = 4096, COM1_LINE = 4 };

static FILE *create(const char *front, const char *end) {
    char name[MOST_NAME];
    snprintf(name, sizeof name, "%s.%s", front, end);
    FILE *file = fopen(name, "wb");
    if (!file) {
        perror(name);
        exit(1);
    }
    return file;
}

static void copy(const char *front, const char *end, const uint8_t *from, size_t bytes) {
    FILE *file = create(front, end);
    if (fwrite(from, 1, bytes, file) != bytes || fclose(file)) {
        perror(front);
        exit(1);
    }
}

void record_open(record *r, const options *o, const uint8_t *rom, size_t rom_bytes, const uint8_t *disk, size_t disk_bytes) {
    if (!o->log) return;
    const char *slash = strrchr(o->log, '/'), *name = slash ? slash + 1 : o->log;
    r->script = create(o->log, "script");
    r->log = create(o->log, "log");
    copy(o->log, "rom", rom, rom_bytes);
    fprintf(r->script, "board 2\ncpus 1\nmemory %u\nrom %s.rom\n", o->mib, name);
    if (disk_bytes) {
        copy(o->log, "disk", disk, disk_bytes);
        fprintf(r->script, "disk %s.disk\n", name);
    }
    fprintf(r->script, "phase\n");
    fprintf(r->log, "access log 2\n");
}

/* A script has its limits: at the first that is reached, script and log end, and the guest goes on. */
static bool is_full(record *r, const board_event *event) {
    if (event->what == BOARD_PULSE) r->pulses += event->value;
    return r->statements == MOST_STATEMENTS || r->pulses > MOST_PULSES;
}

/* A line of the log is `NUMBER 0.STATEMENT-NUMBER STATEMENT = ...`. */
static void add(record *r, const board_event *event, const board_reply *reply) {
    char line[BOARD_LONGEST_LINE + 1];
    size_t bytes = 0;
    if (!r->script) return;
    if (is_full(r, event)) {
        fprintf(stderr, "monitor: script and log end here: a script has no room for more\n");
        record_close(r);
        return;
    }
    r->statements++;
    if (board_text(event, reply, r->statements, 0, r->statements, (uint8_t *)line, BOARD_LONGEST_LINE, &bytes) != BOARD_OK) {
        fprintf(stderr, "monitor: no line of a log for statement %u\n", r->statements);
        exit(1);
    }
    line[bytes] = 0;
    const char *statement = strchr(strchr(line, ' ') + 1, ' ') + 1;
    fprintf(r->script, "0 %.*s\n", (int)(strstr(statement, " = ") - statement), statement);
    fputs(line, r->log);
}

void record_step(record *r, const board_event *event, const board_reply *reply) {
    bool is_com1 = reply->part[0].target == BOARD_IS_DEVICE && reply->part[0].unit == BOARD_UART;
    if (is_com1 || event->what == BOARD_SERIAL) return;
    add(r, event, reply);
}

void record_line_4(record *r, bool level) {
    if (level == r->line_4) return;
    r->line_4 = level;
    board_event event = {.what = BOARD_IRQ, .addr = COM1_LINE, .value = level};
    board_reply reply = {.form = BOARD_BUS_REPLY, .parts = 1, .part = {{.target = BOARD_IS_DEVICE, .unit = BOARD_WIRES}}};
    add(r, &event, &reply);
}

void record_close(record *r) {
    if (!r->script) return;
    if (fclose(r->script) || fclose(r->log)) perror("monitor: script and log");
    fprintf(stderr, "monitor: %u statements are in script and log\n", r->statements);
    r->script = r->log = NULL;
}
