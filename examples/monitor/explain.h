/* explain.h: the accesses that nobody answered, that found an empty socket or that a register denied, each told once. */
#ifndef EXPLAIN_H
#define EXPLAIN_H
#include "board.h"
#include <stdbool.h>
#ifdef __cplusplus
extern "C" {
#endif

enum { EXPLAIN_ROOM = 4096 };

/* An access that was told: a kind of access to a page of memory or to a port, and what denied it. */
typedef struct explained {
    uint64_t key;
    uint32_t addr; /* the first one, or the port */
    uint64_t count;
    board_part part;
    uint8_t what;
    uint8_t kind;
} explained;

typedef struct explain {
    explained told[EXPLAIN_ROOM]; /* by the hash of the key; a count of 0 is a free place */
    uint32_t count;
    uint64_t untold;   /* where there was no room */
    bool has_keyboard; /* the monitor has put a controller into its socket */
} explain;

void explain_step(explain *x, const board_event *event, const board_reply *reply);
/* Tells how often each was made, the most frequent first. */
void explain_close(explain *x);

#ifdef __cplusplus
}
#endif
#endif
