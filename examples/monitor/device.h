/* device.h: what a device of the monitor's own is to the rest. Each is one file that may be left out of the build
 * (WITHOUT of the Makefile): it adds itself before main begins, and no other file names it. */
#ifndef DEVICE_H
#define DEVICE_H
#include "board.h"
#ifdef __cplusplus
extern "C" {
#endif

struct machine;

/* One bus cycle of the guest at a port. */
typedef struct port_cycle {
    uint32_t port;
    uint32_t value; /* that is written, or that was read */
    uint8_t kind;   /* BOARD_READ or BOARD_WRITE */
    uint8_t bytes;
} port_cycle;

/* A file of fw_cfg: its name, and what puts its bytes there (fw_cfg_put). */
typedef struct fw_cfg_file {
    const char *name;
    void (*put)(struct machine *m);
} fw_cfg_file;

/* A device. Of what it has not the pointer is NULL. */
typedef struct device {
    const char *flag;  /* the word of the command line by which it is there */
    const char *usage; /* what the word does, a line */
    void *state;       /* what --save keeps: zeros when the power comes, and sound whatever bytes it has */
    size_t bytes;
    const fw_cfg_file *files; /* ended by one without a name */
    void (*reset)(struct machine *m);                    /* the power has come, or the board had a hard reset */
    bool (*take)(struct machine *m, port_cycle *cycle);  /* before the board: whether it is to hear nothing of it */
    void (*answer)(struct machine *m, port_cycle *cycle, const board_reply *reply); /* after the board: what is read */
    /* after the board: an access of memory, or a part of one, that a card answers whose bytes are the monitor's */
    void (*memory)(struct machine *m, const board_part *part, uint8_t kind, uint8_t bytes, uint8_t *data);
    void (*card)(board_card *virtio);                    /* what the virtio card says that it is, and its bases */
    void (*identify)(uint32_t word, uint16_t *told);     /* a word of what IDENTIFY DEVICE gives */
    bool (*key)(struct machine *m, uint8_t key);         /* typed after Ctrl-A: whether it is the device's */
    bool is_used;
    struct device *next; /* by rising flag */
} device;

void device_add(device *d);
/* The device of a word of the command line, or NULL. */
device *device_find(const char *flag);
/* The first of all, and from one on the first that is used, or NULL. */
device *device_first(void);
device *device_from(device *d);
#define EACH_DEVICE(d) device *d = device_from(device_first()); d; d = device_from(d->next)

/* Whether a word of IDENTIFY DEVICE may be another than the board's. */
bool devices_identify(void);
/* What they keep, as bytes: how many, these, and whether bytes are such, which are taken then. */
size_t devices_bytes(void);
void devices_save(uint8_t *into);
bool devices_load(const uint8_t *from, size_t bytes);

#ifdef __cplusplus
}
#endif
#endif
