/* machine.h: all of a PC that stands beside the board and its processor: the guest's memory, what a board finds set when
 * the power comes, time, a terminal on COM1. A processor (kvm.c, unicorn.c, bochs/processor.cc) runs the guest over it. */
#ifndef MACHINE_H
#define MACHINE_H
#include "board.h"
#include "device.h"
#include "explain.h"
#include "options.h"
#include "record.h"
#include <stdbool.h>
#include <stddef.h>
#include <stdint.h>
#ifdef __cplusplus
extern "C" {
#endif

enum {
    GUEST_PAGE = 4096,
    MOST_SLOTS = BOARD_MOST_RANGES
};

/* Ports of the disk; that of status is device control when it is written. */
enum { DISK_DATA = 0x1F0, DISK_COUNT = 0x1F2, DISK_DEVICE = 0x1F6, DISK_COMMAND = 0x1F7, DISK_STATUS = 0x3F6 };

#define NANOSECONDS 1000000000ull

/* Addresses, the first and the last, behind which plain memory of the host lies: the guest reads and fetches there, and
 * writes unless read_only, without an exit. All other addresses are the board's to answer. */
typedef struct memory_slot {
    uint32_t first;
    uint32_t last;
    uint8_t *host;
    bool read_only;
} memory_slot;

typedef struct machine_counts {
    uint64_t steps;         /* events that the board did */
    uint64_t calls;         /* by which it did them: of a string instruction one does many */
    uint64_t step_time;     /* in these, nanoseconds; measured where options.timing is set */
    uint64_t ports, memory; /* exits for a port and for memory; each may take several steps */
    uint64_t disk_words;
    uint64_t interrupts;    /* acknowledged by the processor */
    uint64_t maps;          /* how often the slots were made anew */
    uint64_t resets[BOARD_HARD_RESET + 1];
} machine_counts;

/* An 8042 and its keyboard (keyboard.c). */
typedef struct keyboard {
    uint8_t queue[16]; /* bytes for port 60h */
    size_t count;
    uint8_t last;      /* that port 60h gave */
    uint8_t command_byte;
    uint8_t awaits;    /* the controller's command that a byte at port 60h follows, or 0 */
    bool keyboard_awaits;
    bool was_command;  /* the last write was at port 64h */
    bool tested;
    bool line;         /* the level of line 1 */
    uint8_t a20;
    uint8_t fast_restart; /* bit 0 of port 92h */
} keyboard;

/* QEMU's fw_cfg (fw_cfg.c). */
typedef struct fw_cfg {
    uint8_t item[2048]; /* the bytes of the selected item; the longest is what acpi.c has for the loader, of 1408 */
    size_t bytes;
    size_t next;       /* the byte that is read next */
} fw_cfg;

/* Of the virtio card's queue how many requests it holds at most, and the feature that a cache can be flushed. */
enum { VIRTIO_RING = 128, VIRTIO_FLUSH = 1 << 9 };

/* A virtio block card (virtio_blk.c), which a guest drives by the legacy registers, or those of virtio 1.0. */
typedef struct virtio_blk {
    int file;
    uint64_t sectors;
    uint32_t features; /* that the guest took */
    uint32_t page;     /* of the one queue, 0 until the guest gives it */
    uint16_t selected; /* queue */
    uint16_t seen;     /* how many requests were done, modulo 65536 */
    uint8_t status, isr;
    bool line;         /* the level of INTA# */
    bool broken;       /* its ring is none: nothing is done until the guest resets it */
    uint8_t is_modern; /* 1 where the queue is that of virtio 1.0 (virtio_modern.c), which has the next fields */
    uint8_t feature_selects[2];
    uint16_t queue_size;
    uint32_t high_features;
    uint64_t ring[3];  /* descriptors, the available ring, the used ring */
} virtio_blk;

/* The disk's file of --keep-disk (kept_disk.c). */
typedef struct kept_disk {
    int file;
    uint32_t sector;   /* that is being written, and how many words of it came */
    uint32_t words;
    uint32_t is_writing; /* 1 from a WRITE SECTORS to the next command */
} kept_disk;

typedef struct machine {
    board board;
    options options;
    uint8_t *memory; /* the guest's main memory, of options.mib MiB */
    uint8_t *rom;
    size_t rom_bytes;
    memory_slot slots[MOST_SLOTS];
    size_t slot_count;
    bool slots_moved;     /* the processor takes the slots anew, and clears this */
    uint32_t map_version; /* of the map that the slots were made of */
    bool interrupt;       /* INT after the last step: the processor acknowledges it when it can take it */
    uint32_t reset;       /* board_reset that a step made and the processor has not done yet */
    bool serial_room;     /* COM1 can receive a byte */
    uint64_t time;        /* nanoseconds since the power came, as the processor said last */
    uint64_t pulses;      /* of the 8254's clock until then */
    uint64_t wake;        /* when the clock must run next: line 0 rises, or a second begins */
    uint64_t second;      /* since the power came, for which the MC146818 got a date last */
    bool console_closed;
    keyboard keyboard;
    virtio_blk virtio;
    fw_cfg fw_cfg;
    kept_disk kept_disk;
    uint32_t identify;    /* words that were read since IDENTIFY DEVICE (identify.c) */
    machine_counts counts;
    record record;
    explain explain;
    /* of a guest that was loaded */
    uint64_t loaded_at; /* nanoseconds of its time until it was saved; 0 from power-on */
    const uint8_t *processor; /* its processor's state, until that has taken it, or NULL */
    size_t processor_bytes;
} machine;

/* ---- machine.c */

/* Fits the board with the ROM and the disk of the options, and brings it up to the reset vector. Ends the process where a
 * file cannot be read or the board is refused. */
void machine_open(machine *m, const options *wanted);
/* Pages of zeros. Ends the process where there are none. */
uint8_t *machine_pages(size_t bytes);
/* A whole file, in pages of its own: a slot can begin there. Ends the process where it cannot be read. */
uint8_t *machine_file(const char *name, size_t *bytes);
void machine_file_free(uint8_t *file, size_t bytes);
/* Tells the figures: exits, steps. */
void machine_tell(const machine *m, const char *why);
/* Closes the disk's file, log and board, and tells the figures. */
void machine_close(machine *m, const char *why);
/* Does one event on the board: every step goes through here, but for seconds of the clock and strings. */
void machine_step(machine *m, const board_event *event, board_reply *reply);
/* Reads or writes a port for each of the values in one call, kind BOARD_READ or BOARD_WRITE, until one asks for the
 * processor: how many were done, at least one. The log and the explanation do not have them. */
size_t machine_steps(machine *m, uint8_t kind, uint16_t port, uint8_t bytes, uint32_t *values, size_t count);
/* Lets the MC146818 go on one second, unless it stands still or shows no date. */
void machine_second(machine *m);
/* What the processor does after the instruction that made a reset: board_reset. After a hard one the board stands as at
 * power-on again. */
uint32_t machine_take_reset(machine *m);
/* The vector of the interrupt that the processor takes now. */
uint8_t machine_acknowledge(machine *m);

/* ---- the processor's */

/* Nanoseconds of the guest's time since the power came. */
uint64_t processor_time(void);
/* Bytes of memory were written that the processor did not write. */
void processor_wrote(uint64_t addr, uint64_t bytes);
/* Which processor it is: another one cannot go on from its state. */
extern const uint32_t processor_kind;
enum { PROCESSOR_KVM = 1, PROCESSOR_UNICORN, PROCESSOR_BOCHS };
/* Its state between two instructions: how many bytes it has, and these. */
size_t processor_bytes(void);
void processor_save(uint8_t *into);

/* ---- saved.c: --save and --load */

/* Writes the guest into the file of --save. It goes on then. */
void machine_save(machine *m);
/* Takes the board, the memory and what stands beside them from the file of --load. Ends the process where it is none. */
void machine_load(machine *m);

/* ---- exits.c */

uint32_t machine_in(machine *m, uint16_t port, unsigned bytes);
void machine_out(machine *m, uint16_t port, unsigned bytes, uint32_t value);
/* What a string instruction does at a port, kind BOARD_READ or BOARD_WRITE, with `count` values of `bytes` bytes each in
 * data: how many were done, at least one. It ends early where something asks for the processor. */
size_t machine_string(machine *m, uint8_t kind, uint16_t port, unsigned bytes, uint8_t *data, size_t count);
/* An access outside the slots, kind BOARD_READ or BOARD_WRITE, of any number of bytes. At 4 GiB and above it reaches nobody. */
void machine_memory(machine *m, uint8_t kind, uint64_t addr, size_t bytes, uint8_t *data);

/* Function and register of a cycle at the ports of configuration data, as CONFADD has them, to the byte; else 0. */
uint32_t machine_config(machine *m, const port_cycle *cycle);

/* ---- slots.c */

/* Makes the slots anew where the map has changed. */
void slots_follow_map(machine *m);
/* The host's bytes behind an address that a kind of access reaches without an exit, or none. */
uint8_t *slots_find(machine *m, uint64_t addr, bool write);

/* ---- clock.c */

/* Gives the MC146818 the host's date. */
void clock_start(machine *m);
/* So many nanoseconds have passed since the power came: gives the 8254 its pulses and the MC146818 its date. */
void clock_runs_to(machine *m, uint64_t nanoseconds);
/* How many pulses the 8254 has had after so many nanoseconds. */
uint64_t clock_pulses_at(uint64_t nanoseconds);
/* Sets m->wake after a write to the 8254 or a reset. */
void clock_plan(machine *m);

/* ---- keyboard.c: ports 60h, 64h and 92h with options.keyboard */

void keyboard_reset(machine *m);
uint8_t keyboard_read(machine *m, uint32_t port);
void keyboard_write(machine *m, uint32_t port, uint8_t value);
/* A byte from the keyboard to port 60h, and whether there is room for so many of them and the keyboard is on. */
void keyboard_give(machine *m, uint8_t byte);
bool keyboard_has_room(const machine *m, size_t bytes);

/* ---- typed.c: with options.type_keys */

/* Whether a key may be typed, and the key of a character. */
bool typed_has_room(const machine *m);
void typed_key(machine *m, uint8_t key);

/* ---- fw_cfg.c: ports 510h and 511h with options.fw_cfg */

void fw_cfg_reset(machine *m);
/* Puts bytes into the file that is being made. */
void fw_cfg_put(machine *m, const void *from, size_t bytes);
/* Whether such an access is one that the device hears. */
bool fw_cfg_hears(uint8_t kind, uint32_t port, uint8_t bytes);
uint8_t fw_cfg_read(machine *m);
void fw_cfg_write(machine *m, uint32_t port, uint16_t value);

/* ---- cards.c */

enum { MOST_CARDS = 1 + MOST_ROM_CARDS };
/* The cards that the options ask for, in rising order of device: how many. */
size_t cards_list(const options *o, board_card *into);
/* Puts the bytes of their expansion ROMs into the board. */
void cards_fill(machine *m);

/* ---- virtio_blk.c: a card at VIRTIO_DEVICE with options.virtio */

board_card virtio_card(void);

void virtio_open(virtio_blk *v, const char *name);
void virtio_reset(machine *m);
/* A read and a write at an offset in the card's base. */
uint32_t virtio_read(machine *m, uint32_t offset, unsigned bytes);
void virtio_write(machine *m, uint32_t offset, uint32_t value);
/* Does the requests that wait; how many the queue holds; and what has happened, which takes the interrupt away. */
void virtio_do_queue(machine *m);
uint16_t virtio_queue_size(const virtio_blk *v);
uint8_t virtio_take_isr(machine *m);

/* ---- kept_disk.c: with options.keep_disk */

/* Makes the file, with all sectors as they stand. Ends the process where it cannot, here and below. */
void kept_disk_open(machine *m);
/* Sees an event that the board has done so many times. */
void kept_disk_see(machine *m, const board_event *event, size_t times);
void kept_disk_close(machine *m);

/* ---- task_file.c */

/* A register of the disk as it reads, FFh where nobody answers; the sector that the registers name; and whether words
 * are to move. No step of the guest's. */
uint8_t task_file(machine *m, uint16_t port);
uint32_t task_file_sector(machine *m);
bool task_file_wants_words(machine *m);

/* ---- identify.c: with options.bochs_bios, or a device that changes words */

/* Whether words of IDENTIFY DEVICE are being read, of which some are others than the board's. */
bool identify_awaits(const machine *m);

/* Sees an access that the disk answered, with the value that is written or was read: the value that the guest reads. */
uint32_t identify_see(machine *m, uint8_t kind, uint32_t port, uint8_t bytes, uint32_t value);

/* ---- console.c */

/* Puts a byte of COM1 or of SeaBIOS's debug port on the terminal. */
void console_put(uint8_t byte);
/* Gives COM1 what was typed, while it has room. */
void console_listen(machine *m);
/* Takes the terminal byte by byte from now on, and gives it back as it was at the end of the process. */
void console_open(void);
/* Whether Ctrl-A and x were typed, the process was asked to end, or a device ends it; and why. */
bool console_ended(void);
const char *console_why(void);
void console_end(const char *why);
/* Whether Ctrl-A and s were typed, or the signal USR1 came, since this was asked last. */
bool console_save_asked(void);

#ifdef __cplusplus
}
#endif
#endif
