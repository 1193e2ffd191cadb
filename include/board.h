/* board.h: the proved PC board (82441FX, 82371SB, two 8259A, 8254, MC146818, ATA by PIO, a 16550
 * on COM1) as a C library.
 *
 * A board is a handle of two words, which the caller keeps; every call takes a pointer to it. A
 * call that is refused leaves the board and the reply as they were. Nothing prints, traps or ends
 * the process. examples/kvm.c is a whole monitor of 200 lines over it.
 *
 * The caller owes: each pointer is good for what it points to, and for as many as the count beside
 * it says, and is not NULL, also where that count is 0; no two of a call overlap; one call at a
 * time is inside a handle, which the caller's lock sees to; a handle is zeros or what a call left,
 * and is not copied to go on with both; malloc, realloc and free are those of one heap. */
#ifndef BOARD_H
#define BOARD_H
#include <stdbool.h>
#include <stddef.h>
#include <stdint.h>
#ifdef __cplusplus
extern "C" {
#endif

/* The version of this interface: the records and numbers of this file, and the calls. */
#define BOARD_INTERFACE 8u
/* That of the library: BOARD_INTERFACE where this file is its own. No handle, no refusal. */
uint32_t board_version(void);

/* A handle. Zeros are a closed one. */
typedef struct board {
    void *at;
    bool open;
} board;

/* made by tools/make-names: numbers. The records below name them. */
/* How a call ends. At each call stand the statuses that it can give; none gives 10, 11 or 14. */
enum board_status {
    BOARD_OK = 0,
    BOARD_BAD_HANDLE = 1, /* the handle holds no board; or, where one is opened, it holds one */
    BOARD_NO_MEMORY = 2, /* memory was refused */
    BOARD_BAD_SIZE = 3, /* the guest's memory is not of 1 to 512 MiB */
    BOARD_BAD_CARDS = 4, /* a record says no card, or no board can be fitted with the cards */
    BOARD_BAD_ROM = 5, /* the ROM is not of 64, 128, 256 or 512 KiB */
    BOARD_BAD_DISK = 6, /* the disk is not of 1 to 65,536 whole sectors of 512 bytes */
    BOARD_NO_EVENT = 7, /* that is no event */
    BOARD_ALIGNMENT = 8, /* a port is no multiple of the width */
    BOARD_VALUE = 9, /* a value does not fit the width, or is not 0 where nothing is written */
    BOARD_END = 12, /* an access to memory ends past FFFFFFFFh */
    BOARD_PULSES = 13, /* a count of pulses is not 1 to 1,000,000 */
    BOARD_DEVICE = 15, /* no card has the device number */
    BOARD_LINE = 16, /* the line cannot be set from outside */
    BOARD_NO_CYCLE = 17, /* the event is no access that one bus cycle makes */
    BOARD_NO_SECTOR = 18, /* there is no disk, or it has no such sector */
    /* the bytes do not all lie in the installed memory, or in the card's base */
    BOARD_PAST_END = 19,
    BOARD_NO_BYTE = 20, /* the clock has 128 bytes */
    BOARD_BAD_LENGTH = 21, /* not as many bytes as the sector, the memory or the disk has */
    BOARD_NO_REPLY = 22, /* that is no reply */
    BOARD_NO_ROOM = 23, /* the text, or the saved board, does not fit */
    BOARD_SERIAL_FULL = 24, /* COM1 can receive no byte: its queue is full, or loopback is on */
    BOARD_NO_TIME = 25, /* the clock stands: SET is 1, or its registers say no date or time */
    BOARD_BAD_IMAGE = 26, /* the bytes are no saved board */
    BOARD_OTHER_VERSION = 27, /* another version saved these bytes */
    BOARD_NO_TRANSFER = 28 /* the numbers are those of no transfer of a bus master */
};
#define BOARD_CLOSED BOARD_BAD_HANDLE /* its name before this interface; it goes with the next */

/* What a status says, in a line without a line feed. */
static inline const char *board_status_text(uint32_t status) {
    switch (status) {
    case BOARD_OK: return "done";
    case BOARD_BAD_HANDLE: return "the handle holds no board; or, where one is opened, it holds one";
    case BOARD_NO_MEMORY: return "memory was refused";
    case BOARD_BAD_SIZE: return "the guest's memory is not of 1 to 512 MiB";
    case BOARD_BAD_CARDS: return "a record says no card, or no board can be fitted with the cards";
    case BOARD_BAD_ROM: return "the ROM is not of 64, 128, 256 or 512 KiB";
    case BOARD_BAD_DISK: return "the disk is not of 1 to 65,536 whole sectors of 512 bytes";
    case BOARD_NO_EVENT: return "that is no event";
    case BOARD_ALIGNMENT: return "a port is no multiple of the width";
    case BOARD_VALUE: return "a value does not fit the width, or is not 0 where nothing is written";
    case BOARD_END: return "an access to memory ends past FFFFFFFFh";
    case BOARD_PULSES: return "a count of pulses is not 1 to 1,000,000";
    case BOARD_DEVICE: return "no card has the device number";
    case BOARD_LINE: return "the line cannot be set from outside";
    case BOARD_NO_CYCLE: return "the event is no access that one bus cycle makes";
    case BOARD_NO_SECTOR: return "there is no disk, or it has no such sector";
    case BOARD_PAST_END: return "the bytes do not all lie in the installed memory, or in the card's base";
    case BOARD_NO_BYTE: return "the clock has 128 bytes";
    case BOARD_BAD_LENGTH: return "not as many bytes as the sector, the memory or the disk has";
    case BOARD_NO_REPLY: return "that is no reply";
    case BOARD_NO_ROOM: return "the text, or the saved board, does not fit";
    case BOARD_SERIAL_FULL: return "COM1 can receive no byte: its queue is full, or loopback is on";
    case BOARD_NO_TIME: return "the clock stands: SET is 1, or its registers say no date or time";
    case BOARD_BAD_IMAGE: return "the bytes are no saved board";
    case BOARD_OTHER_VERSION: return "another version saved these bytes";
    case BOARD_NO_TRANSFER: return "the numbers are those of no transfer of a bus master";
    default: return "no status of this library";
    }
}

/* What is asked. */
enum board_what {
    BOARD_MEMORY = 1, /* kind, addr, bytes 1, 2, 4 or 8, smm, value */
    BOARD_PORT = 2, /* kind BOARD_READ or BOARD_WRITE, addr, bytes 1, 2 or 4, value */
    BOARD_LOOK = 3, /* kind, addr, smm: where would such an access land? */
    BOARD_ACK = 4, /* interrupt acknowledge */
    BOARD_PULSE = 5, /* value: 1 to 1,000,000 pulses of the 8254's clock */
    BOARD_TIME = 6, /* value: year to second as digits, 20261128143000; years 1980 to 2099 */
    BOARD_WIRE = 7, /* INTA# of the card at device addr takes the level value, 0 or 1 */
    /* interrupt request line addr takes the level value, 0 or 1; of line 4 the board hears the
     * or with the level of COM1 */
    BOARD_IRQ = 8,
    BOARD_BAD_SECTOR = 9, /* sector addr of the disk goes bad */
    BOARD_SERIAL = 10 /* COM1 receives the byte value, 0 to 255, from outside */
};

/* The kind of an access. */
enum board_kind {
    BOARD_FETCH = 1, /* a code fetch */
    BOARD_READ = 2, /* a read of data */
    BOARD_WRITE = 3 /* a write */
};

/* What answered. */
enum board_target {
    BOARD_NOTHING = 0, /* a part that is not filled */
    BOARD_DRAM = 1, /* unit: the row */
    BOARD_SHADOW = 2, /* unit: the row */
    BOARD_SMRAM = 3, /* main memory at A0000h to BFFFFh */
    BOARD_ROM = 4, /* offset */
    BOARD_CARD = 5, /* unit: its device; base; offset */
    BOARD_IS_DEVICE = 6, /* unit: board_device */
    BOARD_CONFIG = 7, /* unit: the device; base: the function; offset */
    BOARD_ABORT = 8 /* nobody: reads give all ones, writes are lost */
};

/* A device of the board, or what gave a vector. */
enum board_device {
    BOARD_CONFADD = 1, /* the configuration address */
    BOARD_RESET_CONTROL = 2, /* the reset control register */
    BOARD_PIC0 = 3, /* the 8259A that is the master */
    BOARD_PIC1 = 4, /* the 8259A that is the slave */
    BOARD_PIT = 5, /* the 8254; also of `pulse` */
    BOARD_SYSTEM = 6, /* port 61h */
    /* the socket of the keyboard controller, which is empty: a read gives FFh, a write is lost */
    BOARD_KEYBOARD = 7,
    BOARD_CLOCK = 8, /* the MC146818; also of `moment` */
    BOARD_ELCR = 9, /* edge and level control */
    BOARD_ATA = 10, /* the disk; also of `bad` */
    BOARD_WIRES = 11, /* the lines from outside: of `wire` and `irq` */
    BOARD_VECTOR0 = 12, /* of `ack`: a vector that the master gave */
    BOARD_VECTOR1 = 13, /* of `ack`: a vector that the slave gave */
    BOARD_SPURIOUS0 = 14, /* of `ack`: a spurious vector of the master */
    BOARD_SPURIOUS1 = 15, /* of `ack`: a spurious vector of the slave */
    /* the 16550 of COM1, accesses of one byte at 3F8h to 3FFh before any card; a log has no line
     * for it */
    BOARD_UART = 16
};

/* What denied an access. */
enum board_denial {
    BOARD_NOT_DENIED = 0, /* it was let in */
    BOARD_BY_REGISTER = 1, /* a register of configuration space, whose place stands beside it */
    BOARD_BY_CONFADD = 2, /* the configuration address is not enabled */
    BOARD_BY_NO_REGISTER = 3 /* no register keeps it out: nobody is there */
};

/* Which reply it is. */
enum board_form {
    BOARD_BUS_REPLY = 1, /* of an access of one bus cycle */
    BOARD_PARTS_REPLY = 2, /* of an access in several parts */
    BOARD_LOOK_REPLY = 3 /* of a look */
};

/* The reset that a step made. */
enum board_reset {
    BOARD_NO_RESET = 0, /* none */
    BOARD_SOFT_RESET = 1, /* of the processor alone */
    BOARD_HARD_RESET = 2 /* of the board too */
};

/* The kind of a base of a card: for memory, for ports, or for memory whose bytes the monitor
 * keeps. Of that the board keeps none: reads give ones, writes are lost, and the reply tells
 * card, base and offset, so that the monitor takes its own value, and its own bytes. */
enum board_base_kind {
    BOARD_MEMORY_BASE = 1, /* memory */
    BOARD_IO_BASE = 2, /* ports */
    BOARD_OUTSIDE = 3 /* memory whose bytes the monitor keeps */
};

/* What comes next in a transfer of a bus master. */
enum board_piece_what {
    BOARD_DESCRIPTOR = 1, /* a descriptor is to be read */
    BOARD_WORDS = 2, /* words are to be moved */
    BOARD_ENDED = 3 /* the transfer has ended */
};

/* How a transfer of a bus master ended. */
enum board_end {
    BOARD_EXACT = 1, /* the last word was also the end of the last region */
    BOARD_LONGER = 2, /* the table goes on after the last word */
    BOARD_SHORTER = 3, /* the last region ended, and words remain */
    BOARD_ABORTED = 4, /* nobody answers at addr; part[0] says what denies it */
    BOARD_MISSING = 5 /* sector is not there, or cannot be read */
};

/* Room that is enough for every map. */
enum {
    BOARD_MOST_RANGES = 142, /* ranges that every map has at most */
    BOARD_MOST_WINDOWS = 64 /* windows that a change of the map has at most */
};
/* end of what is made */

/* An event. What it has no use for is not read; reserved is 0. */
typedef struct board_event {
    uint64_t value;
    uint32_t addr;
    uint8_t what;  /* board_what */
    uint8_t kind;  /* board_kind */
    uint8_t bytes;
    uint8_t smm;   /* 1 in system management mode */
    uint64_t reserved;
} board_event;

/* What answered an access, or one part of a wide one, and what denied it. */
typedef struct board_part {
    uint32_t offset;
    uint8_t target; /* board_target */
    uint8_t unit;
    uint8_t base;
    uint8_t denial; /* board_denial; of a register where it lies follows */
    uint8_t denial_dev;
    uint8_t denial_fun;
    uint8_t denial_off;
    uint8_t reserved;
} board_part;

/* A reply, and what stands after its step. */
typedef struct board_reply {
    uint64_t value;    /* what was read; 0 where nothing was */
    uint32_t version;  /* of the map after the step. It counts the writes that may change the map, also
                        * one that leaves it as it was, as that of a PAM byte which is there already:
                        * where it is the same the map is, and where it is another the map may be,
                        * so that a monitor keeps each slot that is equal in the new map */
    uint32_t seen;     /* of a look: the version of the map before it */
    uint32_t lo;       /* of a look: the longest interval with this area, first and last address */
    uint32_t hi;
    uint8_t form;      /* board_form */
    uint8_t has_value;
    uint8_t parts;     /* how many of part[] are filled, 1 to 4 */
    uint8_t interrupt; /* 1 where INT is asserted after the step: a processor may acknowledge */
    uint32_t reset;    /* board_reset: the reset that the step made */
    board_part part[4];
    uint8_t sent;        /* the byte that COM1 sent in this step; 0 where it sent none */
    uint8_t has_sent;
    uint8_t irq4;        /* line 4 after the step: the or of COM1's level and of BOARD_IRQ's */
    uint8_t serial_room; /* 1 where COM1 can receive a byte */
    uint16_t lines;      /* the levels of the interrupt lines after the step, as board_lines has them */
    uint16_t rose;       /* the lines that rose in it: at 1 after it, and at 0 before; and line 0 also where OUT
                          * of counter 0 rose at one of its pulses, though it may have fallen again */
} board_reply;

/* What one kind of access to a range reaches, as board_part has it. */
typedef struct board_area {
    uint8_t target; /* board_target */
    uint8_t unit;
    uint8_t base;
    uint8_t reserved;
} board_area;

/* A range of the memory map, first and last address: what a fetch, a read and a write reach outside
 * system management mode, and then in it. */
typedef struct board_range {
    uint32_t lo;
    uint32_t hi;
    board_area area[6];
} board_range;

/* Addresses that a change of the map changed, the first and the last. */
typedef struct board_window {
    uint32_t lo;
    uint32_t hi;
} board_window;

/* The memory map: how many ranges it has, how many windows its last change changed, also where
 * there was less room; and how many MiB of memory are installed, as board_range_clip takes them. A
 * row is decoded as far as the guest's boundaries say, also past mib << 20, where reads give ones and
 * writes are lost. */
typedef struct board_map {
    uint64_t ranges;
    uint64_t windows;
    uint32_t version;
    uint32_t mib;
} board_map;

/* What COM1 holds. Of the registers what reads would give, none of which is made: nothing is taken
 * or cleared. Of the divisor latch both bytes, whatever LCR says. */
typedef struct board_com1 {
    uint8_t received[16]; /* the bytes that came and were not read, the next first; 0 past them */
    uint8_t count;        /* how many they are */
    uint8_t ier;
    uint8_t iir;
    uint8_t lcr;
    uint8_t mcr;
    uint8_t lsr;
    uint8_t msr;
    uint8_t scr;
    uint8_t dll;
    uint8_t dlm;
    uint8_t emptied;      /* 1 where THR became empty, and IIR was not read with that cause since */
    uint8_t irq4;         /* the level that BOARD_IRQ gave line 4 last */
    uint32_t reserved;
} board_com1;

/* A base of a card: its kind, and log2 of its size: 4 to 24 of bytes of memory, 2 to 8 of ports, and
 * 4 to 28 of bytes outside. */
typedef struct board_base {
    uint8_t kind; /* board_base_kind */
    uint8_t bits;
} board_base;

/* A PCI card. Bases past the count of bases are not read; reserved is 0. The memory bases of all
 * cards have at most 64 MiB together, of which those outside are none.
 *
 * The last fields are what the card says that it is: reads of its configuration data give them, and
 * where a field is 0 what every card of this board has. Nothing else depends on them: whatever the
 * pin says, the card's line is INTA# of its device (BOARD_WIRE). */
typedef struct board_card {
    uint8_t device; /* its device number, 2 to 9 */
    uint8_t vga;    /* 1 for a VGA adapter, else 0 */
    uint8_t rom;    /* log2 of the bytes of its expansion ROM, 11 to 24, or 0 for none */
    uint8_t bases;  /* 0 to 6 */
    board_base base[6];
    uint32_t class_code;          /* 09h: class, subclass, interface; 0 is 030000h or FF0000h */
    uint16_t vendor_id;           /* 00h: 0 is A55Ah */
    uint16_t device_id;           /* 02h: 0 is 01DDh with DD the device number */
    uint16_t subsystem_vendor_id; /* 2Ch */
    uint16_t subsystem_id;        /* 2Eh */
    uint8_t revision_id;          /* 08h */
    uint8_t interrupt_pin;        /* 3Dh: 1 to 4 for INTA# to INTD#; 0 is INTA# */
    uint16_t reserved;
} board_card;

/* Opens a board with these cards, in rising order of device, over copies of the ROM's and the
 * disk's bytes. A disk of no bytes is none. All is looked at before anything is copied.
 * BAD_HANDLE; BAD_CARDS where a record says no card, and else the first of BAD_SIZE, BAD_CARDS, BAD_ROM,
 * BAD_DISK that holds; and NO_MEMORY only where none does. */
uint32_t board_open(board *handle, uint32_t mib, const board_card *cards, size_t card_count,
                    const uint8_t *rom, size_t rom_bytes, const uint8_t *disk, size_t disk_bytes);
/* Does an event, and tells the reply.
 * BAD_HANDLE, NO_EVENT; of BOARD_MEMORY VALUE, END; of BOARD_PORT ALIGNMENT, VALUE; of BOARD_PULSE
 * PULSES; of BOARD_WIRE DEVICE; of BOARD_IRQ LINE; of BOARD_SERIAL SERIAL_FULL. */
uint32_t board_step(board *handle, const board_event *event, board_reply *reply);
/* Reads 1, 2 or 4 bytes from a port on, or writes them. Where that is not aligned the bus cuts it as an access to
 * memory of as many bytes at the same address, and does two or three cycles in rising order; no other call comes
 * between them. reply joins theirs, in parts as of such an access: part[0] .. tell each cycle's target and what
 * denied it, value has the bytes of all, reset is the strongest that one of them made, and has_sent and sent tell the
 * byte that one of them sent: no access sends two; rose has the lines that rose in any. version, interrupt, lines, irq4
 * and serial_room are as after the last cycle. Where version grew by more than 1 the windows of board_ranges are those
 * of the last change alone.
 * BAD_HANDLE; NO_EVENT of another count of bytes, and where the last one lies past port FFFFh; of board_out_cycles VALUE.
 * Then no cycle was made. */
uint32_t board_in_cycles(board *handle, uint16_t port, uint8_t bytes, board_reply *reply);
uint32_t board_out_cycles(board *handle, uint16_t port, uint8_t bytes, uint32_t value, board_reply *reply);
/* Lets the clock go on one second: BOARD_TIME of the second after the one that its registers say, in
 * whichever form register B has them. Two digits of the year are one of 1980 to 2079; the weekday's
 * register is not read, and set to the date's. event is what was done, for board_text.
 * BAD_HANDLE, NO_TIME. */
uint32_t board_second(board *handle, board_event *event, board_reply *reply);
/* Reads a port, or writes it, for each of the values in turn, as a string instruction does: a
 * BOARD_PORT event of 1, 2 or 4 bytes each. It ends early after one that asks for the processor: INT
 * is asserted, an interrupt line rose, there was a reset, or COM1 sent a byte. done is how many were
 * made, and reply is the last one's, of which alone a line rose; of no values it is as before.
 * BAD_HANDLE; of the first one NO_EVENT, ALIGNMENT, VALUE; a later one that would be refused ends it
 * before, so that a write of it is refused by the next call. */
uint32_t board_in_many(board *handle, uint16_t port, uint8_t bytes, uint32_t *values, size_t count,
                       size_t *done, board_reply *reply);
uint32_t board_out_many(board *handle, uint16_t port, uint8_t bytes, const uint32_t *values,
                        size_t count, size_t *done, board_reply *reply);
/* Frees the board. The handle is closed from then on. */
void board_close(board *handle);

/* ---- a running board, saved and loaded */

/* Writes the board as bytes: what it was opened with, and all that it holds. They are whole in
 * themselves, and the same board always has the same bytes. bytes is how many they are, also where
 * they do not fit: a call with room 0 tells it. The board stays as it is. It takes memory for a copy
 * of all but the bytes of the DRAM, which go straight into the room. BAD_HANDLE, NO_ROOM, NO_MEMORY. */
uint32_t board_save(board *handle, uint8_t *into, size_t room, size_t *bytes);
/* Opens the board that was saved as these bytes: it is equal to that one, and goes on as that one
 * would. Nothing past them is read, and they may be freed. Bytes that no board wrote are refused, or
 * are those of another state that is in range: then that board is opened, and is as safe as any.
 * There is no reply: board_now tells what stands, as INT, the lines, COM1's room and the version of
 * the map.
 * BAD_HANDLE where the handle is open already, OTHER_VERSION, BAD_IMAGE, NO_MEMORY. */
uint32_t board_load(board *handle, const uint8_t *from, size_t bytes);
/* Writes the board as board_save does, without bytes that a monitor keeps itself: with dram those of
 * the DRAM, and with disk those of the disk, as it was fitted and as its sectors stand. Zeros stand in
 * the place of what is left out, of which a page takes a byte.
 * BAD_HANDLE, NO_ROOM, NO_MEMORY. */
uint32_t board_save_without(board *handle, bool dram, bool disk, uint8_t *into, size_t room,
                            size_t *bytes);
/* Opens the board that was saved as these bytes, as board_load does, with a monitor's bytes in the
 * place of its own: those of the DRAM, of the disk as it was fitted, and of its sectors as they stand;
 * of what is not given the count is 0. Which sectors are bad stays. With what board_save_without left
 * out it is the board that was saved. Where the disk as it was fitted is not kept, its sectors do for
 * both: no reply depends on it.
 * BAD_HANDLE where the handle is open already, OTHER_VERSION, BAD_IMAGE, NO_MEMORY; BAD_LENGTH where what
 * is given has not as many bytes as the board. */
uint32_t board_load_with(board *handle, const uint8_t *from, size_t bytes, const uint8_t *dram,
                         size_t dram_bytes, const uint8_t *fitted, size_t fitted_bytes,
                         const uint8_t *sectors, size_t sectors_bytes);

/* ---- what is asked between two steps: the board stays as it is */

/* Writes the memory map: to *map its version and how many ranges and windows there are, to ranges[]
 * its ranges in rising order, which cover all addresses, and to windows[] those that its last change
 * changed; an address beside them has the areas that it had before. Of each as many as there is room
 * for.
 * BAD_HANDLE. */
uint32_t board_ranges(board *handle, board_map *map, board_range *ranges, size_t room,
                      board_window *windows, size_t windows_room);
/* Writes to *part where a BOARD_MEMORY or BOARD_PORT event of one bus cycle would land, and what would
 * deny it.
 * BAD_HANDLE, NO_EVENT; NO_CYCLE also where the event is out of range. */
uint32_t board_decode(board *handle, const board_event *event, board_part *part);
/* Writes to *pulses after how many pulses of the 8254's clock line 0 next rises: 0 where it does not,
 * unless something is written.
 * BAD_HANDLE. */
uint32_t board_pulses_to_rise(board *handle, uint32_t *pulses);
/* Writes to into[] bytes of the memory that the board keeps, as the guest's reads give them: FFh past
 * the installed memory.
 * BAD_HANDLE. */
uint32_t board_dram_read(board *handle, uint32_t addr, uint8_t *into, size_t bytes);
/* Writes to into[] the 512 bytes of a sector, also of one that is bad.
 * BAD_HANDLE, NO_SECTOR; of a sector that is there BAD_LENGTH. */
uint32_t board_disk_read(board *handle, uint32_t sector, uint8_t *into, size_t bytes);
/* Writes to *byte what a read of port 71h would give of the clock, index 0 to 127, and clears nothing:
 * of register C (12) its flags with IRQF, of D (13) 80h.
 * BAD_HANDLE, NO_BYTE. */
uint32_t board_cmos_read(board *handle, uint8_t address, uint8_t *byte);

/* Writes to *lines the levels of the sixteen interrupt lines, as they reached the pair of 8259A last: bit k
 * is that of line k. Line 0 is the 8254's, 4 the or of COM1's and of BOARD_IRQ's, 8 the clock's, 14 the
 * disk's; 2 is 0.
 * BAD_HANDLE. */
uint32_t board_lines(board *handle, uint16_t *lines);
/* Writes to *reply what stands now, as after a load, or after board_cmos_write: version, interrupt, lines,
 * irq4 and serial_room. All else is 0, as nothing was asked: no form, no part, no reset, and no line rose.
 * BAD_HANDLE. */
uint32_t board_now(board *handle, board_reply *reply);
/* Writes to *state what COM1 holds.
 * BAD_HANDLE. */
uint32_t board_serial_state(board *handle, board_com1 *state);
/* Writes to *part where an access of a bus master of 1, 2 or 4 bytes at a multiple of them would land,
 * and what would deny it: SMRAM answers no bus master, and at A0000h to BFFFFh it never is memory of the board.
 * BAD_HANDLE; NO_CYCLE of another count of bytes and another address. */
uint32_t board_decode_master(board *handle, uint32_t addr, uint8_t bytes, bool is_write,
                             board_part *part);
/* Writes to into[] bytes of a card from an offset in one of its bases on, as the guest's reads give
 * them: of base 0 to 5, 6 for its expansion ROM, or 7 for the window of a VGA adapter, A0000h to BFFFFh. A base that
 * is not there has none, nor one of BOARD_OUTSIDE.
 * BAD_HANDLE, PAST_END. */
uint32_t board_card_read(board *handle, uint8_t device, uint8_t base, uint32_t offset, uint8_t *into,
                         size_t bytes);

/* ---- bytes that the guest did not write; no reply. Nothing else changes, but for INT by
 * board_cmos_write */

/* Puts bytes into the memory that the board keeps, as the guest's writes would, whatever the map
 * says.
 * BAD_HANDLE, PAST_END. */
uint32_t board_dram_write(board *handle, uint32_t addr, const uint8_t *from, size_t bytes);
/* Writes a byte of the clock, address 0 to 127, as the guest's writes of ports 70h and 71h would:
 * registers A and B take what a write changes of them, C and D nothing. Of register B that may raise
 * line 8, and so INT, as where UF is set and UIE is written: what the last reply says of INT and of the
 * lines does not stand then, and board_now tells what does.
 * BAD_HANDLE, NO_BYTE. */
uint32_t board_cmos_write(board *handle, uint8_t address, uint8_t byte);
/* Puts bytes into a card from an offset in one of its bases on, as the guest's writes would, wherever
 * the base lies and whether or not the card decodes it; the bases are those of board_card_read. Of
 * the expansion ROM (6), which no guest writes, its bytes are the board's own until some are put. They
 * are not in what board_save writes: after board_load they are put again.
 * BAD_HANDLE, PAST_END; NO_MEMORY only of a ROM into which no bytes were put yet. */
uint32_t board_card_write(board *handle, uint8_t device, uint8_t base, uint32_t offset,
                          const uint8_t *from, size_t bytes);

/* ---- a transfer of the bus master, over memory and a disk that the caller keeps (82371SB, 2.7;
 * Programming Interface for Bus Master IDE Controller). The caller has the three registers of the
 * channel, and the board only its memory map, which stays as it is. */

/* A transfer, as far as it has come. board_transfer_begin fills it; it holds no pointer and owns
 * nothing, so it may be copied, kept and dropped. reserved is 0. */
typedef struct board_transfer {
    uint32_t table;    /* the address of the next descriptor: at the end, what the table pointer reads */
    uint32_t addr;     /* where the region in use goes on, and how many bytes it has left */
    uint32_t left;
    uint32_t moved;    /* how many bytes were moved, and how many words are still to be */
    uint32_t words;
    uint32_t lba;      /* the first sector, and how many from it on are there and can be read */
    uint32_t readable;
    uint8_t is_last;   /* 1 where the region is the last of the table */
    uint8_t to_memory; /* 1 from the disk to memory */
    uint16_t reserved;
} board_transfer;

/* What comes next. A part whose target is BOARD_DRAM or BOARD_SHADOW is of memory, at the addresses
 * themselves, and none of its bytes lies at A0000h to BFFFFh; none is SMRAM. One of BOARD_CARD or
 * BOARD_ROM has the offset of the first byte; past the end of the ROM it is the ROM's first again,
 * and a write to the ROM is lost. Past the installed memory a read gives FFh, and a write is lost.
 * At A0000h to BFFFFh each word is a piece of its own: bytes is 2 there. */
typedef struct board_piece {
    uint64_t disk;     /* BOARD_WORDS: their first byte on the disk, counted from sector 0 on */
    uint32_t addr;     /* of the descriptor; of the first word in memory; at BOARD_ABORTED */
    uint32_t bytes;    /* 8; of the words; BOARD_ENDED: how many were moved */
    uint32_t sector;   /* of the words, which lie in one; at BOARD_MISSING */
    board_part part[2]; /* of the descriptor's two doublewords; part[0] of all the words */
    uint8_t what;      /* board_piece_what */
    uint8_t end;       /* BOARD_ENDED: board_end */
    uint8_t status;    /* BOARD_ENDED: bits 2 to 0 of the status: interrupt, error, active */
    uint8_t reserved;
} board_piece;

/* Begins a transfer of 1 to 256 sectors from lba on, below 2^28, by the table of descriptors at an
 * address that is a multiple of 4. Only lba itself is below 2^28: the sectors may go on past it.
 * readable is how many of the sectors, from the first on, are there and can be read: then one comes
 * that is not, or the last. It may be any number: with 0 the first sector is BOARD_MISSING, and with
 * as many as the sectors, or more, none is. No handle.
 * NO_TRANSFER of other numbers. */
uint32_t board_transfer_begin(board_transfer *transfer, uint32_t table, uint32_t lba,
                              uint32_t sectors, uint32_t readable, bool to_memory);
/* Writes the next piece to *piece, and takes words as moved. A descriptor stays wanted until
 * board_transfer_region has its two doublewords. A caller that does each piece before it asks for the
 * next moves what the bus master would, and ends as it would.
 * BAD_HANDLE, NO_TRANSFER. */
uint32_t board_transfer_next(board *handle, board_transfer *transfer, board_piece *piece);
/* Goes on with the region that a descriptor names: its doublewords, the base and the count. No handle.
 * NO_TRANSFER also where a region is in use. */
uint32_t board_transfer_region(board_transfer *transfer, uint32_t base, uint32_t count);

/* ---- over board_step, with its statuses */

static inline uint32_t board_ask(board *handle, uint8_t what, uint8_t kind, uint32_t addr,
                                 uint8_t bytes, uint8_t smm, uint64_t value, board_reply *reply) {
    board_event event = {value, addr, what, kind, bytes, smm, 0};
    return board_step(handle, &event, reply);
}

/* Fetches, reads or writes 1, 2, 4 or 8 bytes of memory, aligned or not.
 * BAD_HANDLE, NO_EVENT of another count of bytes, END; of a write VALUE. */
static inline uint32_t board_fetch(board *handle, uint32_t addr, uint8_t bytes, bool smm,
                                   board_reply *reply) {
    return board_ask(handle, BOARD_MEMORY, BOARD_FETCH, addr, bytes, smm, 0, reply);
}

static inline uint32_t board_read(board *handle, uint32_t addr, uint8_t bytes, bool smm,
                                  board_reply *reply) {
    return board_ask(handle, BOARD_MEMORY, BOARD_READ, addr, bytes, smm, 0, reply);
}

/* A value of more than 32 bits for an aligned access of at most 4 bytes is NO_EVENT. */
static inline uint32_t board_write(board *handle, uint32_t addr, uint8_t bytes, bool smm,
                                   uint64_t value, board_reply *reply) {
    return board_ask(handle, BOARD_MEMORY, BOARD_WRITE, addr, bytes, smm, value, reply);
}

/* Writes to *reply where an access would land, and the longest interval in which it does.
 * BAD_HANDLE, NO_EVENT of another kind. */
static inline uint32_t board_look(board *handle, uint8_t kind, uint32_t addr, bool smm,
                                  board_reply *reply) {
    return board_ask(handle, BOARD_LOOK, kind, addr, 0, smm, 0, reply);
}

/* What a range is to a kind of access, board_kind. */
static inline board_area board_area_of(const board_range *range, uint8_t kind, bool smm) {
    return range->area[(kind + 2) % 3 + (smm ? 3 : 0)];
}

/* Rows are decoded as the guest writes their boundaries, also past the memory that the board has. A
 * monitor that keeps the guest's memory itself, of mib MiB as at board_open, asks before it maps or
 * moves a byte: past that end the guest reads ones, and writes are lost. */

/* Whether bytes of memory from an address on are all there. */
static inline bool board_is_installed(uint32_t mib, uint64_t addr, uint64_t bytes) {
    uint64_t end = (uint64_t)mib << 20;
    return addr <= end && bytes <= end - addr;
}

/* Cuts a range where the memory ends. False, and the range as it was, where none of it is there. */
static inline bool board_range_clip(board_range *range, uint32_t mib) {
    uint64_t end = (uint64_t)mib << 20;
    if (range->lo >= end) return false;
    if (range->hi >= end) range->hi = (uint32_t)(end - 1);
    return true;
}

/* How many bytes the next cycle of an access has that begins at a port or an address: the most of 4,
 * 2 and 1 that are aligned there and not more than the bytes that are left. So the bus cuts an access
 * to ports, and one to memory into its parts. */
static inline uint8_t board_cycle(uint32_t addr, uint64_t bytes) {
    if (bytes >= 4 && addr % 4 == 0) return 4;
    return bytes >= 2 && addr % 2 == 0 ? 2 : 1;
}

/* Reads a port of 1, 2 or 4 bytes, or writes it: an aligned one is one event, as board_step does it, and another is that
 * of board_in_cycles, whose statuses these have. */
static inline uint32_t board_in(board *handle, uint16_t port, uint8_t bytes, board_reply *reply) {
    if (board_cycle(port, bytes) != bytes) return board_in_cycles(handle, port, bytes, reply);
    return board_ask(handle, BOARD_PORT, BOARD_READ, port, bytes, 0, 0, reply);
}

static inline uint32_t board_out(board *handle, uint16_t port, uint8_t bytes, uint32_t value,
                                 board_reply *reply) {
    if (board_cycle(port, bytes) != bytes) return board_out_cycles(handle, port, bytes, value, reply);
    return board_ask(handle, BOARD_PORT, BOARD_WRITE, port, bytes, 0, value, reply);
}

/* Acknowledges the interrupt: reply->value is its vector.
 * BAD_HANDLE. */
static inline uint32_t board_ack(board *handle, board_reply *reply) {
    return board_ask(handle, BOARD_ACK, 0, 0, 0, 0, 0, reply);
}

/* Gives the 8254 pulses of its clock, 1,193,182 of them a second.
 * BAD_HANDLE, PULSES. */
static inline uint32_t board_pulse(board *handle, uint32_t pulses, board_reply *reply) {
    return board_ask(handle, BOARD_PULSE, 0, 0, 0, 0, pulses, reply);
}

/* Gives the clock a moment to show.
 * BAD_HANDLE, NO_EVENT where the calendar of 1980 to 2099 has no such moment. */
static inline uint32_t board_time(board *handle, uint32_t year, uint32_t month, uint32_t day,
                                  uint32_t hour, uint32_t minute, uint32_t second,
                                  board_reply *reply) {
    uint64_t date = (year * 100ull + month) * 100 + day;
    uint64_t digits = ((date * 100 + hour) * 100 + minute) * 100 + second;
    bool is_date = year <= 9999 && month <= 99 && day <= 99;
    bool is_time = hour <= 99 && minute <= 99 && second <= 99;
    return board_ask(handle, BOARD_TIME, 0, 0, 0, 0, is_date && is_time ? digits : 0, reply);
}

/* Sets an interrupt request line.
 * BAD_HANDLE, LINE. */
static inline uint32_t board_irq(board *handle, uint8_t line, bool level, board_reply *reply) {
    return board_ask(handle, BOARD_IRQ, 0, line, 0, 0, level, reply);
}

/* COM1 receives a byte.
 * BAD_HANDLE, SERIAL_FULL where reply->serial_room was 0 last. */
static inline uint32_t board_receive(board *handle, uint8_t byte, board_reply *reply) {
    return board_ask(handle, BOARD_SERIAL, 0, 0, 0, 0, byte, reply);
}

/* Sets INTA# of the card at a device.
 * BAD_HANDLE, DEVICE. */
static inline uint32_t board_wire(board *handle, uint8_t device, bool level, board_reply *reply) {
    return board_ask(handle, BOARD_WIRE, 0, device, 0, 0, level, reply);
}

/* ---- what stands when the processor starts */

/* Writes a byte of configuration data. bus, device and function are as bits 23 to 8 of CONFADD have them. */
static inline uint32_t board_config_write(board *handle, uint32_t function, uint8_t offset, uint8_t value,
                                          board_reply *reply) {
    uint32_t status = board_out(handle, 0xCF8, 4, 0x80000000u | function << 8 | (offset & 0xFCu), reply);
    if (status != BOARD_OK) return status;
    return board_out(handle, (uint16_t)(0xCFC + (offset & 3)), 1, value, reply);
}

/* Sets what the maker of a board sets, and firmware takes for given, so that it finds the whole ROM, all
 * the memory and the disk. It is called before the first instruction, and again after each hard reset,
 * which takes the registers back:
 *
 *   XBCS, 4Eh of 01.0     C3h: the ROM answers from E0000h and from FFF80000h on, as do the ports of the
 *                         clock and the keyboard controller
 *   DRB0 to DRB7, 60h on  rows of 8 MiB, of which the last ends where all the memory does
 *   clock, 15h and 16h    640 KiB of base memory
 *   17h, 18h; 30h, 31h    the KiB from 1 MiB on, at most FFFFh
 *   34h, 35h              the memory from 16 MiB on, in 64 KiB
 *   38h, 3Dh              SeaBIOS boots from the disk
 *
 * Afterwards CONFADD is 0, as it was, and reply is that of the last step.
 * BAD_HANDLE. */
static inline uint32_t board_prepare(board *handle, board_reply *reply) {
    board_map map;
    board_range no_range;
    board_window no_window;
    uint32_t status = board_ranges(handle, &map, &no_range, 0, &no_window, 0);
    if (status != BOARD_OK) return status;
    uint32_t kib = map.mib > 64 ? 0xFFFFu : (map.mib - 1) * 1024, rest = map.mib > 16 ? (map.mib - 16) * 16 : 0;
    const uint8_t clock[10][2] = {
        {0x15, 0x80}, {0x16, 0x02}, {0x17, (uint8_t)kib}, {0x18, (uint8_t)(kib >> 8)},
        {0x30, (uint8_t)kib}, {0x31, (uint8_t)(kib >> 8)}, {0x34, (uint8_t)rest}, {0x35, (uint8_t)(rest >> 8)},
        {0x38, 0x01}, {0x3D, 0x02},
    };
    for (uint32_t k = 0; k < 10 && status == BOARD_OK; k++)
        status = board_cmos_write(handle, clock[k][0], clock[k][1]);
    if (status == BOARD_OK) status = board_config_write(handle, 0x08, 0x4E, 0xC3, reply);
    uint32_t end = (map.mib + 7) / 8;
    for (uint32_t row = 0; row < 8 && status == BOARD_OK; row++) {
        uint8_t boundary = (uint8_t)(row < 7 && row + 1 < end ? row + 1 : end);
        status = board_config_write(handle, 0x00, (uint8_t)(0x60 + row), boundary, reply);
    }
    return status == BOARD_OK ? board_out(handle, 0xCF8, 4, 0, reply) : status;
}

/* ---- a processor's accesses and the time, for a monitor that keeps the guest's memory itself */

static inline bool board_is_memory(uint8_t target) { return target == BOARD_DRAM || target == BOARD_SHADOW; }

/* One bus cycle of board_access: the bytes at data, of which those of memory are the guest's. */
static inline uint32_t board_access_cycle(board *handle, const board_event *event, uint8_t *data, uint8_t *guest,
                                          uint32_t mib, board_reply *reply) {
    uint32_t status = board_step(handle, event, reply);
    if (status != BOARD_OK) return status;
    bool is_guest = event->what == BOARD_MEMORY && board_is_memory(reply->part[0].target) &&
                    board_is_installed(mib, event->addr, event->bytes);
    for (uint32_t k = 0; k < event->bytes; k++) {
        uint8_t *at = is_guest ? guest + event->addr + k : NULL;
        if (event->kind == BOARD_READ) data[k] = at ? *at : (uint8_t)(reply->value >> (8 * k));
        else if (at) *at = data[k];
    }
    return BOARD_OK;
}

/* Does an access as a processor's exit tells it: what is BOARD_PORT or BOARD_MEMORY, kind BOARD_READ or
 * BOARD_WRITE, from any address on and of any count of bytes at data, which a read fills. The bus cuts it.
 * Bytes of memory are those of guest, which has mib MiB as at board_open. Past port FFFFh and from 4 GiB on
 * nobody answers: a read gives ones. reply is the last cycle's, with the strongest reset of all, the lines that
 * rose in any, and the last byte that one sent; where no cycle was made it is as before.
 * BAD_HANDLE, NO_EVENT. */
static inline uint32_t board_access(board *handle, uint8_t what, uint8_t kind, uint64_t addr, uint8_t *data,
                                    uint64_t bytes, uint8_t *guest, uint32_t mib, board_reply *reply) {
    uint64_t end = what == BOARD_PORT ? 0x10000 : 0x100000000ull;
    uint32_t status = BOARD_OK, reset = BOARD_NO_RESET;
    uint16_t rose = 0;
    uint8_t has_sent = 0, sent = 0;
    while (status == BOARD_OK && bytes > 0 && addr < end) {
        uint8_t cycle = board_cycle((uint32_t)addr, bytes);
        board_event event = {0, (uint32_t)addr, what, kind, cycle, 0, 0};
        for (uint32_t k = 0; k < cycle && kind == BOARD_WRITE; k++) event.value |= (uint64_t)data[k] << (8 * k);
        status = board_access_cycle(handle, &event, data, guest, mib, reply);
        if (status != BOARD_OK) return status;
        if (reply->reset > reset) reset = reply->reset;
        if (reply->has_sent) {
            has_sent = 1;
            sent = reply->sent;
        }
        rose |= reply->rose;
        reply->rose = rose;
        reply->reset = reset;
        reply->has_sent = has_sent;
        reply->sent = sent;
        addr += cycle;
        data += cycle;
        bytes -= cycle;
    }
    for (; bytes > 0 && kind == BOARD_READ; bytes--) *data++ = 0xFF;
    return status;
}

/* How far a board's clocks have come: the pulses and the seconds that they were given. Zeros at power-on. */
typedef struct board_clocks {
    uint64_t pulses;
    uint64_t seconds;
} board_clocks;

/* Lets time go by until so many nanoseconds after the power came: the 8254's pulses, 1,193,182 a second, and
 * the seconds of the MC146818, but for those in which it stands. Where line 0 rises on the way the pulses end
 * there, so that no tick is lost: the guest takes that interrupt, and the next call goes on. So it does after
 * 1,000,000 pulses and after 60 seconds, so that no call takes long. reply is the last step's, with the lines
 * that rose in any; it is as before where there was nothing to do.
 * BAD_HANDLE. */
static inline uint32_t board_run_until(board *handle, board_clocks *clocks, uint64_t nanoseconds, board_reply *reply) {
    uint64_t second = 1000000000, hertz = 1193182, whole = nanoseconds / second;
    uint64_t due = whole * hertz + nanoseconds % second * hertz / second;
    uint64_t count = due > clocks->pulses ? due - clocks->pulses : 0;
    uint32_t to_rise, status = board_pulses_to_rise(handle, &to_rise);
    uint16_t rose = 0;
    board_event event;
    if (status != BOARD_OK) return status;
    if (to_rise > 0 && count > to_rise) count = to_rise;
    if (count > 1000000) count = 1000000;
    if (count > 0) status = board_pulse(handle, (uint32_t)count, reply);
    if (count > 0 && status == BOARD_OK) rose = reply->rose;
    clocks->pulses += count;
    for (int k = 0; k < 60 && status == BOARD_OK && clocks->seconds < whole; k++, clocks->seconds++) {
        status = board_second(handle, &event, reply);
        if (status == BOARD_OK) reply->rose = rose |= reply->rose;
        if (status == BOARD_NO_TIME) status = BOARD_OK;
    }
    return status;
}

/* ---- the map as slots of a processor's memory, as KVM has them */

enum { BOARD_PAGE = 4096, BOARD_MOST_SLOTS = 480, BOARD_MOST_CHANGES = 2 * BOARD_MOST_SLOTS };

/* Whole pages behind which the monitor's own bytes lie: the processor fetches and reads them there without
 * an exit, and writes them unless is_read_only. Each access outside all slots exits. */
typedef struct board_slot {
    uint32_t lo; /* the first and the last address */
    uint32_t hi;
    uint32_t offset; /* of the byte at lo in the guest's memory, or in the ROM */
    uint8_t is_rom;
    uint8_t is_read_only;
    uint8_t is_used; /* 0 where there is no slot */
    uint8_t reserved;
} board_slot;

/* The slots that a processor has, by their numbers. Zeros are a processor without any. */
typedef struct board_slots {
    board_slot slot[BOARD_MOST_SLOTS];
} board_slots;

/* A slot that is added at a free number, or taken away from its number. */
typedef struct board_slot_change {
    board_slot slot;
    uint32_t number;
    uint32_t is_added;
} board_slot_change;

/* What a range is from one of its addresses on, as far as the bytes stand one after the other. It is no slot
 * where a fetch and a read find different things, nor of SMRAM, a card or nobody, nor past the memory; where
 * writes alone land elsewhere it is read-only. */
static inline board_slot board_slot_of(const board_range *range, uint64_t addr, uint32_t mib, uint32_t rom_bytes) {
    uint8_t fetch = board_area_of(range, BOARD_FETCH, false).target;
    uint8_t read = board_area_of(range, BOARD_READ, false).target;
    board_slot slot = {(uint32_t)addr, range->hi, (uint32_t)addr, 0, 0, 0, 0};
    uint64_t end = (uint64_t)range->hi + 1, memory_end = (uint64_t)mib << 20;
    if (fetch == BOARD_ROM && read == BOARD_ROM) {
        slot.is_rom = slot.is_read_only = slot.is_used = 1;
        slot.offset = (uint32_t)(addr % rom_bytes);
        if (end > addr + (rom_bytes - slot.offset)) end = addr + (rom_bytes - slot.offset);
    } else if (board_is_memory(fetch) && board_is_memory(read) && addr < memory_end) {
        slot.is_read_only = !board_is_memory(board_area_of(range, BOARD_WRITE, false).target);
        slot.is_used = 1;
        if (end > memory_end) end = memory_end;
    }
    slot.hi = (uint32_t)(end - 1);
    return slot;
}

/* Whether bytes of one kind stand where those of another would if it went on: behind the same addresses. */
static inline bool board_slot_is_of(const board_slot *one, const board_slot *other) {
    return one->is_rom == other->is_rom && one->is_read_only == other->is_read_only &&
           one->offset - one->lo == other->offset - other->lo;
}

/* The pages that are wholly of a slot: no slot where there is none. */
static inline board_slot board_slot_pages(board_slot slot) {
    uint64_t first = ((uint64_t)slot.lo + BOARD_PAGE - 1) / BOARD_PAGE * BOARD_PAGE;
    uint64_t end = ((uint64_t)slot.hi + 1) / BOARD_PAGE * BOARD_PAGE;
    slot.is_used = slot.is_used && first < end;
    if (!slot.is_used) return slot;
    slot.offset += (uint32_t)(first - slot.lo);
    slot.lo = (uint32_t)first;
    slot.hi = (uint32_t)(end - 1);
    return slot;
}

/* Puts the slots of a map into an array of BOARD_MOST_SLOTS, in rising order, each as long as can be: how many
 * they are. Slots past the array's end, which no map of a board has, are left out, so that they exit. */
static inline uint32_t board_slots_of(const board_range *ranges, size_t count, uint32_t mib, uint32_t rom_bytes,
                                      board_slot *into) {
    uint32_t made = 0, used = 0;
    for (size_t k = 0; k < count; k++) {
        for (uint64_t addr = ranges[k].lo; addr <= ranges[k].hi;) {
            board_slot next = board_slot_of(&ranges[k], addr, mib, rom_bytes);
            board_slot *last = made > 0 ? &into[made - 1] : NULL;
            addr = (uint64_t)next.hi + 1;
            if (!next.is_used) continue;
            if (last && (uint64_t)last->hi + 1 == next.lo && board_slot_is_of(last, &next)) last->hi = next.hi;
            else if (made < BOARD_MOST_SLOTS) into[made++] = next;
        }
    }
    for (uint32_t k = 0; k < made; k++) {
        into[used] = board_slot_pages(into[k]);
        used += into[used].is_used;
    }
    return used;
}

/* The first slot that begins in a stretch, or NULL. */
static inline board_slot *board_slots_first(board_slots *slots, uint64_t lo, uint64_t hi) {
    board_slot *first = NULL;
    for (uint32_t k = 0; k < BOARD_MOST_SLOTS; k++) {
        board_slot *slot = &slots->slot[k];
        if (!slot->is_used || slot->lo < lo || slot->lo > hi) continue;
        if (!first || slot->lo < first->lo) first = slot;
    }
    return first;
}

/* Whether a slot lies in one of those that are wanted, and has its bytes. */
static inline bool board_slot_stays(const board_slot *slot, const board_slot *wanted, uint32_t count) {
    for (uint32_t k = 0; k < count; k++)
        if (wanted[k].lo <= slot->lo && slot->hi <= wanted[k].hi) return board_slot_is_of(slot, &wanted[k]);
    return false;
}

/* Takes away the slots that are not right any more, or all: how many they are, and by `kept` how many stay. */
static inline uint32_t board_slots_take(board_slots *slots, const board_slot *wanted, uint32_t count,
                                        board_slot_change *changes, uint32_t *kept) {
    uint32_t made = 0;
    *kept = 0;
    for (uint32_t k = 0; k < BOARD_MOST_SLOTS; k++) {
        board_slot *slot = &slots->slot[k];
        if (!slot->is_used) continue;
        if (board_slot_stays(slot, wanted, count)) {
            ++*kept;
            continue;
        }
        board_slot_change change = {*slot, k, 0};
        changes[made++] = change;
        slot->is_used = 0;
    }
    return made;
}

/* Adds slots where a wanted one has none yet, at free numbers: how many. */
static inline uint32_t board_slots_fill(board_slots *slots, const board_slot *wanted, board_slot_change *changes) {
    uint32_t made = 0, number = 0;
    for (uint64_t at = wanted->lo; at <= wanted->hi;) {
        const board_slot *next = board_slots_first(slots, at, wanted->hi);
        uint64_t end = next ? next->lo : (uint64_t)wanted->hi + 1, after = next ? (uint64_t)next->hi + 1 : end;
        if (at < end) {
            board_slot gap = *wanted;
            gap.lo = (uint32_t)at;
            gap.hi = (uint32_t)(end - 1);
            gap.offset += (uint32_t)at - wanted->lo;
            while (slots->slot[number].is_used) number++;
            board_slot_change change = {gap, number, 1};
            changes[made++] = change;
            slots->slot[number] = gap;
        }
        at = after;
    }
    return made;
}

/* Makes the slots those of a map, ranges and mib as board_ranges tells them, and tells what a processor has to
 * change for it, in this order: how many changes, of at most BOARD_MOST_CHANGES. No two slots overlap at any
 * moment. A slot that is still right stays untouched, also where more memory comes to stand beside it, which
 * then is a slot of its own; there is no way with fewer changes. Where so many small ones stay that the
 * numbers could run out all are taken away first, and come again as few.
 *
 * mib is how many MiB the guest's memory has: also of a loaded board those that the monitor has, whatever the
 * board says. rom_bytes is how many bytes the monitor's copy of the ROM has, in whole pages. With copies of the
 * ROM one after the other, 512 KiB in all, each range of it is one slot. */
static inline uint32_t board_slots_follow(board_slots *slots, const board_range *ranges, size_t count, uint32_t mib,
                                          uint32_t rom_bytes, board_slot_change *changes) {
    board_slot wanted[BOARD_MOST_SLOTS];
    uint32_t wants = board_slots_of(ranges, count, mib, rom_bytes, wanted), kept, none;
    uint32_t made = board_slots_take(slots, wanted, wants, changes, &kept);
    if (2 * kept + wants > BOARD_MOST_SLOTS) made += board_slots_take(slots, wanted, 0, changes + made, &none);
    for (uint32_t k = 0; k < wants; k++) made += board_slots_fill(slots, &wanted[k], changes + made);
    return made;
}

/* ---- texts */

/* Room that is enough for every line of a log. */
enum { BOARD_LONGEST_LINE = 256 };

/* Writes line `number` of a log, from 1 on, with its line feed and no zero after it: statement
 * `statement`, from 1 on, of a processor, the event and what board_step replied to it. bytes is how
 * long the line is, also at NO_ROOM; then, as at each other refusal, nothing is written. LIBRARY.md
 * has what stands around the lines of a log. It takes memory, and gives it back.
 * NO_EVENT, NO_REPLY, NO_MEMORY, NO_ROOM. */
uint32_t board_text(const board_event *event, const board_reply *reply, uint64_t number,
                    uint8_t processor, uint32_t statement, uint8_t *into, size_t room,
                    size_t *bytes);

#ifdef __cplusplus
}
#endif
#endif
