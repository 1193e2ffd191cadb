/* Prints each record of board.h, with its size, and each of its fields, with its offset and its size; then the numbers:
 * what the bindings compare their own with. */
#include "board.h"
#include <stdio.h>

#define RECORD(record) printf(#record " %zu\n", sizeof(record))
#define FIELD(record, field) printf(#record "." #field " %zu %zu\n", offsetof(record, field), sizeof(((record *)0)->field))
#define NUMBER(name) printf(#name " %lu\n", (unsigned long)(name))

static void asked(void) {
    RECORD(board);
    FIELD(board, at), FIELD(board, open);
    RECORD(board_event);
    FIELD(board_event, value), FIELD(board_event, addr), FIELD(board_event, what), FIELD(board_event, kind);
    FIELD(board_event, bytes), FIELD(board_event, smm), FIELD(board_event, reserved);
    RECORD(board_base);
    FIELD(board_base, kind), FIELD(board_base, bits);
    RECORD(board_card);
    FIELD(board_card, device), FIELD(board_card, vga), FIELD(board_card, rom), FIELD(board_card, bases);
    FIELD(board_card, base), FIELD(board_card, class_code), FIELD(board_card, vendor_id), FIELD(board_card, device_id);
    FIELD(board_card, subsystem_vendor_id), FIELD(board_card, subsystem_id), FIELD(board_card, revision_id);
    FIELD(board_card, interrupt_pin), FIELD(board_card, reserved);
}

static void replied(void) {
    RECORD(board_part);
    FIELD(board_part, offset), FIELD(board_part, target), FIELD(board_part, unit), FIELD(board_part, base);
    FIELD(board_part, denial), FIELD(board_part, denial_dev), FIELD(board_part, denial_fun);
    FIELD(board_part, denial_off), FIELD(board_part, reserved);
    RECORD(board_reply);
    FIELD(board_reply, value), FIELD(board_reply, version), FIELD(board_reply, seen), FIELD(board_reply, lo);
    FIELD(board_reply, hi), FIELD(board_reply, form), FIELD(board_reply, has_value), FIELD(board_reply, parts);
    FIELD(board_reply, interrupt), FIELD(board_reply, reset), FIELD(board_reply, part), FIELD(board_reply, sent);
    FIELD(board_reply, has_sent), FIELD(board_reply, irq4), FIELD(board_reply, serial_room), FIELD(board_reply, lines);
    FIELD(board_reply, rose);
}

static void mapped(void) {
    RECORD(board_area);
    FIELD(board_area, target), FIELD(board_area, unit), FIELD(board_area, base), FIELD(board_area, reserved);
    RECORD(board_range);
    FIELD(board_range, lo), FIELD(board_range, hi), FIELD(board_range, area);
    RECORD(board_window);
    FIELD(board_window, lo), FIELD(board_window, hi);
    RECORD(board_map);
    FIELD(board_map, ranges), FIELD(board_map, windows), FIELD(board_map, version), FIELD(board_map, mib);
}

static void serial(void) {
    RECORD(board_com1);
    FIELD(board_com1, received), FIELD(board_com1, count), FIELD(board_com1, ier), FIELD(board_com1, iir);
    FIELD(board_com1, lcr), FIELD(board_com1, mcr), FIELD(board_com1, lsr), FIELD(board_com1, msr), FIELD(board_com1, scr);
    FIELD(board_com1, dll), FIELD(board_com1, dlm), FIELD(board_com1, emptied), FIELD(board_com1, irq4);
    FIELD(board_com1, reserved);
}

static void transferred(void) {
    RECORD(board_transfer);
    FIELD(board_transfer, table), FIELD(board_transfer, addr), FIELD(board_transfer, left), FIELD(board_transfer, moved);
    FIELD(board_transfer, words), FIELD(board_transfer, lba), FIELD(board_transfer, readable);
    FIELD(board_transfer, is_last), FIELD(board_transfer, to_memory), FIELD(board_transfer, reserved);
    RECORD(board_piece);
    FIELD(board_piece, disk), FIELD(board_piece, addr), FIELD(board_piece, bytes), FIELD(board_piece, sector);
    FIELD(board_piece, part), FIELD(board_piece, what), FIELD(board_piece, end), FIELD(board_piece, status);
    FIELD(board_piece, reserved);
}

static void numbered(void) {
    NUMBER(BOARD_INTERFACE);
    /* made by tools/make-names: numbers */
    NUMBER(BOARD_MEMORY), NUMBER(BOARD_PORT), NUMBER(BOARD_LOOK), NUMBER(BOARD_ACK);
    NUMBER(BOARD_PULSE), NUMBER(BOARD_TIME), NUMBER(BOARD_WIRE), NUMBER(BOARD_IRQ);
    NUMBER(BOARD_BAD_SECTOR), NUMBER(BOARD_SERIAL), NUMBER(BOARD_FETCH), NUMBER(BOARD_READ);
    NUMBER(BOARD_WRITE), NUMBER(BOARD_DRAM), NUMBER(BOARD_SHADOW), NUMBER(BOARD_SMRAM);
    NUMBER(BOARD_ROM), NUMBER(BOARD_CARD), NUMBER(BOARD_IS_DEVICE), NUMBER(BOARD_CONFIG);
    NUMBER(BOARD_ABORT), NUMBER(BOARD_NOT_DENIED), NUMBER(BOARD_BY_REGISTER), NUMBER(BOARD_BY_CONFADD);
    NUMBER(BOARD_BY_NO_REGISTER), NUMBER(BOARD_BUS_REPLY), NUMBER(BOARD_PARTS_REPLY), NUMBER(BOARD_LOOK_REPLY);
    NUMBER(BOARD_NO_RESET), NUMBER(BOARD_SOFT_RESET), NUMBER(BOARD_HARD_RESET), NUMBER(BOARD_MEMORY_BASE);
    NUMBER(BOARD_IO_BASE), NUMBER(BOARD_OUTSIDE), NUMBER(BOARD_DESCRIPTOR), NUMBER(BOARD_WORDS);
    NUMBER(BOARD_ENDED), NUMBER(BOARD_EXACT), NUMBER(BOARD_LONGER), NUMBER(BOARD_SHORTER);
    NUMBER(BOARD_ABORTED), NUMBER(BOARD_MISSING), NUMBER(BOARD_MOST_RANGES), NUMBER(BOARD_MOST_WINDOWS);
    NUMBER(BOARD_CONFADD), NUMBER(BOARD_RESET_CONTROL), NUMBER(BOARD_PIC0), NUMBER(BOARD_PIC1);
    NUMBER(BOARD_PIT), NUMBER(BOARD_SYSTEM), NUMBER(BOARD_KEYBOARD), NUMBER(BOARD_CLOCK);
    NUMBER(BOARD_ELCR), NUMBER(BOARD_ATA), NUMBER(BOARD_WIRES), NUMBER(BOARD_VECTOR0);
    NUMBER(BOARD_VECTOR1), NUMBER(BOARD_SPURIOUS0), NUMBER(BOARD_SPURIOUS1), NUMBER(BOARD_UART);
    /* end of what is made */
}

int main(void) {
    asked();
    replied();
    mapped();
    serial();
    transferred();
    numbered();
    return 0;
}
