; A boot sector, for `nasm -f bin`, that resets the board by the reset control register, CF9h. Behind that OUT stands one
; to COM1, which the processor does not execute any more.
bits 16
org 7C00h

RESET_CONTROL equ 0CF9h
HARD equ 2                 ; what is reset, and the rise that does it
RISE equ 4

start:
    xor ax, ax
    mov ds, ax
    mov ss, ax
    mov sp, 7C00h
    cld
    cli
    mov si, says
    call print
    mov dx, RESET_CONTROL
    mov al, HARD
    out dx, al
    mov al, HARD | RISE
    out dx, al
    mov dx, COM1
    mov al, '!'
    out dx, al
    hlt

%include "com1.asm"

says: db "reset: by CF9h", 13, 10, 0

times 510 - ($ - $$) db 0
dw 0AA55h
times 63 * 512 - ($ - $$) db 0
