; A boot sector, for `nasm -f bin`, that reads sectors 1 to 60 by string instructions of 32 bits at the disk's data port,
; and says the sum of their bytes.
bits 16
org 7C00h

DATA equ 1F0h
COUNT equ 1F2h             ; sectors 1 to 60, by LBA
FIRST equ 1F3h
COMMAND equ 1F7h           ; its bit 7 when read: busy; bit 3: a sector waits
READ equ 20h
CONTROL equ 3F6h           ; its bit 1: the disk makes no interrupts, of which one that waits would end each call
NO_INTERRUPTS equ 2
SECTORS equ 60
BUFFER equ 8000h

start:
    xor ax, ax
    mov ds, ax
    mov es, ax
    mov ss, ax
    mov sp, 7C00h
    cld
    sti
    mov dx, CONTROL
    mov al, NO_INTERRUPTS
    out dx, al
    mov dx, COUNT
    mov al, SECTORS
    out dx, al
    inc dx
    mov al, 1
    out dx, al
    inc dx
    xor al, al
    out dx, al
    inc dx
    out dx, al
    inc dx
    mov al, 0E0h           ; drive 0, LBA
    out dx, al
    inc dx
    mov al, READ
    out dx, al
    mov bp, SECTORS
    mov di, BUFFER
again:
    mov dx, COMMAND
wait_sector:
    in al, dx
    test al, 80h
    jnz wait_sector
    test al, 8
    jz wait_sector
    mov dx, DATA
    mov cx, 512 / 4
    rep insd
    dec bp
    jnz again
    mov si, says
    call print
    xor bx, bx
    mov si, BUFFER
    mov cx, SECTORS * 512
add:
    xor ah, ah
    lodsb
    add bx, ax
    loop add
    mov al, bh
    call two
    mov al, bl
    call two
    mov si, line
    call print
rest:
    hlt
    jmp rest

%include "com1.asm"

says: db "string: ", 0
line: db 13, 10, 0

times 510 - ($ - $$) db 0
dw 0AA55h
%assign n 0
%rep 62 * 512              ; bytes, of which each is the low eight bits of the last times 5 and 17
db n
%assign n (n * 5 + 17) & 0FFh
%endrep
