; A boot sector, for `nasm -f bin`: says on COM1 what fw_cfg and the clock tell of memory, and what SeaBIOS made of it.
bits 16
org 7C00h

SELECTOR equ 510h
DATA equ 511h
RAM_BYTES equ 3

start:
    xor ax, ax
    mov ds, ax
    mov ss, ax
    mov sp, 7C00h
    cld
    mov si, says
    call print
    xor ax, ax             ; the signature
    call select
    mov cx, 4
letter:
    in al, dx
    call put
    loop letter
    mov si, memory
    call print
    mov ax, RAM_BYTES
    call select
    mov cx, 9              ; one more than there are: 0
ram_byte:
    in al, dx
    call two
    loop ram_byte
    mov si, kept
    call print
    mov al, 34h            ; blocks of 64 KiB above 16 MiB
    call clock
    mov al, 35h
    call clock
    mov si, told
    call print
    mov ax, 0E801h         ; cx: KiB from 1 to 16 MiB, dx: blocks of 64 KiB above
    int 15h
    mov al, ch
    call two
    mov al, cl
    call two
    mov si, line
    call print
    cli
    hlt

select:
    mov dx, SELECTOR
    out dx, ax
    mov dx, DATA
    ret

clock:
    out 70h, al
    in al, 71h
    jmp two

%include "com1.asm"

says: db "fw_cfg: ", 0
memory: db ", memory ", 0
kept: db ", clock ", 0
told: db ", SeaBIOS ", 0
line: db 13, 10, 0

times 510 - ($ - $$) db 0
dw 0AA55h
times 63 * 512 - ($ - $$) db 0
