; A boot sector, for `nasm -f bin`, of instructions that make two exits each: CC000h to CFFFFh are opened for writes alone,
; so that an XOR of memory there reads FFFFh from nobody and writes to main memory. Then they are opened for reads, and the
; word is compared: '.' where it is there, '!' where the write was lost.
bits 16
org 7C00h

CONFIG_ADDRESS equ 0CF8h
PAM2 equ 80000058h         ; 00.0, 5Bh: C8000h to CFFFFh, of which bits 4 and 5 are for the upper 16 KiB
PAM2_DATA equ 0CFFh
WRITES equ 20h
READS_AND_WRITES equ 30h
PLACE equ 10h

start:
    xor ax, ax
    mov ds, ax
    mov ss, ax
    mov sp, 7C00h
    mov ax, 0CC00h
    mov es, ax
    cld
    cli
    mov si, says
    call print
again:
    inc bx
    mov eax, PAM2
    mov dx, CONFIG_ADDRESS
    out dx, eax
    mov dx, PAM2_DATA
    mov al, WRITES
    out dx, al
    xor [es:PLACE], bx
    mov al, READS_AND_WRITES
    out dx, al
    mov cx, bx
    not cx
    cmp [es:PLACE], cx
    mov al, '.'
    je kept
    mov al, '!'
kept:
    call put
    jmp again

%include "com1.asm"

says: db "straddle: ", 0

times 510 - ($ - $$) db 0
dw 0AA55h
times 63 * 512 - ($ - $$) db 0
