; A boot sector, for `nasm -f bin`, that writes sectors 2 and 3 by one WRITE SECTORS at the disk's ports and flushes them,
; writes sector 5 by the cylinder, head and sector and flushes again, says so on COM1, and rests.
bits 16
org 7C00h

DATA equ 1F0h
COUNT equ 1F2h
COMMAND equ 1F7h
WRITE_SECTORS equ 30h
FLUSH_CACHE equ 0E7h
BY_LBA equ 0E0h            ; of the device register, and without
BY_TRACK equ 0A0h
TAKES_WORDS equ 8          ; of the status, and what stands at the end
READY equ 50h

start:
    xor ax, ax
    mov ds, ax
    mov ss, ax
    mov sp, 7C00h
    cld
    mov si, lba
    mov bl, 0C1h           ; the first byte, of which each word's is one more
    call write
    mov si, track
    mov bl, 051h
    call write
    mov si, says
    call print
resting:
    sti
    hlt
    jmp resting

; writes as many sectors as the registers at si say, and flushes
write:
    mov bp, [si]
    and bp, 0FFh
    mov dx, COUNT
    mov cx, 5
registers:
    outsb
    inc dx
    loop registers
    mov al, WRITE_SECTORS
    out dx, al
sector:
    in al, dx
    test al, TAKES_WORDS
    jz sector
    mov dx, DATA
    mov cx, 256
    mov al, bl
    mov ah, bl
words:
    out dx, ax
    inc ax
    loop words
    mov dx, COMMAND
    inc bl
    dec bp
    jnz sector
    mov al, FLUSH_CACHE
    out dx, al
flushing:
    in al, dx
    cmp al, READY
    jne flushing
    ret

%include "com1.asm"

says: db "flush: written", 13, 10, 0
lba: db 2, 2, 0, 0, BY_LBA   ; two sectors from 2 on
track: db 1, 6, 0, 0, BY_TRACK ; sector 6 of a track, counted from 1

times 510 - ($ - $$) db 0
dw 0AA55h
times 63 * 512 - ($ - $$) db 0
