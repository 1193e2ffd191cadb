; A boot sector, for `nasm -f bin`, that counts on COM1, by a byte of the disk: each half second it reads sector 1, adds one
; to its first byte, writes it back and says the byte. What it says next hangs on memory, disk and timer, and never ends.
bits 16
org 7C00h

BUFFER equ 8000h
TICKS equ 9                ; ticks of the timer

start:
    xor ax, ax
    mov ds, ax
    mov es, ax
    mov ss, ax
    mov sp, 7C00h
    cld
    sti
    mov [drive], dl
again:
    mov ax, 0201h
    call disk
    inc byte [BUFFER]
    mov ax, 0301h
    call disk
    mov si, says
    call print
    mov al, [BUFFER]
    call two
    mov si, line
    call print
    mov ah, 0
    int 1Ah
    mov bp, dx
    add bp, TICKS
resting:
    hlt
    mov ah, 0
    int 1Ah
    sub dx, bp
    js resting
    jmp again

; reads or writes sector 1, by ax
disk:
    mov cx, 2              ; the second, counted from 1
    mov dh, 0
    mov dl, [drive]
    mov bx, BUFFER
    int 13h
    jnc done
    mov si, failed
    call print
    cli
    hlt
done:
    ret

%include "com1.asm"

says: db "count: ", 0
line: db 13, 10, 0
failed: db "count: int 13h failed", 13, 10, 0
drive: db 0

times 510 - ($ - $$) db 0
dw 0AA55h
times 63 * 512 - ($ - $$) db 0
