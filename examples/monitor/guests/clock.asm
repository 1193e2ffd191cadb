; A boot sector, for `nasm -f bin`: sets the date by int 1Ah to two seconds before midnight, and says on COM1 what it is when
; the day has changed. Where the clock were given another date meanwhile, it would be that one.
bits 16
org 7C00h

start:
    xor ax, ax
    mov ds, ax
    mov ss, ax
    mov sp, 7C00h
    cld
    mov ah, 5              ; the date 9 July 2011
    mov cx, 2011h
    mov dx, 0709h
    int 1Ah
    mov ah, 3              ; the time 23:59:58
    mov cx, 2359h
    mov dx, 5800h
    int 1Ah
same_day:
    hlt                    ; until a tick of the timer
    mov ah, 4
    mov dl, 9
    int 1Ah
    cmp dl, 9
    je same_day
    mov si, says
    call print
    mov al, ch
    call two
    mov al, cl
    call two
    mov al, dh
    call two
    mov al, dl
    call two
    mov si, line
    call print
    cli
    hlt

%include "com1.asm"

says: db "clock: after 9 July 2011 comes ", 0
line: db 13, 10, 0

times 510 - ($ - $$) db 0
dw 0AA55h
times 63 * 512 - ($ - $$) db 0
