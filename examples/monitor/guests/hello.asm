; A boot sector, for `nasm -f bin`, for the monitors of one file: it says on COM1 that it runs, adds one to a byte of the
; disk and says it, counts half seconds by the timer's interrupt, and says a byte that COM1 received, by its interrupt,
; twice.
bits 16
org 7C00h

BUFFER equ 8000h
TICKS equ 9                ; of the timer
VECTOR equ 0Ch * 4         ; of line 4
INTERRUPTS equ 1           ; of COM1: its register, and of it a byte that came
MODEM equ 4                ; its register, and the output that lets the interrupt through
OUT2 equ 8
MASK equ 21h               ; of the first controller, and the end of an interrupt
END_OF_INTERRUPT equ 20h

start:
    xor ax, ax
    mov ds, ax
    mov es, ax
    mov ss, ax
    mov sp, 7C00h
    cld
    cli
    mov [drive], dl
    mov word [VECTOR], came
    mov [VECTOR + 2], ax
    mov dx, COM1 + INTERRUPTS
    mov al, 1
    out dx, al
    mov dx, COM1 + MODEM
    mov al, OUT2
    out dx, al
    in al, MASK
    and al, ~10h
    out MASK, al
    sti
    mov si, says
    call print
    mov ax, 0201h          ; reads sector 1, adds one to its first byte and writes it back
    call disk
    inc byte [BUFFER]
    mov ax, 0301h
    call disk
    mov al, [BUFFER]
    call two
    mov si, line
    call print
again:
    mov ah, 0
    int 1Ah
    mov bp, dx
    add bp, TICKS
resting:
    hlt
    mov ah, 0
    int 1Ah
    sub dx, bp
    js resting
    inc byte [half_seconds]
    mov al, [half_seconds]
    call two
    mov al, ' '
    call put
    jmp again

disk:
    mov cx, 2              ; the second, counted from 1
    mov dh, 0
    mov dl, [drive]
    mov bx, BUFFER
    int 13h
    ret

came:
    push ax
    push dx
    mov dx, COM1
    in al, dx
    out dx, al
    out dx, al
    mov al, END_OF_INTERRUPT
    out END_OF_INTERRUPT, al
    pop dx
    pop ax
    iret

%include "com1.asm"

says: db "hello: the disk's byte is ", 0
line: db 13, 10, 0
drive: db 0
half_seconds: db 0

times 510 - ($ - $$) db 0
dw 0AA55h
times 63 * 512 - ($ - $$) db 0
