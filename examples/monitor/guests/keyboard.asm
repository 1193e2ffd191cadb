; A boot sector, for `nasm -f bin`: the tests of an 8042, its output port, port 92h, and the processor's restart by FEh.
bits 16
org 7C00h

DATA equ 60h
COMMAND equ 64h            ; its bit 0: a byte is at port 60h; bit 1: none can be written
SYSTEM_CONTROL equ 92h

start:
    xor ax, ax
    mov ds, ax
    mov ss, ax
    mov sp, 7C00h
    cld
    cli                    ; SeaBIOS would take the bytes by IRQ 1
    mov si, says
    call print
    mov al, 0AAh           ; the controller's test
    call ask
    mov al, 0ABh           ; that of its wires
    call ask
    mov al, 0D0h           ; the output port
    call ask
    in al, SYSTEM_CONTROL
    call two
    mov si, line
    call print
    mov al, 0FEh
    out COMMAND, al
    hlt

; the answer to a command
ask:
    mov bl, al
wait_taken:
    in al, COMMAND
    test al, 2
    jnz wait_taken
    mov al, bl
    out COMMAND, al
wait_answer:
    in al, COMMAND
    test al, 1
    jz wait_answer
    in al, DATA
    call two
    mov al, ' '
    jmp put

%include "com1.asm"

says: db "keyboard: ", 0
line: db 13, 10, 0

times 510 - ($ - $$) db 0
dw 0AA55h
times 63 * 512 - ($ - $$) db 0
