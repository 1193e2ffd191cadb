; A boot sector, for `nasm -f bin`: it says on COM1 what SeaBIOS gives of the keyboard, the character and the scan code.
bits 16
org 7C00h

start:
    xor ax, ax
    mov ds, ax
    mov ss, ax
    mov sp, 7C00h
    cld
    mov si, says
    call print
again:
    mov ah, 0
    int 16h
    push ax
    call put
    pop ax
    mov al, ah
    call two
    mov al, ' '
    call put
    jmp again

%include "com1.asm"

says: db "typed: ", 0

times 510 - ($ - $$) db 0
dw 0AA55h
times 63 * 512 - ($ - $$) db 0
