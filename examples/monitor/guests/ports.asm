; A ROM of 64 KiB, for `nasm -f bin`: reads port 61h a million times and halts. What an exit costs, with the board's answers
; and, by --nothing, without.
bits 16
org 0
start:
    mov ecx, 1000000
again:
    in al, 61h
    dec ecx
    jnz again
    cli
    hlt
times 0FFF0h - ($ - $$) db 0
    jmp 0F000h:start
times 10000h - ($ - $$) db 0
