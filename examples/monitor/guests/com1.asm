; Texts and numbers on COM1, for the boot sectors.
COM1 equ 3F8h
LINE_STATUS equ 5          ; its bit 5: the transmitter is empty

; the two hexadecimal digits of al
two:
    push ax
    shr al, 4
    call digit
    pop ax
    and al, 15
digit:
    cmp al, 10
    jb decimal
    add al, 'A' - '0' - 10
decimal:
    add al, '0'
put:
    push dx
    mov ah, al
    mov dx, COM1 + LINE_STATUS
wait_empty:
    in al, dx
    test al, 20h
    jz wait_empty
    mov dx, COM1
    mov al, ah
    out dx, al
    pop dx
    ret

print:
    lodsb
    test al, al
    jz printed
    call put
    jmp print
printed:
    ret
