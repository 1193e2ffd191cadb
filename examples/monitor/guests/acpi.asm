; A boot sector, for `nasm -f bin`, that finds the tables of ACPI in the F segment, tells whether the sum of each is 0, the
; line of its interrupt, the register that takes the power away and the type of sleep that does; waits until the power
; button is pressed, by the interrupt, and takes the power away. A `!` is said where that did not end it.
bits 16
org 7C00h

RSDP_BYTES equ 20
BUTTON equ 1               ; of the status and of what is enabled: bit 8, in the second byte
SLEEP equ 2000h
VECTOR equ 71h * 4         ; of line 9

start:
    xor ax, ax
    mov ds, ax
    mov ss, ax
    mov sp, 7C00h
    cld
    mov si, says
    call print
    mov ax, 0F000h
    mov es, ax
    xor di, di
find:
    mov si, mark
    push di
    mov cx, 4
    repe cmpsw
    pop di
    je found
    add di, 16
    jnz find
    hlt
found:
    mov cx, RSDP_BYTES
    call sum
    mov di, [es:di + 16]   ; RSDT; all tables lie in the F segment
    call table
    mov di, [es:di + 36]   ; FADT
    call table
    mov al, [es:di + 46]
    mov ah, [es:di + 64]
    mov [control], ah
    mov ah, [es:di + 65]
    mov [control + 1], ah
    mov dx, [es:di + 56]
    mov [event], dx
    push ax
    mov di, [es:di + 40]   ; DSDT
    call table
find_state:
    inc di
    cmp dword [es:di], '_S5_'
    jne find_state
    mov al, [es:di + 9]    ; the first number of the package
    mov [type], al
    pop ax
    call two
    mov al, [control + 1]
    call two
    mov al, [control]
    call two
    mov al, [type]
    call two
    mov word [VECTOR], pressed
    mov word [VECTOR + 2], 0
    in al, 0A1h
    and al, ~2
    out 0A1h, al
    in al, 21h
    and al, ~4
    out 21h, al
    mov dx, [event]
    add dx, 3
    mov al, BUTTON
    out dx, al
    mov si, ready
    call print
resting:
    sti
    hlt
    cmp byte [is_pressed], 0
    je resting
    mov si, button
    call print
    mov ah, [type]
    shl ah, 2
    or ah, SLEEP >> 8
    mov al, 0
    mov dx, [control]
    out dx, ax
    mov al, '!'
    call put
    cli
    hlt

; the sum of the cx bytes at es:di, or of a table at di, which is 0
table:
    mov cx, [es:di + 4]
sum:
    push di
    xor al, al
adding:
    add al, [es:di]
    inc di
    loop adding
    pop di
    call two
    mov al, ' '
    jmp put

; line 9: what has happened is taken away where it is the button
pressed:
    push ax
    push dx
    mov dx, [cs:event]
    in ax, dx
    out dx, ax
    mov [cs:is_pressed], ah
    mov al, 20h
    out 0A0h, al
    out 20h, al
    pop dx
    pop ax
    iret

%include "com1.asm"

says: db "acpi: ", 0
ready: db " waits", 13, 10, 0
button: db "acpi: the button", 13, 10, 0
mark: db "RSD PTR "
control: dw 0
event: dw 0
type: db 0
is_pressed: db 0

times 510 - ($ - $$) db 0
dw 0AA55h
times 63 * 512 - ($ - $$) db 0
