; A disk of a few sectors, for `nasm -f bin`. The boot sector says on COM1 that it runs, reads sector 1, writes sector 2 and
; reads it back, both by int 13h, waits for a tick of the timer, and halts for good.
bits 16
org 7C00h

COM1 equ 3F8h
LINE_STATUS equ 5          ; its bit 5: the transmitter is empty
BUFFER equ 8000h
SECTOR equ 512
COPY equ BUFFER + SECTOR

start:
    xor ax, ax
    mov ds, ax
    mov es, ax
    mov ss, ax
    mov sp, 7C00h
    cld
    sti                    ; SeaBIOS has, Bochs's BIOS has not
    mov [drive], dl
    mov si, running
    call print
    mov ax, 0201h          ; read one sector
    mov cx, 2              ; the second, counted from 1
    mov bx, BUFFER
    call disk
    mov si, BUFFER
    call print
    mov ax, 0301h          ; write the same bytes to the third
    mov cx, 3
    mov bx, BUFFER
    call disk
    mov ax, 0201h          ; and read them back
    mov cx, 3
    mov bx, COPY
    call disk
    mov si, BUFFER
    mov di, COPY
    mov cx, SECTOR
    repe cmpsb
    mov si, differs
    jne say
    mov si, kept
    call print
    mov ax, 0F000h         ; a write into the BIOS, which SeaBIOS has shut: --explain says by which register
    mov es, ax
    mov byte [es:0], 0
    mov ah, 0              ; ticks of IRQ 0 since midnight
    int 1Ah
    mov bp, dx
wait_tick:
    hlt
    mov ah, 0
    int 1Ah
    cmp dx, bp
    je wait_tick
    mov si, ticks
say:
    call print
    cli
    hlt

disk:
    mov dh, 0
    mov dl, [drive]
    int 13h
    mov si, failed
    jc say
    ret

print:
    lodsb
    test al, al
    jz printed
    mov ah, al
wait_empty:
    mov dx, COM1 + LINE_STATUS
    in al, dx
    test al, 20h
    jz wait_empty
    mov dx, COM1
    mov al, ah
    out dx, al
    jmp print
printed:
    ret

running: db "boot sector: running", 13, 10, 0
kept: db "boot sector: a sector written and read back", 13, 10, 0
differs: db "boot sector: the sector reads back otherwise", 13, 10, 0
failed: db "boot sector: int 13h failed", 13, 10, 0
ticks: db "boot sector: the timer ticks", 13, 10, 0
drive: db 0

times 510 - ($ - $$) db 0
dw 0AA55h
    db "boot sector: this is sector 1, read through the ATA ports", 13, 10, 0
times 63 * SECTOR - ($ - $$) db 0
