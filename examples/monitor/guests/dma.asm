; A boot sector, for `nasm -f bin`, that drives the bus master of the disk's channel (82371SB, 2.7). It reads sector 2 by
; READ DMA into two regions, with interrupts, writes it to sector 4 by WRITE DMA, and asks for a sector past the disk's end.
; After each, when line 14 has interrupted, it says the status of the bus master and of the drive; then a sum of what was
; read, and word 63 of IDENTIFY DEVICE.
bits 16
org 7C00h

IDE equ 9                  ; function 1 of device 1
FIRST equ 8000h            ; where the sector goes: 200 bytes, and the rest
SECOND equ 0A200h
FIRST_BYTES equ 200
TABLE equ 9000h            ; of two descriptors
WORDS equ 0B000h           ; of IDENTIFY DEVICE
COUNT equ 1F2h
COMMAND equ 1F7h
CAME equ 48Eh              ; SeaBIOS leaves FFh there at an interrupt of line 14

start:
    xor ax, ax
    mov ds, ax
    mov es, ax
    mov ss, ax
    mov sp, 7C00h
    cld
    sti
    mov ax, 0B10Ch         ; PCI BIOS: the function decodes its ports, and is a bus master
    mov bx, IDE
    mov di, 4
    mov cx, 5
    int 1Ah
    mov ax, 0B109h         ; BMIBA
    mov di, 20h
    int 1Ah
    and cl, 0F0h
    mov [base], cx
    mov di, TABLE
    mov si, table
    mov cx, 8
    rep movsw
    mov si, says
    call print
    mov bl, 0C8h           ; READ DMA, to memory
    mov bh, 8
    mov si, second
    call dma
    mov bl, 0CAh
    mov bh, 0
    mov si, fourth
    call dma
    mov bl, 0C8h
    mov bh, 8
    mov si, past
    call dma
    mov si, FIRST          ; a sum in which each byte's place counts
    mov cx, FIRST_BYTES
    call add_bytes
    mov si, SECOND
    mov cx, 512 - FIRST_BYTES
    call add_bytes
    mov al, [sum + 1]
    call two
    mov al, [sum]
    call two
    mov dx, COMMAND
    mov al, 0ECh
    out dx, al
    mov dx, 1F0h
    mov di, WORDS
    mov cx, 256
    rep insw
    mov al, ' '
    call put
    mov al, [WORDS + 127]
    call two
    mov al, [WORDS + 126]
    call two
    mov si, line
    call print
    cli
    hlt

; does the command bl on the sectors of the registers at si, in the direction bh
dma:
    mov byte [CAME], 0
    mov dx, [base]
    add dx, 2
    mov al, 6              ; nothing has happened yet
    out dx, al
    add dx, 2
    mov eax, TABLE
    out dx, eax
    mov dx, COUNT
    mov cx, 5
registers:
    outsb
    inc dx
    loop registers
    mov al, bl
    out dx, al
    mov dx, [base]
    mov al, bh
    or al, 1
    out dx, al
waiting:
    hlt
    cmp byte [CAME], 0
    je waiting
    add dx, 2
    in al, dx
    call two
    mov dx, [base]
    mov al, 0
    out dx, al
    mov dx, COMMAND
    in al, dx
    call two
    mov al, ' '
    jmp put

add_bytes:
    mov ax, [sum]
adding:
    imul ax, ax, 3
    mov dl, [si]
    mov dh, 0
    add ax, dx
    inc si
    loop adding
    mov [sum], ax
    ret

%include "com1.asm"

says: db "dma: ", 0
line: db 13, 10, 0
sum: dw 0
base: dw 0
second: db 1, 2, 0, 0, 0E0h
fourth: db 1, 4, 0, 0, 0E0h
past: db 1, 0, 0, 1, 0E0h
table:
    dd FIRST
    dw FIRST_BYTES, 0
    dd SECOND
    dw 512 - FIRST_BYTES, 8000h ; the last one

times 510 - ($ - $$) db 0
dw 0AA55h
times 512 db 0
%assign byte 7             ; sector 2
%rep 512
    db byte
    %assign byte (byte * 5 + 17) % 256
%endrep
times 63 * 512 - ($ - $$) db 0
