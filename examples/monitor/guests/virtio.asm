; A boot sector, for `nasm -f bin`, that drives the one queue of a legacy virtio block card. It offers reads of sector 0,
; each time after a reset of the card: more than the ring holds, one, and as many as it holds; and tells the used index and
; the status of each, FFh where none was written.
bits 16
org 7C00h

RING equ 128               ; what the card says of its queue
QUEUE equ 2000h            ; its segment: descriptors, the available ring, and the used ring on the next page
AVAILABLE equ 16 * RING
USED equ 1000h
HEADER equ 2000h           ; of a request, then its status; the data follow
STATUS equ HEADER + 16
DATA equ HEADER + 512
QUEUE_PAGE equ 8
QUEUE_NOTIFY equ 16
DEVICE_STATUS equ 18
NEXT equ 1
WRITTEN equ 2

start:
    xor ax, ax
    mov ds, ax
    mov ss, ax
    mov sp, 7C00h
    cld
    mov ax, 0B102h         ; PCI BIOS: find the card
    mov dx, 1AF4h
    mov cx, 1001h
    xor si, si
    int 1Ah
    mov ax, 0B10Ah         ; read its base 0
    mov di, 10h
    int 1Ah
    and cl, 0FCh
    mov [base], cx
    mov si, says
    call print
    mov ax, QUEUE
    mov es, ax
    mov ax, 1000           ; requests, of which the ring holds 128
    call ask
    mov ax, 1
    call ask
    mov ax, RING
    call ask
    mov si, line
    call print
    cli
    hlt

; resets the card, offers ax requests and says the used index and the status
ask:
    push ax
    mov di, 0
    xor ax, ax
    mov cx, 2000h
    rep stosw
    mov si, descriptors
    mov di, 0
    mov cx, 3 * 16
copy:
    lodsb
    stosb
    loop copy
    mov byte [es:STATUS], 0FFh
    pop word [es:AVAILABLE + 2]
    mov dx, [base]
    add dx, DEVICE_STATUS
    xor al, al
    out dx, al
    mov dx, [base]
    add dx, QUEUE_PAGE
    mov eax, QUEUE / 100h
    out dx, eax
    mov dx, [base]
    add dx, QUEUE_NOTIFY
    xor ax, ax
    out dx, ax
    mov al, [es:USED + 3]
    call two
    mov al, [es:USED + 2]
    call two
    mov al, ' '
    call put
    mov al, [es:STATUS]
    call two
    mov al, ' '
    jmp put

%include "com1.asm"

says: db "virtio: ", 0
line: db 13, 10, 0
base: dw 0
descriptors:
    dq QUEUE * 16 + HEADER
    dd 16
    dw NEXT, 1
    dq QUEUE * 16 + DATA
    dd 512
    dw NEXT | WRITTEN, 2
    dq QUEUE * 16 + STATUS
    dd 1
    dw WRITTEN, 0

times 510 - ($ - $$) db 0
dw 0AA55h
times 63 * 512 - ($ - $$) db 0
