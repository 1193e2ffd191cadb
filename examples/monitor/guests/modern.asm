; A boot sector, for `nasm -f bin`, that drives a virtio block card by the transport of virtio 1.0: it walks the card's list
; of capabilities and tells their types, takes VERSION_1, and reads sector 3 by a queue of four. It tells the features in the
; high half, the status after FEATURES_OK, the size of the queue before, then the used index, the request's status, two
; bytes of the sector, what has happened, twice, the capacity, and by the window in configuration data the number of queues.
bits 16
org 7C00h

QUEUE equ 2000h            ; its segment: descriptors, and the two rings
AVAILABLE equ 100h
USED equ 200h
HEADER equ 400h            ; of the request, then its status; the data follow
REQUEST_STATUS equ HEADER + 16
DATA equ 600h
LINEAR equ QUEUE * 16
NEXT equ 1
WRITTEN equ 2

; of the common structure
OFFERED_SELECT equ 0
OFFERED equ 4
TAKEN_SELECT equ 8
TAKEN equ 12
STATUS equ 20
SELECT equ 22
SIZE equ 24
ENABLE equ 28
DESCRIPTORS equ 32

start:
    xor ax, ax
    mov ds, ax
    mov es, ax
    mov ss, ax
    mov sp, 7C00h
    cld
    mov ax, 0203h          ; the rest of this program
    mov cx, 2
    mov dh, 0
    mov bx, 7E00h
    int 13h
    jmp main

times 510 - ($ - $$) db 0
dw 0AA55h

main:
    mov si, says
    call print
    mov ax, 0B102h         ; PCI BIOS: find the card
    mov dx, 1AF4h
    mov cx, 1001h
    xor si, si
    int 1Ah
    mov ax, 0B10Ch         ; it decodes memory and ports, and is a bus master
    mov di, 4
    mov cx, 7
    int 1Ah
    mov di, 4              ; its status says that there is a list
    call config
    bt ecx, 20
    jnc none
    mov di, 34h
    call config
capability:
    movzx di, cl
    call config            ; vendor, next, length, type
    push ecx
    shr ecx, 24
    mov al, cl
    push cx
    call digit
    pop bp
    shl bp, 2
    push di
    add di, 8
    call config
    mov [offsets + bp], ecx
    pop di
    pop ecx
    mov cl, ch
    test cl, cl
    jnz capability
    mov al, ' '
    call put
    mov di, 14h            ; base 1
    call config
    and ecx, ~15
    mov [base], ecx
    call drive
    call window
none:
    mov si, line
    call print
    cli
    hlt

; the doubleword of configuration data at di: ecx
config:
    mov ax, 0B10Ah
    int 1Ah
    ret

; the number of queues by the window, which is the last capability
window:
    mov di, 84h + 4
    mov ecx, 1
    call put_config
    mov di, 84h + 8
    mov ecx, 18
    call put_config
    mov di, 84h + 12
    mov ecx, 2
    call put_config
    mov di, 84h + 16
    call config
    mov al, ' '
    call put
    mov al, cl
    jmp two

put_config:
    mov ax, 0B10Dh
    int 1Ah
    ret

; fs reaches all memory, from the real mode
reach_all:
    cli
    lgdt [table]
    mov eax, cr0
    or al, 1
    mov cr0, eax
    jmp protected
protected:
    mov dx, 8
    mov fs, dx
    and al, 0FEh
    mov cr0, eax
    jmp real
real:
    ret

; edi: where the structure of type ax begins
structure:
    mov bp, ax
    shl bp, 2
    mov edi, [base]
    add edi, [offsets + bp]
    ret

drive:
    call reach_all
    mov ax, 1
    call structure
    mov byte [fs:edi + STATUS], 0
    mov byte [fs:edi + STATUS], 1
    mov byte [fs:edi + STATUS], 3
    mov dword [fs:edi + OFFERED_SELECT], 1
    mov ecx, [fs:edi + OFFERED]
    call eight
    mov dword [fs:edi + TAKEN_SELECT], 1
    mov dword [fs:edi + TAKEN], 1
    mov byte [fs:edi + STATUS], 11
    mov al, ' '
    call put
    mov al, [fs:edi + STATUS]
    call two
    mov word [fs:edi + SELECT], 0
    mov al, ' '
    call put
    mov al, [fs:edi + SIZE]
    call two
    mov word [fs:edi + SIZE], 4
    mov dword [fs:edi + DESCRIPTORS], LINEAR
    mov dword [fs:edi + DESCRIPTORS + 4], 0
    mov dword [fs:edi + DESCRIPTORS + 8], LINEAR + AVAILABLE
    mov dword [fs:edi + DESCRIPTORS + 12], 0
    mov dword [fs:edi + DESCRIPTORS + 16], LINEAR + USED
    mov dword [fs:edi + DESCRIPTORS + 20], 0
    mov word [fs:edi + ENABLE], 1
    mov byte [fs:edi + STATUS], 15
    call ask
    mov al, ' '
    call put
    mov al, [es:USED + 2]
    call two
    mov al, [es:REQUEST_STATUS]
    call two
    mov al, [es:DATA]
    call two
    mov al, [es:DATA + 511]
    call two
    mov al, ' '
    call put
    mov ax, 3
    call structure
    mov al, [fs:edi]
    call two
    mov al, [fs:edi]
    call two
    mov al, ' '
    call put
    mov ax, 4
    call structure
    mov ecx, [fs:edi]
    jmp eight

; offers a read of sector 3
ask:
    mov ax, QUEUE
    mov es, ax
    xor ax, ax
    mov di, 0
    mov cx, 800h
    rep stosw
    mov si, descriptors
    mov di, 0
    mov cx, 3 * 8
    rep movsw
    mov byte [es:HEADER + 8], 3
    mov byte [es:REQUEST_STATUS], 0FFh
    mov word [es:AVAILABLE + 2], 1
    mov ax, 2
    call structure
    mov word [fs:edi], 0
    ret

; the eight digits of ecx
eight:
    mov bp, 4
byte_of:
    rol ecx, 8
    mov al, cl
    call two
    dec bp
    jnz byte_of
    ret

%include "com1.asm"

says: db "modern: ", 0
line: db 13, 10, 0
offsets: times 6 dd 0       ; by type
base: dd 0
table:
    dw 15
    dd nothing
nothing:
    dq 0
    dq 00CF92000000FFFFh   ; data of 4 GiB
descriptors:
    dq LINEAR + HEADER
    dd 16
    dw NEXT, 1
    dq LINEAR + DATA
    dd 512
    dw NEXT | WRITTEN, 2
    dq LINEAR + REQUEST_STATUS
    dd 1
    dw WRITTEN, 0

times 63 * 512 - ($ - $$) db 0
