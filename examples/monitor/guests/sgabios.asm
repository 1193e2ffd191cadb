; SGABIOS, the screen of int 10h on COM1, as the expansion ROM of a PCI card, for `nasm -f bin` with sgabios.bin in a folder
; of -I: Debian's file, which has none, gets a PCI data structure in a sector behind it. SeaBIOS runs it as a display's.
SECTORS equ 9
BYTES equ 8 * 512          ; of the file, whose sum is 0
PCIR equ 50h + 43h + 49h + 52h

    incbin "sgabios.bin", 0, 2
    db SECTORS             ; was 8
    incbin "sgabios.bin", 3, 18h - 3
    dw BYTES               ; where the structure is; was 0
    incbin "sgabios.bin", 1Ah, BYTES - 1Ah

    db "PCIR"
    dw 0A55Ah, 0104h       ; vendor and device
    dw 0, 18h
    db 0, 0, 0, 3          ; revision, class 030000h
    dw SECTORS, 0
    db 0, 80h              ; for a PC; the last image
    dw 0
    times SECTORS * 512 - 1 - ($ - $$) db 0
    db -(1 + 10h + PCIR + 0A5h + 5Ah + 4 + 1 + 18h + 3 + SECTORS + 80h) & 0FFh
