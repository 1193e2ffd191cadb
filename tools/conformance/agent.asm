; A BIOS of 64 KiB that makes a guest's accesses, asked over COM1: so any monitor that boots a BIOS and has COM1 can be asked
; what it answers, by its own processor.
;
;   nasm -f bin -o agent.bin tools/conformance/agent.asm
;
; A question is 9 bytes: what to do, a place and a value, low bytes first. The answer is 4 bytes.
;
;   0 hello, answers "!AGN"    1 2 3 in b w d    4 5 6 out b w d    7 8 9 read b w d    10 11 12 write b w d
;   13 whether SMM can be entered: 1 or 0        14 15 16 read b w d in SMM    17 18 19 write b w d in SMM
;
; It runs at FFFF0000h, where the registers of the map do not reach, without memory and without a stack; only for SMM there is
; a handler at 38000h, in the DRAM, with what is asked of it at 38200h. COM1 is its own, so nothing is asked about COM1.
        org 0xFFFF0000
COM     equ 0x3F8
HELLO   equ 0x4E474121
ENTRY   equ 0x38000             ; of SMM: SMBASE 30000h and 8000h
OP      equ 0x38200             ; what is asked, in SMM
PLACE   equ 0x38204
VALUE   equ 0x38208
RESULT  equ 0x3820C
IS_DONE equ 0x38210
APMC    equ 0xB2
WAITS   equ 1000000

%macro put 2
        mov dx, %1
        mov al, %2
        out dx, al
%endmacro
%macro word_in 1                ; four bytes into a register, by eax, ecx, edx, esi and edi
        mov edi, %%back
        jmp get_word
%%back: mov %1, eax
%endmacro
%macro config 2                 ; writes a doubleword of configuration space
        mov dx, 0xCF8
        mov eax, %1
        out dx, eax
        mov dx, 0xCFC
        mov eax, %2
        out dx, eax
%endmacro

        bits 16
start:  cli
        mov bx, gdtr - 0xFFFF0000
        o32 lgdt [cs:bx]
        mov eax, cr0
        or al, 1
        mov cr0, eax
        jmp dword 8:flat

        align 8
gdt:    dq 0, 0x00CF9B000000FFFF, 0x00CF93000000FFFF
gdtr:   dw 23
        dd gdt

        bits 32
flat:   mov ax, 16
        mov ds, ax
        mov es, ax
        mov ss, ax
        put COM + 3, 0x83       ; 115,200 bits a second, 8 data bits
        put COM, 1
        put COM + 1, 0
        put COM + 3, 3
        put COM + 2, 1
        put COM + 4, 3
hello:  mov eax, HELLO
        jmp answer

next:   mov esi, .op
        jmp get
.op:    movzx ebp, al
        word_in ebx
        word_in ecx
        mov edx, ebx
        mov eax, ecx
        cmp ebp, 20
        jae done
        cmp ebp, 13
        jae in_smm
        jmp [table + 4 * ebp]
table:  dd hello, in_b, in_w, in_d, out_b, out_w, out_d, read_b, read_w, read_d, write_b, write_w, write_d

in_b:   in al, dx
        movzx eax, al
        jmp answer
in_w:   in ax, dx
        movzx eax, ax
        jmp answer
in_d:   in eax, dx
        jmp answer
out_b:  out dx, al
        jmp done
out_w:  out dx, ax
        jmp done
out_d:  out dx, eax
        jmp done
read_b: movzx eax, byte [ebx]
        jmp answer
read_w: movzx eax, word [ebx]
        jmp answer
read_d: mov eax, [ebx]
        jmp answer
write_b: mov [ebx], al
        jmp done
write_w: mov [ebx], ax
        jmp done
write_d: mov [ebx], eax
done:   xor eax, eax
answer: mov ebx, eax            ; its four bytes
        mov ecx, 4
.byte:  mov dx, COM + 5
.wait:  in al, dx
        test al, 0x20
        jz .wait
        mov dx, COM
        mov al, bl
        out dx, al
        shr ebx, 8
        dec ecx
        jnz .byte
        jmp next

; ---- in SMM: the handler is put at its entry, what is asked beside it, and the APM control port asks for the interrupt

in_smm: mov [VALUE], ecx
        mov [PLACE], ebx
        lea eax, [ebp - 13]
        mov [OP], eax
        xor eax, eax
        mov [RESULT], eax
        mov [IS_DONE], eax
        mov esi, smi
        mov edi, ENTRY
        mov ecx, smi_end - smi
        cld
        rep movsb
        mov dx, 0xCF8
        in eax, dx
        mov ebx, eax            ; the configuration address is put back
        config 0x800008A0, 0x00800001   ; 82371SB: SMICNTL lets the interrupt out, SMIEN asks for it by the APM port
        config 0x80000B58, 0x02000000   ; 82371AB: APMC_EN
        mov dx, 0xCF8
        mov eax, ebx
        out dx, eax
        xor eax, eax
        out APMC, al
        mov ecx, WAITS
.wait:  cmp dword [IS_DONE], 0
        jne .done
        dec ecx
        jnz .wait
.done:  mov eax, [IS_DONE]
        cmp dword [OP], 0
        je answer
        mov eax, [RESULT]
        jmp answer

        bits 16
smi:    a32 mov ebx, [dword PLACE]
        a32 mov ecx, [dword VALUE]
        a32 mov eax, [dword OP]
        xor edx, edx
        dec ax
        js .done
        jz .read_b
        dec ax
        jz .read_w
        dec ax
        jz .read_d
        dec ax
        jz .write_b
        dec ax
        jz .write_w
        a32 mov [ebx], ecx
        jmp .done
.write_w: a32 mov [ebx], cx
        jmp .done
.write_b: a32 mov [ebx], cl
        jmp .done
.read_d: a32 mov edx, [ebx]
        jmp .done
.read_w: a32 mov dx, [ebx]
        jmp .done
.read_b: a32 mov dl, [ebx]
.done:  a32 mov [dword RESULT], edx
        mov eax, 1
        a32 mov [dword IS_DONE], eax
        rsm
smi_end:
        bits 32

get:    mov dx, COM + 5         ; a byte into al, and back to esi
.wait:  in al, dx
        test al, 1
        jz .wait
        mov dx, COM
        in al, dx
        jmp esi
get_word: mov ah, 4             ; back to edi
        mov ecx, 0
        mov esi, .more
.more0: jmp get
.more:  movzx edx, al
        or ecx, edx
        ror ecx, 8
        dec ah
        jnz .more0
        mov eax, ecx
        jmp edi
code_end:

        times 0xFFF0 - ($ - $$) db 0
        bits 16
        jmp start
        times 0x10000 - ($ - $$) db 0
