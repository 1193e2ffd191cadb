; Tells whether what a program was made of is unchanged, that is, whether each file and folder of a list has the time of
; its last change (st_ctime) that is noted with it; and whether another file is long. ./board asks it at each call: it
; starts in a quarter of a millisecond, and asks the system once for each file.
;
;   nasm -f bin -o unchanged tools/launcher/unchanged.asm
;   unchanged FOLDER FILE
;
; The names of the list are below FOLDER, or begin with `/`. Exit status: 0 unchanged; 10 unchanged, and FILE has more
; than 1 MiB; 1 something has another time, or is gone.
;
; It is for Linux on x86-64, as the board's program. unchanged.py has its bytes, and puts the list behind them: of each
; file the time in nanoseconds, 8 bytes with the low ones first, and the name, which a zero ends; last any time and no
; name.
        bits 64
        org 0x400000
STAT    equ 4                   ; calls of the system
CHDIR   equ 80
EXIT    equ 60
SIZE    equ 48                  ; what `stat` writes, by its offsets
SECONDS equ 104
NANOS   equ 112
ALL     equ 144                 ; bytes
MEBI    equ 0x100000
IS_LONG equ 10                  ; exit statuses
CHANGED equ 1

header: db 0x7F, "ELF", 2, 1, 1, 0, 0, 0, 0, 0, 0, 0, 0, 0
        dw 2, 62                ; an executable, for x86-64
        dd 1
        dq start, loaded - header, 0
        dd 0
        dw 64, 56, 1, 0, 0, 0   ; bytes of this header, and one segment
loaded:
        dd 1, 5                 ; loaded, to read and to run
        dq 0, header, header
        dq 0, 0                 ; the bytes of the whole file, twice, which unchanged.py puts here
        dq 4096

start:  cmp qword [rsp], 3      ; the words: this program, FOLDER, FILE
        jne changed
        mov r12, [rsp + 16]
        mov rdi, [rsp + 24]
        sub rsp, ALL
        xor ebx, ebx            ; the exit status
        call ask
        jnz enter               ; there is no FILE
        cmp qword [rsp + SIZE], MEBI
        jbe enter
        mov ebx, IS_LONG
enter:  mov rdi, r12
        mov eax, CHDIR
        syscall
        test eax, eax
        jnz changed
        mov r12, list
each:   lea rdi, [r12 + 8]
        cmp byte [rdi], 0
        je done
        call ask
        jnz changed
        imul rax, [rsp + SECONDS], 1000000000
        add rax, [rsp + NANOS]
        cmp rax, [r12]
        jne changed
        lea rdi, [r12 + 8]      ; past the zero behind the name
        xor eax, eax
        mov ecx, -1
        repne scasb
        mov r12, rdi
        jmp each
changed:
        mov ebx, CHANGED
done:   mov edi, ebx
        mov eax, EXIT
        syscall

ask:    lea rsi, [rsp + 8]      ; asks of the file rdi; zero where it is there
        mov eax, STAT
        syscall
        test eax, eax
        ret
list:
