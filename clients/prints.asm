; Enters protected mode and prints two lines: one letter by letter with INT 21h, which the host reflects to DOS in real mode, and one with
; function 0300h, which calls DOS with the registers of a structure. Ends with 0.
;     nasm -f bin -DWIDTH=0 prints.asm -o prints16.exe
;     nasm -f bin -DWIDTH=1 prints.asm -o prints32.exe
%include "exe.inc"
    mov [cs:structure + 24h - code], cs     ; DS of DOS's call
    mov ax, 1687h               ; ES:DI = the entry to protected mode
    int 2Fh
    push es
    push di
    mov bp, sp
    mov ax, WIDTH               ; a client of 16 bits (0) or of 32 bits (1)
    call far [bp]

; DS is the program's prefix; the code is 100h bytes after its start.
    mov si, first - code + 100h
letter:
    mov dl, [si]
    cmp dl, '$'
    je done
    mov ah, 02h                 ; print DL
    int 21h
    inc si
    jmp letter

done:
    push ds
    pop es
    mov edi, structure - code + 100h
    mov bx, 21h                 ; interrupt 21h
    xor cx, cx                  ; no words of the stack
    mov ax, 0300h
    int 31h
    mov ax, 4C00h               ; end with 0
    int 21h

first:
    db 'Reflected.', 13, 10, '$'
second:
    db 'Called.', 13, 10, '$'
structure:
    dd 0, 0, 0, 0, 0            ; EDI, ESI, EBP, 0, EBX
    dd second - code, 0, 0900h  ; EDX, ECX, EAX: print up to '$'
    dw 0, 0, 0, 0, 0            ; flags, ES, DS, FS, GS
    dw 0, 0, 0, 0               ; IP, CS; SP and SS 0: a stack of the host
end:
