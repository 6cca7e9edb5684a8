; BOUND with a handler for exception 5 that prints '!' and goes on after the instruction.
%include "client.inc"
START
%macro B 1+                     ; instruction on EAX and [cs:pair]
        %defstr %%s %1
        SAY %%s, ' '
        H8 eax
        mov word [cs:next], %%n
        %1
        SAY ' in'
%%n:    NL
%endmacro
        push cs
        pop ds
        mov dx, five
        mov ax, 2505h
        int 21h
%macro BB 3                     ; 16-bit value, lower, upper
        mov dword [cs:pair], ((%3) & 0FFFFh) << 16 | ((%2) & 0FFFFh)
        mov eax, (%1) & 0FFFFh
        B bound ax, [cs:pair]
%endmacro
        BB 5, 5, 5
        BB 4, 5, 6
        BB 7, 5, 6
        BB -1, -2, 0
        BB -3, -2, 0
        BB 7FFFh, 8000h, 7FFFh
        BB 0, 1, 0
        mov dword [cs:pair], -10
        mov dword [cs:pair+4], 00020000h
        mov eax, 0001FFFFh
        B bound eax, [cs:pair]
        mov eax, 00020001h
        B bound eax, [cs:pair]
        EXIT 0
five:   push bp
        mov bp, sp
        push ax
        mov ax, [cs:next]
        mov [bp+2], ax
        SAY '!'
        pop ax
        pop bp
        iret
pair:   dd 0, 0
next:   dw 0
FINISH
