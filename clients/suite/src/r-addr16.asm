; The 16-bit addressing forms. Each line: the form, the offset that LEA gives and a letter that
; shows which segment was read: D, S, E, C, F or G. Sums are taken modulo 65536.
%include "client.inc"
START
%macro A 1                      ; form
        %defstr %%s %1
        SAY %%s, ' '
        mov bx, 1234h
        mov si, 4321h
        mov di, 0F800h
        mov bp, 0FFF0h
        lea ax, [%1]
        mov dl, [%1]
        call hex4
        call letter
%endmacro
%macro G 2                      ; segment register and form
        %defstr %%s [%1:%2]
        SAY %%s, ' '
        mov bx, 1234h
        mov bp, 0FFF0h
        mov dl, [%1:%2]
        call letter
%endmacro
SEGS    equ 2000h
        mov ax, SEGS
        mov bx, letters
.fill:  mov es, ax
        mov edx, eax
        mov al, [cs:bx]
        mov ah, al
        push ax
        push ax
        pop eax
        inc bx
        xor di, di
        mov cx, 4000h
        rep stosd
        mov eax, edx
        add ah, 10h
        cmp ah, (SEGS >> 8) + 50h
        jne .fill
        mov ax, SEGS
        mov ds, ax
        add ah, 10h
        mov ss, ax
        mov sp, 8000h
        add ah, 10h
        mov es, ax
        add ah, 10h
        mov fs, ax
        add ah, 10h
        mov gs, ax
%assign i 0
%rep 3                          ; no displacement, a signed byte, a word
%if i == 0
 %define X +0
%elif i == 1
 %define X -80h
%else
 %define X +7654h
%endif
        A bx+si X
        A bx+di X
        A bp+si X
        A bp+di X
        A si X
        A di X
        A bp X
        A bx X
%assign i i+1
%endrep
        A 7FFFh
        A byte bp+7Fh
        A word bx+1
        A word bp+di+0FFFFh
        G es, bx
        G ss, bx
        G ds, bp+1
        G fs, bp+di
        G gs, 1234h
        mov bx, there
        mov al, [cs:bx]
        call putc
        mov bx, 1234h           ; a load by offset, and the table look-up of XLAT
        mov al, [8000h]
        call putc
        mov al, [es:8000h]
        call putc
        mov al, 3
        xlatb
        call putc
        mov al, 3
        gs xlatb
        call putc
        NL
        EXIT 0
letter: SAY ' '
        push ax
        mov al, dl
        call putc
        pop ax
        NL
        ret
letters: db 'DSEFG'
there:  db 'C'
FINISH
