; ENTER at levels 0, 1, 2, 3 and 35 (taken modulo 32) at 16 and 32 bits, and LEAVE. The frames lie
; apart: the saved frame pointers lie below SS:0080h, the new frame at the end of the stack.
%include "client.inc"
START
%macro E 2                      ; bytes, level
        %defstr %%s enter %1, %2
        SAY %%s, ': '
        call fresh
        mov bp, 0080h
        enter %1, %2
        call frame
%endmacro
%macro E32 2
        %defstr %%s o32 enter %1, %2
        SAY %%s, ': '
        call fresh
        mov ebp, 00000080h
        o32 enter %1, %2
        call frame
%endmacro
        mov ax, ss              ; saved frame pointers in the words below SS:0080h
        mov es, ax
        mov di, 0
        mov ax, 0A000h
.fill:  stosw
        inc ax
        cmp di, 0080h
        jne .fill
        E 0, 0
        E 10h, 0
        E 4, 1
        E 4, 3
        E 2, 35
        E32 0, 0
        E32 8, 1
        E32 4, 2
        mov bp, 00F0h           ; LEAVE
        mov word [bp], 4321h
        leave
        V4 bp
        VSP
        mov sp, 100h
        mov ebp, 000000E0h
        mov dword [bp], 87654321h
        o32 leave
        V8 ebp
        VSP
        NL
        mov sp, 100h
        EXIT 0
fresh:  mov si, 0080h           ; what the stack has where nothing is pushed
.next:  mov word [ss:si], 0EEEEh
        inc si
        inc si
        cmp si, 00FEh
        jne .next
        ret
frame:  pop bx                  ; prints SP, BP and the words from BP down to SP
        mov cx, sp
        V8 ebp
        SAY 'sp='
        H4 cx
        SAY ': '
        mov si, 00FEh
.next:  H4 [ss:si]
        SAY ' '
        dec si
        dec si
        cmp si, cx
        jae .next
        NL
        mov sp, 100h
        jmp bx
FINISH
