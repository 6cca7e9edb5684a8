; Own handlers: what lies on the stack, the interrupt flag, INT 3, INTO, nested interrupts,
; IRET with changed flags and IP, and IRET with 32 bits.
%include "client.inc"
START
%macro HOOK 2                   ; number, handler
        mov dx, %2
        mov ax, 2500h + %1
        int 21h
%endmacro
        push cs
        pop ds
        HOOK 60h, show
        HOOK 03h, show
        HOOK 04h, show
        HOOK 61h, nest
        HOOK 62h, change
        mov bp, .a
        int 60h
.a:     FL
        cli
        mov bp, .b
        int 60h
.b:     FL
        push word 0ED7h
        popf
        mov bp, .c
        int 60h
.c:     FL
        cld
        mov bp, .d
        int3
.d:     mov bp, .e
        db 0CDh, 3              ; INT 3 with two bytes
.e:     mov bp, .f
        push word 0202h         ; INTO with OF clear does nothing
        popf
        into
.f:     push word 0A02h
        popf
        mov bp, .over
        into
.over:  FL
        mov bp, .g
        int 61h
.g:     FL
        int 62h
        SAY 'passed over '
        FL
        cld
        ; IRET of 32 bits: three doublewords, the high halves of CS and flags passed over
        push dword 0FFFF0A93h
        mov ax, cs
        or eax, 0ABCD0000h
        push eax
        push dword .h
        o32 iret
        SAY 'not printed'
.h:     FL
        VSP
        NL
        EXIT 0
show:   push bp                 ; IP less the expected one, CS less the present one, flags
        pushf
        mov bx, bp
        mov bp, sp
        mov ax, [bp+4]
        sub ax, bx
        H4 ax
        SAY ' '
        mov ax, [bp+6]
        mov bx, cs
        sub ax, bx
        H4 ax
        SAY ' '
        H4 [bp+8]
        SAY ' inside '
        popf
        FL
        pop bp
        iret
nest:   SAY '('
        mov bp, .back
        int 60h
.back:  SAY ')'
        iret
change: mov bp, sp
        add word [bp], 16       ; over the text, which is a call, twelve letters and a zero
        mov word [bp+4], 0ED5h
        iret
FINISH
