;@ f-clear-16 -DW=16
;@ f-clear-32 -DW=32
; A service that is clear changes AX only where AX is an output. The refusals in between have their
; numbers.
%include "refuse.inc"
%macro KEEPS 1
        mov eax, 0ABCD0000h + (%1)
        int 31h
        OK 'clear'
        IS eax, 0ABCD0000h + (%1)
%endmacro
ENTER_REFUSE
        push ds
        pop es
        mov cx, 1
        mov eax, 0ABCD0000h
        int 31h
        OK '0000h'
        IS eax, 0ABCD022Fh
        mov ebx, 022Fh
        mov ecx, 1
        mov edx, 2000h
        KEEPS 0007h
        KEEPS 0008h
        KEEPS 0006h
        IS cx, 1
        IS dx, 2000h
        mov cx, 00F3h
        KEEPS 0009h
        mov edi, 8000h
        KEEPS 000Bh
        KEEPS 000Ch
        mov bx, 0007h
        KEEPS 000Dh
        REFUSED 8011h, 000Dh
        KEEPS 0001h
        REFUSED 8022h, 0001h
        mov bl, 60h
        KEEPS 0200h
        KEEPS 0201h
        mov bl, 1
        KEEPS 0202h
        KEEPS 0203h
        KEEPS 0204h
        KEEPS 0205h
        mov bl, 20h
        REFUSED 8021h, 0202h
        push cs
        pop ds
        mov esi, 0
        KEEPS 0303h
        push es
        pop ds
        KEEPS 0304h
        REFUSED 8024h, 0304h
        KEEPS 0306h
        push ds
        pop es
        mov edi, 8000h
        KEEPS 0500h
        mov ebx, 0
        mov ecx, 1000h
        KEEPS 0501h
        mov ebx, 0
        mov ecx, 2000h
        KEEPS 0503h
        mov si, 0
        mov di, 1
        KEEPS 0600h
        KEEPS 0601h
        REFUSED 8021h, 0601h
        KEEPS 0604h
        mov bx, 0040h
        mov cx, 0
        KEEPS 0702h
        KEEPS 0703h
        mov si, 0
        mov di, 1
        KEEPS 0502h
        REFUSED 8023h, 0502h
        REFUSE_DONE
