; A lock count at 65535 is refused with 8021h; a byte that isn't there, 8025h, comes first.
%define W 16
%include "refuse.inc"
ENTER_REFUSE
        mov bx, 0
        mov cx, 2000h
        SVC 0501h
        OK '0501h of two pages'
        mov bp, 65535
        mov bx, 0040h
        mov cx, 0
        mov si, 0
        mov di, 1
.more:  SVC 0600h
        jc .end
        dec bp
        jnz .more
.end:   IS bp, 0
        mov ebx, 0040h
        mov ecx, 0
        mov esi, 0
        mov edi, 1
        REFUSED 8021h, 0600h
        mov ecx, 0FFFh
        mov edi, 2
        REFUSED 8021h, 0600h
        mov edi, 2000h
        REFUSED 8025h, 0600h
        mov ecx, 1000h          ; the other page's is 0 still
        mov edi, 1
        REFUSED 8021h, 0601h
        mov ecx, 0
        SVC 0601h
        OK '0601h'
        SVC 0600h
        OK '0600h'
        REFUSED 8021h, 0600h
        REFUSE_DONE
