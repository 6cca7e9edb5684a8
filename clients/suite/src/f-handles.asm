;@ f-handles-16 -DW=16
;@ f-handles-32 -DW=32
; The greatest number of blocks held is refused with 8016h, after 8021h and 8013h; what 0502h gives back.
%include "refuse.inc"
ENTER_REFUSE
.fill:  mov bx, 0
        mov cx, 1
        SVC 0501h
        jnc .fill
        IS ax, 8016h
        mov esi, 0
        mov ebx, 0
        mov ecx, 1000h
        REFUSED 8016h, 0501h
        mov ebx, 8              ; 128 pages
        REFUSED 8016h, 0501h
        mov ebx, 0
        mov ecx, 0              ; size 0, 8021h
        REFUSED 8021h, 0501h
        mov ebx, 0040h          ; 1024 pages, more than are left, 8013h
        REFUSED 8013h, 0501h
        mov edi, 0
        REFUSED 8023h, 0502h
        mov edi, 0FFFFh
        REFUSED 8023h, 0502h
        mov edi, 7
        mov ebx, 0              ; a growth asks for no handle
        mov ecx, 2000h
        SVC 0503h
        OK '0503h'
        mov edi, 100
        SVC 0502h
        OK '0502h'
        REFUSED 8023h, 0502h
        mov ebx, 0
        mov ecx, 1
        SVC 0501h
        OK '0501h'
        IS di, 100
        mov ebx, 0
        mov ecx, 1
        REFUSED 8016h, 0501h
        REFUSE_DONE
