;@ block-locks-16 -DW=16 -DCASE=1
;@ block-locks-32 -DW=32 -DCASE=1
;@ block-locks-refused-16 -DW=16 -DCASE=2
;@ block-locks-refused-32 -DW=32 -DCASE=2
; Locks at the borders of two blocks that lie side by side: one of two pages at 00400000h and one of a page at 00402000h.
; block-locks. Expected: two bytes at the border touch the last page of the one and the page of the other, and lock both. Half a page is
; locked as the whole of it, and its neighbour isn't. 0 bytes lock nothing, and may be anywhere.
; block-locks-refused. Expected: a range that wraps past FFFFFFFFh or ends a byte past the block, or past 10FFFFh, is refused with 8025h;
; and then nothing of it is locked, so that an unlock is refused with 8021h.
%include "refuse.inc"
%macro REGION 2                 ; linear address, bytes: BX:CX and SI:DI
        mov bx, (%1) >> 16
        mov cx, (%1) & 0FFFFh
        mov si, (%2) >> 16
        mov di, (%2) & 0FFFFh
%endmacro
%macro CLEAR 3                  ; service, address, bytes: it is served, and changes no register
        REGION %2, %3
        SVC %1
        OK %1
        IS bx, (%2) >> 16
        IS cx, (%2) & 0FFFFh
        IS si, (%3) >> 16
        IS di, (%3) & 0FFFFh
%endmacro
%macro REF 4                    ; service, number, address, bytes: it is refused
        REGION %3, %4
        REFUSED %2, %1
%endmacro
%macro GET 3
        mov bx, (%1) >> 16
        mov cx, (%1) & 0FFFFh
        SVC 0501h
        OK '0501h'
        IS bx, (%2) >> 16
        IS cx, (%2) & 0FFFFh
        IS si, 0
        IS di, %3
%endmacro
ENTER_REFUSE
        GET 2000h, 00400000h, 1
        GET 1000h, 00402000h, 2
%if CASE == 1
        CLEAR 0600h, 00401FFFh, 2
        REF 0601h, 8021h, 00400000h, 1
        CLEAR 0601h, 00401000h, 1
        REF 0601h, 8021h, 00401000h, 1
        CLEAR 0601h, 00402FFFh, 1
        REF 0601h, 8021h, 00402FFFh, 1
        CLEAR 0600h, 00400800h, 0800h
        REF 0601h, 8021h, 00401000h, 1
        REF 0601h, 8021h, 00400000h, 1001h
        CLEAR 0601h, 00400000h, 1
        CLEAR 0600h, 00400000h, 0
        REF 0601h, 8021h, 00400000h, 1
        CLEAR 0600h, 0FFFFFFFFh, 0
        CLEAR 0602h, 0FFFFFFFFh, 0
        CLEAR 0703h, 0FFFFFFFFh, 0
%else
        REF 0600h, 8025h, 0FFFFFFFFh, 2
        REF 0600h, 8025h, 0FFFFF000h, 2000h
        REF 0600h, 8025h, 00400000h, 0FFFFFFFFh
        REF 0600h, 8025h, 00402FFFh, 2
        REF 0600h, 8025h, 003FFFFFh, 2
        REF 0600h, 8025h, 0010FFFFh, 2
        CLEAR 0600h, 0010FFFFh, 1
        REF 0601h, 8021h, 00400000h, 1
        REF 0601h, 8021h, 00402FFFh, 1
        REF 0602h, 8025h, 0FFFFFFFFh, 2
        REF 0702h, 8025h, 00402FFFh, 2
        REF 0703h, 8025h, 00402FFFh, 2
        REF 0703h, 8025h, 0FFFFFFFFh, 2
%endif
        REFUSE_DONE
