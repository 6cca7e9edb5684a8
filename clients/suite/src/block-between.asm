;@ block-between-16 -DW=16
;@ block-between-32 -DW=32
; Three blocks of a page each, of which the middle one is locked, in a budget with room for all.
; Expected: the middle one grows; it can't do so where it is, so it moves to the first run of free pages after the last one, where its own
; page would count as held, and its lock moves with it. Then the first grows where it is, since the middle one's page is free. The last one,
; now between the two, grows and moves; it shrinks where it is, and its former place goes to a new block. Each check that fails gives the
; exit code.
%include "refuse.inc"
%macro REGION 2                 ; linear address, bytes: BX:CX and SI:DI
        mov bx, (%1) >> 16
        mov cx, (%1) & 0FFFFh
        mov si, (%2) >> 16
        mov di, (%2) & 0FFFFh
%endmacro
%macro GET 3                    ; 0501h of a number of bytes gives that address and handle
        mov bx, (%1) >> 16
        mov cx, (%1) & 0FFFFh
        mov si, 0
        mov di, 0
        SVC 0501h
        OK '0501h'
        AT %2, %3
%endmacro
%macro SIZE 3                   ; 0503h of a handle and a number of bytes gives that address, with the handle
        REGION %2, %1
        SVC 0503h
        OK '0503h'
        AT %3, %1
%endmacro
%macro AT 2
        IS bx, (%1) >> 16
        IS cx, (%1) & 0FFFFh
        IS si, 0
        IS di, %2
%endmacro
ENTER_REFUSE
        GET 1, 00400000h, 1
        GET 1, 00401000h, 2
        GET 1, 00402000h, 3
        REGION 00401000h, 1
        SVC 0600h
        OK '0600h of the middle one'
        AT 00401000h, 1
        SIZE 2, 1001h, 00403000h
        REGION 00401000h, 1
        REFUSED 8025h, 0601h    ; nothing is there
        REGION 00404000h, 1
        REFUSED 8021h, 0601h    ; its second page isn't locked
        REGION 00403000h, 1
        SVC 0601h
        OK '0601h where it is now'
        REFUSED 8021h, 0601h    ; it was locked once
        SIZE 1, 1001h, 00400000h
        SIZE 3, 1001h, 00405000h
        SIZE 3, 1, 00405000h
        GET 1, 00402000h, 4
        REFUSE_DONE
