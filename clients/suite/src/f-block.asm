;@ f-block-16 -DW=16
;@ f-block-32 -DW=32
;@ f-pages -DW=16 -DPAGES=16
; 0500h to 0503h refused: the number of each reason and their order, but for 8012h and 8016h (f-norun, f-handles).
; f-pages has a budget of 16 pages: 0501h of 65,536 bytes is clear, of 1 byte gives 8013h. After 0502h of handle 1 the same block is made
; again. Nothing was written into it: that used pages come back with zeros is shown by block-grown and m-blocks, which write first.
%include "refuse.inc"
%ifndef PAGES
 %define PAGES 1024
%endif
%macro BYTES 1
        mov ebx, 0BBBB0000h + (((%1) >> 16) & 0FFFFh)
        mov ecx, 0CCCC0000h + ((%1) & 0FFFFh)
%endmacro
%macro HANDLE 2
        mov esi, 51510000h + (%1)
        mov edi, 0D1D10000h + (%2)
%endmacro
all     equ PAGES * 1000h
ENTER_REFUSE
        push ds
        pop es
        mov edi, 0FFD1h         ; 30h bytes not writable, 8025h
        REFUSED 8025h, 0500h
        push cs
        pop es
        mov edi, 8000h
        REFUSED 8025h, 0500h
        push word 0
        pop es
        REFUSED 8025h, 0500h
        push ds
        pop es
        HANDLE 0, 9
        BYTES 0
        REFUSED 8021h, 0501h    ; size 0, 8021h
        BYTES all + 1
        REFUSED 8013h, 0501h    ; more pages than the budget has left, 8013h
        BYTES 0FFFFFFFFh
        REFUSED 8013h, 0501h
        BYTES 80000000h
        REFUSED 8013h, 0501h
        ; SI:DI not held, 8023h
        REFUSED 8023h, 0502h    ; handle 9 with no block
        HANDLE 0, 0
        REFUSED 8023h, 0502h
        REFUSED 8023h, 0503h
        HANDLE 0FFFFh, 0FFFFh
        REFUSED 8023h, 0502h
        BYTES 0                 ; and size 0, or a growth above the budget
        REFUSED 8023h, 0503h
        HANDLE 0, 1
        REFUSED 8023h, 0503h
        BYTES all
        SVC 0501h
        OK '0501h of all'
        IS di, 1
        BYTES 1
        REFUSED 8013h, 0501h
        BYTES 0
        REFUSED 8021h, 0501h
        HANDLE 0, 1
        REFUSED 8021h, 0503h    ; size 0, 8021h
        BYTES all + 1
        REFUSED 8013h, 0503h    ; a growth above what is left, 8013h
        BYTES 0FFFFFFFFh
        REFUSED 8013h, 0503h
        HANDLE 1, 1             ; handle 10001h
        REFUSED 8023h, 0503h
        REFUSED 8023h, 0502h
        HANDLE 0, 2
        REFUSED 8023h, 0502h
        HANDLE 0, 1
        BYTES 1000h
        SVC 0503h
        OK '0503h'
        IS ax, 0503h
        BYTES all
        REFUSED 8013h, 0501h
        HANDLE 0, 1
        SVC 0502h
        OK '0502h'
        IS ax, 0502h
        REFUSED 8023h, 0502h
        BYTES all
        SVC 0501h
        OK '0501h once more'
        IS ax, 0501h
        REFUSED 8001h, 0504h
        REFUSED 8001h, 0505h
        REFUSED 8001h, 05FFh
        REFUSE_DONE
