;@ f-norun-16 -DW=16
;@ f-norun-32 -DW=32
; No run of free pages although the budget has enough: 8012h of 0501h and 0503h, and that
; 8021h and 8013h come before it and 8016h after it. Pairs of blocks of 1700 pages and more are
; made after all others; of each the first is freed and the second shrunk to one page, so that
; each hole is smaller than the next block. Words: --pages 4096.
%include "refuse.inc"
%macro PAGES 1                  ; BX:CX = that many pages
        mov ecx, %1
        shl ecx, 12
        mov ebx, ecx
        shr ebx, 16
%endmacro
ENTER_REFUSE
        mov ebp, 1700
.hop:   PAGES ebp
        SVC 0501h
        jc .end
        mov [first_one], di
        PAGES ebp
        SVC 0501h
        jc .end
        IS si, 0
        mov bx, 0
        mov cx, 1
        SVC 0503h
        OK '0503h to one page'
        mov di, [first_one]
        SVC 0502h
        OK '0502h'
        inc ebp
        jmp .hop
.end:   IS ax, 8012h            ; no run, 8012h
        mov esi, 0
        mov edi, 0DDDDDDDDh
        PAGES ebp
        REFUSED 8012h, 0501h
        mov ebx, 0              ; size 0, 8021h
        mov ecx, 0
        REFUSED 8021h, 0501h
        PAGES 4097              ; more pages than the budget has left, 8013h
        REFUSED 8013h, 0501h
        mov edi, 2              ; the first of the small ones
        PAGES ebp
        REFUSED 8012h, 0503h
        PAGES 4097
        REFUSED 8013h, 0503h
        mov ebx, 0
        mov ecx, 0
        REFUSED 8021h, 0503h
        mov edi, 600
        REFUSED 8023h, 0503h
        PAGES ebp
        REFUSED 8023h, 0503h
        PAGES 1702              ; its own page and the hole after it
        mov edi, 2
        SVC 0503h
        OK '0503h in place'
        mov bx, 0
        mov cx, 1
        SVC 0503h
        OK '0503h to one page'
.fill:  mov bx, 0               ; as many blocks as there may be
        mov cx, 1
        SVC 0501h
        jnc .fill
        IS ax, 8016h            ; greatest number of blocks held, 8016h
        mov ebx, 0
        mov ecx, 1
        REFUSED 8016h, 0501h
        PAGES ebp               ; no run, 8012h, comes first
        REFUSED 8012h, 0501h
        PAGES 4097
        REFUSED 8013h, 0501h
        mov ebx, 0
        mov ecx, 0
        REFUSED 8021h, 0501h
        EXIT 0
first_one: dw 0
REFUSE_FINISH
