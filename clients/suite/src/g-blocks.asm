;@ g-blocks-16 -DW=16
;@ g-blocks-32 -DW=32
; With --pages 513, 512 calls of 0501h for 1 byte give the handles 1 to 512, and the next is refused with
; AX = 8016h.
%include "prot.inc"
%include "flat.inc"
%macro ONE 0
        mov bx, 0
        mov cx, 1
        SVC 0501h
%endmacro
ENTER_PROT
        FLAT
        mov bp, 1
        mov dx, 0040h           ; address, high word
        mov word [low_is], 0
.more:  ONE
        OK '0501h'
        IS di, bp
        IS si, 0
        IS bx, dx
        IS cx, [low_is]
        movzx esi, bx
        shl esi, 16
        mov si, cx
        mov [fs:esi], bp
        mov si, 0
        add word [low_is], 1000h
        adc dx, 0
        inc bp
        cmp bp, 513
        jne .more
        ONE
        NO '0501h of a 513th'
        IS ax, 8016h
        mov bx, 0
        mov cx, 1001h           ; above the budget: that comes first
        SVC 0501h
        NO '0501h of two pages'
        IS ax, 8013h
        mov esi, 00400000h      ; each holds its number
        mov bp, 1
.check: IS word [fs:esi], bp
        add esi, 1000h
        inc bp
        cmp bp, 513
        jne .check
        mov si, 0
        mov di, 513
        SVC 0502h
        NO '0502h of 513'
        IS ax, 8023h
        mov di, 512
        mov bx, 0
        mov cx, 2000h           ; the last one grows by the last page
        SVC 0503h
        OK '0503h'
        IS bx, 005Fh
        IS cx, 0F000h
        mov di, 257
        SVC 0502h
        OK '0502h of 257'
        ONE
        OK '0501h'
        IS di, 257
        IS bx, 0050h
        IS cx, 0
        mov esi, 00500000h
        IS word [fs:esi], 0
        mov si, 0
        mov di, 300
        SVC 0502h
        OK '0502h of 300'
        mov di, 512
        SVC 0502h
        OK '0502h of 512'
        mov di, 512
        SVC 0502h
        NO '0502h again'
        ONE
        OK '0501h'
        IS di, 300
        ONE
        OK '0501h'
        IS di, 512
        ONE
        NO '0501h'
        IS ax, 8016h
        EXIT 0
low_is: dw 0
PROT_FINISH
