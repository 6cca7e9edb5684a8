;@ w-sixteen-16 -DW=16
;@ w-sixteen-32 -DW=32
; Sixteen watchpoints on one word, all hit by one instruction: one exception, each status 1. Then
; one of them is reset, and one more exception comes. A watchpoint of type 0 and one of type 1 that
; one instruction hits: one exception.
%include "prot.inc"
%include "watch.inc"
ENTER_PROT
        WATCHING
        mov bp, 16
.make:  mov bx, 0
        mov cx, AT(cell)
        mov dx, 0102h
        SVC 0B00h
        OK '0B00h'
        dec bp
        jnz .make
        SVC 0B00h
        NO '0B00h of a seventeenth'
        IS ax, 8016h
        mov [cell+1], al
.a:     IS word [hits], 1
        IS word [where], .a
        mov cx, 16
        mov di, 0
.ask:   mov bx, cx
        SVC 0B02h
        OK '0B02h'
        add di, ax
        loop .ask
        IS di, 16
        mov bx, 16
        SVC 0B03h
        OK '0B03h'
        mov [cell], al
.b:     IS word [hits], 2
        IS word [where], .b
        mov bx, 16
        SVC 0B01h
        OK '0B01h'
        mov bx, 0
        mov cx, AT(.i)
        mov dx, 0001h
        SVC 0B00h
        OK '0B00h'
        IS bx, 16
        mov bx, 7
        SVC 0B03h
        OK '0B03h'
.i:     inc word [cell]
.c:     IS word [hits], 3
        IS word [where], .c
        mov bx, 7
        SVC 0B02h
        OK '0B02h'
        IS ax, 1
        mov bx, 16
        SVC 0B02h
        OK '0B02h'
        IS ax, 1
        mov cx, 16
.free:  mov bx, cx
        SVC 0B01h
        OK '0B01h'
        loop .free
        inc word [cell]
        IS word [hits], 3
        EXIT 0
        times 8 db 0
cell:   dd 0
        times 8 db 0
WATCH_PARTS
PROT_FINISH
