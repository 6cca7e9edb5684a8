;@ w-status-16 -DW=16
;@ w-status-32 -DW=32
; 0B02h: AX = 1 where the watchpoint was hit since it was made or reset, else 0. An exception is due where a
; watchpoint with a clear status is hit, which sets it; two at one place; a freed one; the same handle made
; again.
%include "prot.inc"
%include "watch.inc"
%macro STATUS 2                 ; handle, AX
        mov bx, %1
        SVC 0B02h
        OK '0B02h'
        IS ax, %2
%endmacro
%macro RESET 1
        mov bx, %1
        SVC 0B03h
        OK '0B03h'
%endmacro
%macro COUNTED 2                ; exceptions so far, IP of the last
        IS word [hits], %1
        IS word [where], %2
%endmacro
ENTER_PROT
        WATCHING
        WATCH AT(cell), 4, 1
        IS word [handle], 1
        STATUS 1, 0
        mov ax, [cell]
        STATUS 1, 0
        mov [cell], ax
.a:     COUNTED 1, .a
        STATUS 1, 1
        STATUS 1, 1             ; asking doesn't reset
        mov [cell], ax          ; a hit while the status is set sets nothing
        mov [cell+2], ax
        COUNTED 1, .a
        RESET 1
        STATUS 1, 0
        RESET 1
        mov [cell+3], al
.b:     COUNTED 2, .b
        STATUS 1, 1
        ; two more: the second overlaps the first, the third begins after it
        WATCH AT(cell) + 2, 2, 2
        IS word [handle], 2
        WATCH AT(cell) + 4, 1, 2
        IS word [handle], 3
        STATUS 1, 1             ; making others leaves it
        RESET 1
        mov [cell+2], al        ; the first and the second: one exception
.c:     COUNTED 3, .c
        STATUS 1, 1
        STATUS 2, 1
        STATUS 3, 0
        mov [cell+1], eax       ; all three, but the third alone was clear
.d:     COUNTED 4, .d
        STATUS 3, 1
        RESET 2
        mov al, [cell+2]        ; the second alone
.e:     COUNTED 5, .e
        STATUS 2, 1
        RESET 1
        RESET 2
        RESET 3
        mov eax, [cell]         ; a read: the second
.f:     COUNTED 6, .f
        STATUS 1, 0
        STATUS 2, 1
        STATUS 3, 0
        mov eax, [cell+1]       ; the second is still set, the third is new
.g:     COUNTED 7, .g
        ; freed: no hit. The handle's next user starts clear
        RESET 1
        mov bx, 1
        SVC 0B01h
        OK '0B01h'
        mov [cell], al
        COUNTED 7, .g
        WATCH AT(other), 1, 1
        IS word [handle], 1
        STATUS 1, 0
        mov [cell], al
        COUNTED 7, .g
        mov [other], al
.h:     COUNTED 8, .h
        STATUS 1, 1
        mov bx, 1
        SVC 0B01h
        OK '0B01h'
        WATCH AT(other), 1, 1
        IS word [handle], 1
        STATUS 1, 0             ; made anew
        mov [other], al
.i:     COUNTED 9, .i
        ; one instruction that hits by its read and by its write
        RESET 2
        RESET 1
        mov word [other], 0
        RESET 1
        mov si, cell + 2
        mov di, other
        push ds
        pop es
        movsb
.j:     COUNTED 11, .j
        STATUS 1, 1
        STATUS 2, 1
        IS word [codes], 0      ; each with code 0
        EXIT 0
cell:   dd 0, 0
        dd 0
other:  dd 0
WATCH_PARTS
PROT_FINISH
