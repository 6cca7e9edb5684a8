;@ w-default-16 -DW=16 -DCASE=1
;@ w-default-32 -DW=32 -DCASE=1
;@ w-deep-16 -DW=16 -DCASE=2
;@ w-deep-32 -DW=32 -DCASE=2
;@ w-trap-16 -DW=16 -DCASE=3
;@ w-trap-32 -DW=32 -DCASE=3
;@ w-last -DW=16 -DCASE=4
;@ w-bound-real -DW=16 -DCASE=5
;@ w-lost -DW=16 -DCASE=6
;@ w-endless -DW=32 -DCASE=7
; Ends of a run by watchpoints. 1: a hit without a handler. 2: a hit at depth 32 is deep. 3: a jump to the
; trap of INT 31h is hit: the exception comes before the trap, with its CS:IP, and the service
; after it. 4: a hit in real mode before the end never comes: exit 0. 5: nor while real mode runs
; to the bound (words: --bound 3000). 6: a handler in a selector that was freed: fault 01. 7: a
; handler that resets the watchpoint is called again and again: bound (words: --bound 20000).
%include "prot.inc"
%define AT(x) (0740h + (x) - first)
%macro WATCH 3
        mov bx, 0
        mov cx, AT(%1)
        mov dx, (%2) + 100h * (%3)
        SVC 0B00h
        OK '0B00h'
%endmacro
%macro HANDLER 2
        mov bl, %1
        mov cx, cs
        mov edx, %2
        SVC 0203h
        OK '0203h'
%endmacro
%macro REAL 1                   ; a raw switch to real mode
        mov ax, [real_cs]
        mov si, ax
        mov cx, ax
        mov dx, 3000h
        mov ebx, 0800h
        mov edi, %1
        jmp 0087h:0320h
%endmacro
ENTER_PROT
%if CASE == 1
        WATCH cell, 2, 2
        cmp byte [cell+1], 0
        EXIT 1
%elif CASE == 2
        HANDLER 0Dh, nest
        HANDLER 1, counts
        WATCH cell, 2, 1
        hlt
        EXIT 1
nest:   inc word [level]
        cmp word [level], 32
        je .deep
        hlt
.deep:  mov [cell], ax          ; depth 32
        nop
        EXIT 2
counts: EXIT 3
level:  dw 0
%elif CASE == 3
        HANDLER 1, counts
        WATCH jumps, 1, 0
        push WORDW 0202h        ; a frame for the trap
%if W == 16
        push word 0207h
        push word behind
%else
        push dword 0207h
        push dword behind
%endif
        mov ax, 0400h
        mov bx, 0
jumps:  jmp 0087h:0231h
behind: OK '0400h'
        IS bx, 1
        IS word [level], 1
        EXIT 0
counts: mov bp, sp
        IS WORDW [bp+3*ITEM], 0231h
        IS word [bp+4*ITEM], 0087h
        IS bx, 0                ; not served yet
        inc word [level]
        xretf
level:  dw 0
%elif CASE == 4
        WATCH cell, 2, 1
        REAL real
real:   mov [cell], ax
        mov ax, 4C00h
        int 21h
%elif CASE == 5
        WATCH cell, 2, 1
        REAL real
real:   inc word [cell]
        jmp real
%elif CASE == 6
        mov bx, cs
        SVC 000Ah
        mov bx, ax
        mov cx, 00FBh
        SVC 0009h
        OK '0009h'
        mov bp, bx
        mov cx, bx
        mov bl, 1
        mov dx, 0
        SVC 0203h
        OK '0203h'
        mov bx, bp
        SVC 0001h
        OK '0001h'
        WATCH cell, 2, 1
        mov [cell], ax
        EXIT 1
%else
        HANDLER 1, resets
        WATCH ever, 1, 0
ever:   jmp ever
resets: mov bx, 1
        SVC 0B03h
        inc word [cell]
        xretf
%endif
        times 8 db 0
cell:   dw 0
PROT_FINISH
