;@ t-exit-push-16 -DW=16 -DCASE=1
;@ t-exit-push-32 -DW=32 -DCASE=1
;@ t-exit-load -DW=16 -DCASE=2
;@ t-exit-real -DW=16 -DCASE=3
;@ t-exit-rom -DW=16 -DCASE=4
;@ t-exit-code -DW=16 -DCASE=5
; Ends of a run by an interrupt 08h (words: --timer 500). In protected mode a fault of its push
; or load goes to the default exception handler: fault 0c or 0d. In real mode the push's own
; fault is the exit: 0c where SP is 1, 0e code 7 on a stack in the read-only bytes. t-exit-code: the
; real vector 08h leads to bytes that are HLT: fault 0d.
%include "prot.inc"
ENTER_PROT
        cli
        mov bl, 08h
%if CASE == 1
        mov cx, cs
        mov edx, timer
        SVC 0205h
        OK '0205h'
        mov cx, 1
        SVC 0000h
        mov si, ax              ; base 0, limit 0
        mov cx, 1000
        loop $
        mov ss, si
        mov sp, 0100h
        sti
        nop
        EXIT 1
%elif CASE == 2
        push bx
        mov bx, cs
        SVC 000Ah
        mov bx, ax
        mov cx, 00FBh
        SVC 0009h
        mov cx, bx
        mov si, bx
        pop bx
        mov edx, 0
        SVC 0205h
        OK '0205h'
        mov bx, si
        SVC 0001h
        OK '0001h'
        mov cx, 1000
        loop $
        sti
        nop
        EXIT 1
%elif CASE == 5
        mov cx, 0F800h
        mov dx, 0
        SVC 0201h
        OK '0201h'
        mov cx, 1000
        loop $
        sti
        nop
        EXIT 1
%else
        mov ax, [real_cs]
        mov si, ax
        mov cx, ax
 %if CASE == 3
        mov dx, 3000h
        mov ebx, 0001h
 %else
        mov dx, 0F000h
        mov ebx, 0800h
 %endif
        mov edi, real
        jmp 0087h:0320h
real:   mov cx, 1000
        loop $
        sti
        nop
        nop
        EXIT 1
%endif
timer:  xiret
PROT_FINISH
