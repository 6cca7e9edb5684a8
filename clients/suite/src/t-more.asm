;@ t-again-16 -DW=16 -DCASE=1
;@ t-again-32 -DW=32 -DCASE=1
;@ t-nine-16 -DW=16 -DCASE=2
;@ t-nine-32 -DW=32 -DCASE=2
;@ t-trap-16 -DW=16 -DCASE=3
;@ t-trap-32 -DW=32 -DCASE=3
;@ t-jump-16 -DW=16 -DCASE=4
;@ t-jump-32 -DW=32 -DCASE=4
; t-again: 0205h gives vector 08h its default value back, and it is reflected again. t-nine: vector
; 08h is 0087h:0209h, which is pushed and loaded, and reflects 09h: the virtual flag stays off after
; it. t-trap (words: --timer 41): interrupts at traps: 0087h:0231h is then the frame's CS:IP, and every
; service is right. t-jump: a vector in an alias of the code; its IRET goes back.
%include "prot.inc"
ENTER_PROT
        cli
        push ds
        pop es
        mov bl, 08h
        mov cx, [real_cs]
        mov dx, real8
        SVC 0201h
        OK '0201h'
        mov bl, 09h
        mov dx, real9
        SVC 0201h
        OK '0201h'
%if CASE == 1
        mov bl, 08h
        SVC 0204h
        OK '0204h'
        IS cx, 0087h
        IS dx, 0208h
        mov si, cx
        mov edi, edx
        mov cx, cs
        mov edx, prot8
        SVC 0205h
        OK '0205h'
        call wait_for
        IS word [count_8], 0
        IS word [count_p], 1
        mov cx, si
        mov edx, edi
        SVC 0205h
        OK '0205h'
        call wait_for
        IS word [count_8], 1
        IS word [count_p], 1
        SVC 0902h
        OK '0902h'
        IS ax, 0901h            ; a reflection brings it back
        EXIT 0
%elif CASE == 2
        mov bl, 08h
        mov cx, 0087h
        mov edx, 0209h
        SVC 0205h
        OK '0205h'
        call wait_for
        IS word [count_8], 0
        IS word [count_9], 1
        SVC 0902h
        OK '0902h'
        IS ax, 0900h
        EXIT 0
%elif CASE == 3
        mov bl, 08h
        mov cx, cs
        mov edx, prot8
        SVC 0205h
        OK '0205h'
        sti
        mov bp, 400
.more:  mov eax, 0ABCD0006h
        mov bx, 0217h
        mov cx, 0CCCCh
        int 31h
        jc .bad
        cmp eax, 0ABCD0006h
        jne .bad
        cmp dx, 0740h
        jne .bad
        cmp cx, 0
        jne .bad
        mov bx, 0
        mov ax, 0006h
        int 31h
        jnc .bad
        cmp ax, 8022h
        jne .bad
        sti
        dec bp
        jnz .more
        cli
        cmp word [at_trap], 10
        ja .enough
        EXIT 90
.bad:   EXIT 91
.enough: IS word [bad_cs], 0
        EXIT 0
%else
        mov bx, cs
        SVC 000Ah
        OK '000Ah'
        mov bx, ax
        mov cx, 0
        mov dx, 0740h + 8       ; offsets are eight less
        SVC 0007h
        OK '0007h'
        mov cx, 00FBh
        SVC 0009h
        OK '0009h'
        mov [alias], bx
        mov cx, bx
        mov bl, 08h
        mov edx, far8 - 8
        SVC 0205h
        OK '0205h'
        call wait_for
        IS word [count_p], 1
        mov ax, [alias]
        IS word [in_cs], ax
        EXIT 0
%endif
wait_for: cli
        mov cx, 1000
        loop $
        sti
        ret                     ; before this it comes
real8:  inc word [cs:count_8]
        iret
real9:  inc word [cs:count_9]
        iret
prot8:  push bp
        mov bp, sp
        inc word [count_p]
        cmp WORDW [bp+2], 0231h
        jne .other
        inc word [at_trap]
        cmp word [bp+2+ITEM], 0087h
        je .other
        inc word [bad_cs]
.other: pop bp
%if CASE == 3
        sti
%endif
        xiret
far8:   mov [in_cs], cs
        inc word [count_p]
        xiret
count_8: dw 0
count_9: dw 0
count_p: dw 0
at_trap: dw 0
bad_cs: dw 0
in_cs:  dw 0
alias:  dw 0
PROT_FINISH
