;@ t-real -DCASE=1
;@ t-real-off -DCASE=2
;@ t-real-slow -DCASE=3
;@ t-real-calls -DCASE=4
; The timer in real mode: a handler at vector 08h that counts and goes on to the earlier one (F000h:0008h).
; t-real (words: --timer 1000): about 5480 rounds up to the end of the loop, so 5 interrupts.
; t-real-off (--timer 1000): with virtual interrupts disabled one waits, and only one. t-real-slow
; (--timer 1000): a first handler of 3000 rounds is itself not interrupted; the one that then
; waits comes before another instruction runs. t-real-calls (--timer 100): what INT 21h prints stays
; whole.
%include "client.inc"
%macro CHECK 3                  ; number, what is there, what must be there
        cmp %2, %3
        je %%good
        mov ax, 4C00h + %1
        int 21h
%%good:
%endmacro
START
        push cs
        pop ds
        mov ax, 3508h
        int 21h
        mov [old], bx
        mov [old+2], es
        CHECK 1, bx, 0008h
        mov ax, es
        CHECK 2, ax, 0F000h
        mov dx, handler
        mov ax, 2508h
        int 21h
        mov ax, 1234h
        mov bx, 5678h
        push word 0ED7h         ; all flags
        popf
        mov word [count], 0
%if CASE == 1
        mov cx, 5300
.l:     loop .l
        mov dx, [count]
        pushf
        pop cx
        cld
        CHECK 3, dx, 5
        CHECK 4, cx, 0ED7h      ; IRET brings flags and interrupt flag back
        CHECK 5, ax, 1234h
        CHECK 6, bx, 5678h
        CHECK 7, sp, 0100h
        CHECK 8, word [in_flags], 0ED7h ; the image has IF = 1
        CHECK 9, word [inner_flags], 0CD7h ; in the handler it is disabled
        CHECK 10, word [in_sp], 00FAh
        mov ax, cs
        CHECK 11, word [in_cs], ax
%elif CASE == 2
        cli
        mov cx, 3000
.l:     loop .l
        mov dx, [count]
        CHECK 3, dx, 0
        sti                     ; it comes before the next instruction
.i:     mov dx, [count]
        CHECK 4, dx, 1
        CHECK 5, word [in_ip], .i
        nop
        nop
        mov dx, [count]
        CHECK 6, dx, 1
        cli
        mov cx, 3000
.m:     loop .m
        push word 0202h         ; POPF enables them in real mode
        popf
.j:     mov dx, [count]
        CHECK 7, dx, 2
        CHECK 8, word [in_ip], .j
        cli                     ; INT clears IF, IRET sets it again
        mov cx, 3000
.n:     loop .n
        mov dx, [count]
        CHECK 9, dx, 2
        push word 0202h
        push cs
        push word .k
        iret
.k:     mov dx, [count]
        CHECK 10, dx, 3
        CHECK 11, word [in_ip], .k
%elif CASE == 3
        mov word [slow], 3000   ; rounds that the first one takes
        mov cx, 2500
.l:     loop .l
        CHECK 3, word [most], 1 ; never one within the other
        mov dx, [second_ip]     ; the one that waited came before another instruction ran
        CHECK 4, word [first_ip], dx
        CHECK 5, word [first_cx], 1
        cmp word [count], 3
        jae .ok
        EXIT 6
.ok:
%else
        mov cx, 20
.l:     SAY 'text and '
        loop .l
        NL
        cmp word [count], 20
        ja .ok
        EXIT 4
.ok:
%endif
        EXIT 0
handler: push bp
        mov bp, sp
        push ax
        mov ax, [bp+2]
        mov [cs:in_ip], ax
        mov ax, [bp+4]
        mov [cs:in_cs], ax
        mov ax, [bp+6]
        mov [cs:in_flags], ax
        lea ax, [bp+2]
        mov [cs:in_sp], ax
        pushf
        pop word [cs:inner_flags]
        inc word [cs:count]
        inc word [cs:depth]
        mov ax, [cs:depth]
        cmp ax, [cs:most]
        jbe .less
        mov [cs:most], ax
.less:  cmp word [cs:count], 1
        jne .no1
        mov [cs:first_cx], cx
        mov ax, [bp+2]
        mov [cs:first_ip], ax
.no1:   cmp word [cs:count], 2
        jne .no2
        cmp [cs:first_cx], cx
        mov word [cs:first_cx], 0
        jne .no2
        mov word [cs:first_cx], 1
        mov ax, [bp+2]
        mov [cs:second_ip], ax
.no2:   push cx
        mov cx, 1
        xchg cx, [cs:slow]
.more:  loop .more
        pop cx
        dec word [cs:depth]
.end:   pop ax
        pop bp
        jmp far [cs:old]
old:    dd 0
count:  dw 0
depth:  dw 0
most:   dw 0
slow:   dw 1
first_ip: dw 0
second_ip: dw 0
first_cx: dw 0
in_ip:  dw 0
in_cs:  dw 0
in_flags: dw 0
in_sp:  dw 0
inner_flags: dw 0
        FINISH
