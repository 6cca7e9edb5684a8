;@ t-rep-16 -DW=16
;@ t-rep-32 -DW=32
; One repetition of a REP instruction is one round, so interrupts come between them, with the IP at
; the prefix; the strings are moved whole. Then what INT 21h prints by reflection stays whole, in 16- and
; 32-bit clients. Words: --timer 500.
%include "prot.inc"
ENTER_PROT
        cli
        push ds
        pop es
        mov bl, 08h
        mov cx, cs
        mov edx, handler
        SVC 0205h
        OK '0205h'
        mov di, 8000h
        mov cx, 4000
        mov ax, 0
.fill:  stosw
        inc ax
        loop .fill
        mov si, 8000h
        mov di, 0B000h
        mov cx, 4000
        sti
the_rep: rep movsw
        cli
        IS si, 8000h + 8000
        IS di, 0B000h + 8000
        cmp word [at_rep], 6
        jae many
        EXIT 90
many:    mov si, 8000h
        mov di, 0B000h
        mov cx, 4000
        repe cmpsw
        IS cx, 0
        IS word [si-2], 3999
        mov word [count], 0
        sti
        mov cx, 60
.say:   mov dl, 'a'
        mov ah, 02h
        int 21h
        loop .say
        cli
        IS dl, 'a'
        IS cx, 0
        cmp word [count], 0
        jne .some
        EXIT 91
.some:  EXIT 0
handler: push bp
        mov bp, sp
        inc word [count]
        cmp WORDW [bp+2], the_rep
        jne .other
        inc word [at_rep]
.other: pop bp
        sti
        xiret
count:  dw 0
at_rep: dw 0
PROT_FINISH
