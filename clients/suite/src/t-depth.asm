;@ t-depth-16 -DW=16
;@ t-depth-32 -DW=32
;@ t-depth-default-16 -DW=16 -DDEFAULT
;@ t-depth-default-32 -DW=32 -DDEFAULT
; An interrupt 08h that waits is taken where virtual interrupts are enabled, and the mode is real or the
; depth is below 32. At depth 32 in protected mode it isn't taken, so the run doesn't end as deep; at
; depth 31 it is, by the client's vector or, with DEFAULT, by reflection; at depth 32 in real mode it is.
; Words: --timer 500.
%include "prot.inc"
struct  equ 0E000h
%macro WAIT 0
        mov cx, 1000
        loop $
%endmacro
ENTER_PROT
        cli
        push ds
        pop es
        mov bl, 08h
        mov cx, [real_cs]
        mov dx, real8
        SVC 0201h
        OK '0201h'
%ifndef DEFAULT
        mov cx, cs
        mov edx, prot8
        SVC 0205h
        OK '0205h'
%endif
        mov bl, 0Dh
        mov cx, cs
        mov edx, handler
        SVC 0203h
        OK '0203h'
        mov ax, [real_cs]
        mov [struct+2Ch], ax
        mov [struct+24h], ax
        mov word [struct+2Ah], callee
        mov word [struct+20h], 0202h
        hlt
        IS word [level], 0
        IS word [seen], 3
        EXIT 0
handler: inc word [level]
        cmp word [level], 32
        je .deepest
        hlt
        cmp word [level], 31
        jne .back
        IS word [count], 0      ; depth 31: it has waited since
        sti
        nop
        IS word [count], 1
        inc word [seen]
        cli
        mov edi, struct         ; a call: depth 32 in real mode
        mov cx, 0
        SVC 0301h
        OK '0301h'
        IS word [in_real], 1
        inc word [seen]
        jmp .back
.deepest:
        WAIT
        IS word [count], 0
        sti
        WAIT
        nop
        IS word [count], 0      ; not at depth 32
        SVC 0902h
        OK '0902h'
        IS ax, 0901h
        cli
        inc word [seen]
.back:  dec word [level]
        mov bp, sp
        inc WORDW [bp+3*ITEM]
        xretf
callee: mov word [count], 0
        mov cx, 2000
        loop $
        cmp word [count], 2
        jb .none
        mov word [in_real], 1
.none:  retf
real8:  inc word [cs:count]
        iret
prot8:  inc word [count]
        xiret
level:  dw 0
count:  dw 0
seen:   dw 0
in_real: dw 0
PROT_FINISH
