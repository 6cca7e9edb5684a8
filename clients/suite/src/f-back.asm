;@ f-back-16 -DW=16
;@ f-back-32 -DW=32
; 0303h and 0304h refused: the number in AX of each reason, and the order of the reasons.
%include "refuse.inc"
ENTER_REFUSE
        push ds
        pop es
        mov esi, 1234h
        mov edi, 5678h
        mov ecx, 0CCCCCCCCh
        mov edx, 0DDDDDDDDh
        ; DS no code selector or ES not held, 8022h
        REFUSED 8022h, 0303h    ; data
        push word 0
        pop ds
        REFUSED 8022h, 0303h    ; null
        push cs
        pop ds
        push word 0
        pop es
        REFUSED 8022h, 0303h    ; structure in null
        push word 0204h         ; code with RPL 0
        pop ds
        push gs
        pop es
        REFUSED 8022h, 0303h
        push cs
        pop ds
        mov bp, 16
.more:  SVC 0303h
        OK '0303h'
        IS ax, 0303h
        dec bp
        jnz .more
        REFUSED 8015h, 0303h    ; none free, 8015h
        push word 0
        pop es                  ; and a selector that is wrong: 8022h comes first
        REFUSED 8022h, 0303h
        push gs
        pop es
        push gs
        pop ds
        REFUSED 8022h, 0303h
        ; CX:DX isn't the address of a held one, 8024h
        mov ecx, 0CCCCF000h
        mov edx, 0DDDD0120h
        REFUSED 8024h, 0304h
        mov edx, 010Fh
        REFUSED 8024h, 0304h
        mov edx, 0
        REFUSED 8024h, 0304h
        mov ecx, 0F001h         ; the same place, another address
        mov edx, 0100h
        REFUSED 8024h, 0304h
        mov ecx, 0
        REFUSED 8024h, 0304h
        mov ecx, 0F000h
        mov edx, 0117h
        SVC 0304h
        OK '0304h'
        IS ax, 0304h
        REFUSED 8024h, 0304h
        push cs
        pop ds
        SVC 0303h
        OK '0303h in the hole'
        IS dx, 0117h
        mov ecx, 0F000h
        mov edx, 0DDDDDDDDh
        REFUSED 8015h, 0303h
        REFUSE_DONE
