;@ f-vector-16 -DW=16
;@ f-vector-32 -DW=32
; 0202h, 0203h and 0205h refused: the number of each reason and their order. A code selector is held,
; code, present and has RPL 3.
%include "refuse.inc"
%macro NOCODE 1                 ; a selector that is no code selector
        mov ecx, 0CCCC0000h + (%1)
        mov ebx, 0BB001Fh
        REFUSED 8022h, 0203h    ; CX no code selector, 8022h
        mov ebx, 0BB00FFh
        REFUSED 8022h, 0205h
        mov ebx, 0BB0020h       ; BL above 1Fh, 8021h, comes first
        REFUSED 8021h, 0203h
%endmacro
ENTER_REFUSE
        mov ecx, 0CCCCCCCCh
        mov edx, 0DDDDDDDDh
        mov ebx, 20h            ; BL above 1Fh, 8021h
        REFUSED 8021h, 0202h
        mov ebx, 1FFFh
        REFUSED 8021h, 0202h
        mov ecx, cs
        REFUSED 8021h, 0203h
        mov ebx, 20h
        REFUSED 8021h, 0203h
        NOCODE 0000h
        NOCODE 0003h
        NOCODE 0207h - 4        ; TI = 0
        NOCODE 0204h            ; RPL 0, 1, 2
        NOCODE 0205h
        NOCODE 0206h
        NOCODE 0217h            ; data
        NOCODE 008Fh
        NOCODE 022Fh            ; not held
        NOCODE 0FFFFh
        mov bx, cs
        SVC 000Ah
        OK '000Ah'
        IS ax, 022Fh
        NOCODE 022Fh
        mov bx, ax
        mov bx, 022Fh
        mov cx, 007Bh           ; code, not present
        SVC 0009h
        OK '0009h'
        NOCODE 022Fh
        mov bx, 022Fh
        mov cx, 00FBh
        SVC 0009h
        OK '0009h'
        mov cx, 022Fh
        mov bx, 0FF1Fh          ; BH doesn't matter
        SVC 0203h
        OK '0203h'
        IS ax, 0203h
        SVC 0205h
        OK '0205h'
        IS ax, 0205h
        SVC 0202h
        OK '0202h'
        IS ax, 0202h
        IS cx, 022Fh
        mov ebx, 0
        REFUSED 8001h, 0206h
        REFUSED 8001h, 02FFh
        REFUSE_DONE
