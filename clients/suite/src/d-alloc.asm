;@ d-alloc-16 -DW=16
;@ d-alloc-32 -DW=32
;@ c-alloc-16 -DW=16 -DPRINT
;@ c-alloc-32 -DW=32 -DPRINT
; 0000h, 0001h, 0003h, 000Dh: descriptors made and freed; unknown numbers.
%include "prot.inc"
ENTER_PROT
        mov cx, 0
        SVC 0000h
        NO '0000h of none'
        mov cx, 2
        SVC 0000h
        OK '0000h of 2'
        IS ax, 022Fh
        mov cx, 1
        SVC 0000h
        OK '0000h of 1'
        IS ax, 023Fh
        SVC 0003h
        OK '0003h'
        IS ax, 8
        mov bx, 0237h           ; a hole of one; the RPL does not matter
        SVC 0001h
        OK '0001h'
        mov bx, 0237h
        SVC 0001h
        NO '0001h twice'
        mov cx, 2               ; two in a row: after the others
        SVC 0000h
        OK '0000h of 2'
        IS ax, 0247h
        mov cx, 1
        SVC 0000h
        OK '0000h of 1, in the hole'
        IS ax, 0237h
        mov bx, 0236h
        SVC 0001h
        OK '0001h, RPL 2'
        mov bx, 0233h           ; TI clear: not held
        SVC 0001h
        NO '0001h, no LDT selector'
        mov bx, 0
        SVC 0001h
        NO '0001h of null'
        mov bx, 0087h
        SVC 0001h
        NO '0001h of the host'
        mov bx, 021Fh
        SVC 0001h
        NO '0001h of the PSP'
        mov bx, 0040h
        SVC 0002h
        OK '0002h'
        mov bx, ax
        SVC 0001h
        NO '0001h of a segment'
        mov cx, 8192
        SVC 0000h
        NO '0000h of 8192'
        mov bx, 0007h           ; 000Dh: index 0 to 15
        SVC 000Dh
        OK '000Dh of index 0'
        mov bx, 0007h
        SVC 000Dh
        NO '000Dh of a held one'
        mov bx, 007Ch
        SVC 000Dh
        OK '000Dh of index 15'
        mov bx, 0087h
        SVC 000Dh
        NO '000Dh of index 16'
        mov bx, 0073h
        SVC 000Dh
        NO '000Dh, TI clear'
        mov bx, 0007h
        SVC 0001h
        OK '0001h of index 0'
        mov bx, 0007h
        SVC 0006h
        NO '0006h of a free one'
        SVC 0004h
        NO '0004h'
        SVC 000Eh
        NO '000Eh'
        SVC 00FFh
        NO '00FFh'
        DONE
