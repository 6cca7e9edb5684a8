;@ f-dos-16 -DW=16
;@ f-dos-32 -DW=32
; 0100h to 0102h refused: AX = 8 with the largest size in BX, or AX = 9, and nothing else changes.
%define SHRINK 1000h
%include "refuse.inc"
ENTER_REFUSE
        mov edx, 0DDDDDDDDh
        mov ebx, 0BEEF0000h     ; BX = 0, no room, or no run: AX = 8, BX = largest free size
        REFUSEDBX 8, 0100h, 8F9Bh
        mov ebx, 0BEEF8F9Ch
        REFUSEDBX 8, 0100h, 8F9Bh
        mov ebx, 0BEEFFFFFh
        REFUSEDBX 8, 0100h, 8F9Bh
        mov bx, 1001h
        SVC 0100h
        OK '0100h'
        IS ax, 1065h
        IS dx, 022Fh
        ; DX isn't the first selector of such a block: AX = 9
        mov ebx, 0BEEF0001h
        mov edx, 0
        REFUSED 9, 0101h
        REFUSED 9, 0102h
        mov edx, 0DDDD0237h
        REFUSED 9, 0101h
        REFUSED 9, 0102h
        mov ebx, 0              ; and BX = 0 or too large: as 0101h first
        REFUSED 9, 0102h
        mov ebx, 0FFFFh
        REFUSED 9, 0102h
        mov edx, 0217h
        REFUSED 9, 0101h
        REFUSED 9, 0102h
        mov edx, 0207h
        REFUSED 9, 0101h
        mov edx, 008Fh
        REFUSED 9, 0102h
        mov edx, 0DDDD022Fh     ; then BX = 0, too large: AX = 8, BX = largest possible
        mov ebx, 0BEEF0000h
        REFUSEDBX 8, 0102h, 8F9Bh
        mov ebx, 0BEEF8F9Ch
        REFUSEDBX 8, 0102h, 8F9Bh
        mov cx, 1               ; the next descriptors not free
        SVC 0000h
        OK '0000h'
        IS ax, 023Fh
        mov ebx, 0BEEF2001h
        REFUSEDBX 8, 0102h, 8F9Bh
        mov bx, 2000h
        SVC 0102h
        OK '0102h'
        IS ax, 0102h
        mov edx, 022Ch          ; the RPL doesn't matter
        SVC 0101h
        OK '0101h'
        IS ax, 0101h
        mov ebx, 1
        REFUSED 9, 0101h
        REFUSED 9, 0102h
        mov ebx, 0              ; unknown ones of the family have no outputs, so 8001h
        REFUSED 8001h, 0103h
        REFUSED 8001h, 0106h
        REFUSED 8001h, 01FFh
        REFUSE_DONE
