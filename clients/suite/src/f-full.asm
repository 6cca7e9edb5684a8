;@ f-full-16 -DW=16
;@ f-full-32 -DW=32
; Where no descriptor is free: the numbers of 0000h, 0002h, 000Ah and 000Dh; 0100h and 0102h answer
; AX = 8 or 9 as always.
%define SHRINK 1000h
%include "refuse.inc"
ENTER_REFUSE
        mov bx, 1000h
        SVC 0100h
        OK '0100h of 64 KB'
        IS ax, 1065h
        IS dx, 022Fh
        mov bx, 0040h
        SVC 0002h
        OK '0002h'
        IS ax, 0237h
        mov cx, 1FB9h           ; 8121, all that are left
        SVC 0000h
        OK '0000h'
        IS ax, 023Fh
        mov ecx, 1              ; no such run, 8011h
        REFUSED 8011h, 0000h
        mov ecx, 0              ; CX = 0, 8021h, comes first
        REFUSED 8021h, 0000h
        mov ebx, 0041h          ; a new one is needed and none is free, 8011h
        REFUSED 8011h, 0002h
        mov bx, 0040h
        SVC 0002h
        OK '0002h of the same segment'
        IS ax, 0237h
        mov ebx, cs             ; none free, 8011h
        REFUSED 8011h, 000Ah
        mov ebx, 0087h
        REFUSED 8011h, 000Ah
        mov ebx, 0217h          ; not code, 8022h, comes first
        REFUSED 8022h, 000Ah
        mov ebx, 0007h
        REFUSED 8022h, 000Ah
        mov ebx, 0
        REFUSED 8022h, 000Ah
        ; no run: AX = 8, BX = largest free size; 8F9Bh less 1000h and its header
        mov ebx, 0BEEF0001h
        REFUSEDBX 8, 0100h, 7F9Ah
        mov ebx, 0
        REFUSEDBX 8, 0100h, 7F9Ah
        ; the next descriptors not free: AX = 8, BX = largest possible, 1000h + 1 + 7F9Ah
        mov edx, 022Fh
        mov ebx, 0BEEF1001h
        REFUSEDBX 8, 0102h, 8F9Bh
        mov ebx, 0
        REFUSEDBX 8, 0102h, 8F9Bh
        mov ebx, 0FFFFh
        REFUSEDBX 8, 0102h, 8F9Bh
        mov bx, 0FFFFh          ; the last one
        SVC 0001h
        OK '0001h'
        mov ecx, 2
        REFUSED 8011h, 0000h
        mov bx, 2
        SVC 0100h
        OK '0100h'
        IS dx, 0FFFFh
        IS ax, 2066h
        mov edx, 0FFFFh         ; after index 8191 there is nothing
        mov ebx, 0FFFFh
        REFUSEDBX 8, 0102h, 7F9Ah
        mov bx, 0007h           ; the low ones are free all the same
        SVC 000Dh
        OK '000Dh'
        mov ebx, 0007h
        REFUSED 8011h, 000Dh
        REFUSE_DONE
