;@ f-desc-16 -DW=16
;@ f-desc-32 -DW=32
; 0000h, 0001h and 0006h to 0009h refused: the number of each reason; where two apply, the first in the
; service's order gives the number.
%define SHRINK 1000h
%include "refuse.inc"
%macro FIXED 1                  ; a selector that isn't changeable, with good and bad values
        mov ebx, 0BEEF0000h + (%1)
        mov ecx, 0
        mov edx, 1000h
        REFUSED 8022h, 0007h    ; BX not changeable, 8022h
        REFUSED 8022h, 0008h
        mov ecx, 0010h          ; and a limit of 00101000h that has no granularity
        REFUSED 8022h, 0008h
        mov ecx, 00F3h
        REFUSED 8022h, 0009h
        mov ecx, 2000h          ; and neither CL good nor CH bit 5 clear
        REFUSED 8022h, 0009h
%endmacro
%macro NOTHELD 1
        mov ebx, %1
        REFUSED 8022h, 0006h    ; BX not held, 8022h
        REFUSED 8022h, 0001h    ; BX isn't held with origin Own, Low or Entry, 8022h
        FIXED %1
%endmacro
ENTER_REFUSE
        mov ecx, 0              ; CX = 0, 8021h
        REFUSED 8021h, 0000h
        mov ecx, 0FFFF0000h
        REFUSED 8021h, 0000h
        mov ecx, 1FBCh          ; 8123 are free after the entry's; no such run, 8011h
        REFUSED 8011h, 0000h
        mov ecx, 0FFFFh
        REFUSED 8011h, 0000h
        mov bx, 0B800h
        SVC 0002h
        OK '0002h'
        IS ax, 022Fh
        mov bx, 1
        SVC 0100h
        OK '0100h'
        IS dx, 0237h
        NOTHELD 0000h
        NOTHELD 0003h
        NOTHELD 0203h           ; TI = 0
        NOTHELD 023Fh
        NOTHELD 0FFFFh
        mov ebx, 0087h          ; the host's own
        REFUSED 8022h, 0001h
        FIXED 0087h
        mov ebx, 008Fh
        REFUSED 8022h, 0001h
        FIXED 008Fh
        mov ebx, 021Fh          ; origin Psp: changeable, but not freed
        REFUSED 8022h, 0001h
        mov ebx, 0227h
        REFUSED 8022h, 0001h
        mov ebx, 022Fh          ; origin Segment
        REFUSED 8022h, 0001h
        FIXED 022Fh
        mov ebx, 0237h          ; origin Dos
        REFUSED 8022h, 0001h
        FIXED 0237h
        ; changeable: the value alone counts
        mov ebx, 021Fh
        mov ecx, 0010h          ; above FFFFFh with low 12 bits not FFFh, 8021h
        mov edx, 0000h
        REFUSED 8021h, 0008h
        mov edx, 1FFEh
        REFUSED 8021h, 0008h
        mov ecx, 0FFFFh
        mov edx, 0FEFFh
        REFUSED 8021h, 0008h
        mov ecx, 0062h          ; bit 4 clear
        REFUSED 8021h, 0009h
        mov ecx, 0092h          ; DPL 0
        REFUSED 8021h, 0009h
        mov ecx, 00D2h          ; DPL 2
        REFUSED 8021h, 0009h
        mov ecx, 00FEh          ; conforming code
        REFUSED 8021h, 0009h
        mov ecx, 00F8h          ; code that can't be read
        REFUSED 8021h, 0009h
        mov ecx, 20F2h          ; CH bit 5 set
        REFUSED 8021h, 0009h
        mov ecx, 0FFFFh
        REFUSED 8021h, 0009h
        ; what is clear keeps AX
        mov ecx, 0010h
        mov edx, 0FFFh
        SVC 0008h
        OK '0008h'
        IS ax, 0008h
        mov ecx, 40F2h
        SVC 0009h
        OK '0009h'
        IS ax, 0009h
        mov cx, 1
        SVC 0000h
        OK '0000h'
        IS ax, 023Fh
        mov bx, ax
        SVC 0001h
        OK '0001h'
        IS ax, 0001h
        mov bx, 023Fh
        REFUSED 8022h, 0001h    ; once more
        REFUSE_DONE
