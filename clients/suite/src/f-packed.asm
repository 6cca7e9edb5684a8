;@ f-packed-16 -DW=16
;@ f-packed-32 -DW=32
; 000Ah to 000Dh refused: the number of each reason and their order.
%include "refuse.inc"
packed  equ 9000h
ENTER_REFUSE
        push ds
        pop es
        ; 000Ah: BX not held or not code, 8022h
        mov ebx, 0
        REFUSED 8022h, 000Ah
        mov ebx, 022Fh
        REFUSED 8022h, 000Ah
        mov ebx, 0217h
        REFUSED 8022h, 000Ah
        mov ebx, 008Fh
        REFUSED 8022h, 000Ah
        ; 000Bh: BX not held, 8022h; 8 bytes not writable, 8025h
        mov edi, packed
        mov ebx, 022Fh
        REFUSED 8022h, 000Bh
        mov ebx, 0007h
        REFUSED 8022h, 000Bh
        mov ebx, 0217h
        mov edi, 0FFF9h
        REFUSED 8025h, 000Bh
        mov ebx, 022Fh          ; both
        REFUSED 8022h, 000Bh
        push cs
        pop es
        mov edi, packed
        REFUSED 8022h, 000Bh
        mov ebx, 0217h          ; into code
        REFUSED 8025h, 000Bh
        push word 0
        pop es
        REFUSED 8025h, 000Bh    ; into null
        mov ebx, 0203h
        REFUSED 8022h, 000Bh
        push ds
        pop es
        mov ebx, 0217h
        mov edi, 0FFF8h
        SVC 000Bh
        OK '000Bh at the end of the segment'
        IS ax, 000Bh
        ; 000Ch: BX not changeable, 8022h; 8 bytes not readable, 8025h; byte 5 not good or byte 6
        ; bit 5 set, 8021h
        mov edi, packed
        mov ebx, 0217h
        SVC 000Bh
        OK '000Bh'
        mov byte [packed+6], 20h
        REFUSED 8021h, 000Ch
        mov byte [packed+6], 0FFh
        REFUSED 8021h, 000Ch
        mov ebx, 0087h          ; both
        REFUSED 8022h, 000Ch
        mov byte [packed+6], 0
        REFUSED 8022h, 000Ch
        mov ebx, 0217h
        mov byte [packed+5], 0E3h ; a system descriptor
        REFUSED 8021h, 000Ch
        mov byte [packed+5], 093h ; DPL 0
        REFUSED 8021h, 000Ch
        mov byte [packed+5], 0F9h ; code that can't be read
        REFUSED 8021h, 000Ch
        mov byte [packed+5], 0FFh ; conforming code
        REFUSED 8021h, 000Ch
        mov byte [packed+5], 0F3h
        mov edi, 0FFF9h         ; bytes that aren't there
        REFUSED 8025h, 000Ch
        mov ebx, 008Fh          ; both
        REFUSED 8022h, 000Ch
        mov ebx, 022Fh
        REFUSED 8022h, 000Ch
        mov ebx, 0217h
        push word 0
        pop es
        mov edi, packed
        REFUSED 8025h, 000Ch    ; from null
        mov ebx, 0
        REFUSED 8022h, 000Ch
        push cs                 ; code can be read
        pop es
        mov ebx, 0217h
        SVC 000Ch
        OK '000Ch'
        IS ax, 000Ch
        ; 000Dh: TI = 0 or index above 15, 8022h; held, 8011h
        mov ebx, 0
        REFUSED 8022h, 000Dh
        mov ebx, 0003h
        REFUSED 8022h, 000Dh
        mov ebx, 007Bh
        REFUSED 8022h, 000Dh
        mov ebx, 0084h          ; index 16, held by the host
        REFUSED 8022h, 000Dh
        mov ebx, 0097h          ; index 18, not held
        REFUSED 8022h, 000Dh
        mov ebx, 0207h
        REFUSED 8022h, 000Dh
        mov ebx, 0FFFFh
        REFUSED 8022h, 000Dh
        mov ebx, 007Fh
        SVC 000Dh
        OK '000Dh of index 15'
        IS ax, 000Dh
        REFUSED 8011h, 000Dh
        mov ebx, 007Ch          ; the RPL doesn't matter
        REFUSED 8011h, 000Dh
        mov ebx, 007Bh
        REFUSED 8022h, 000Dh
        mov ebx, 0007h
        SVC 000Dh
        OK '000Dh of index 0'
        mov ebx, 0004h
        REFUSED 8011h, 000Dh
        mov ebx, 0003h          ; null all the same
        REFUSED 8022h, 000Dh
        REFUSED 8022h, 0006h
        REFUSE_DONE
