;@ d-pack-16 -DW=16
;@ d-pack-32 -DW=32
;@ c-pack-16 -DW=16 -DPRINT
;@ c-pack-32 -DW=32 -DPRINT
; 000Bh and 000Ch: packed descriptors read and set, with every refusal. A 16-bit client's pointer
; is ES:DI, a 32-bit client's ES:EDI.
%include "prot.inc"
ENTER_PROT
        push ds
        pop es
        mov edi, buffer
        mov bx, cs
        SVC 000Bh
        OK '000Bh of CS'
        IS dword [buffer], 0740FFFFh
        IS dword [buffer+4], 0000FB00h
        mov cx, 1
        SVC 0000h
        OK '0000h'
        mov bx, ax
        SVC 000Bh
        OK '000Bh of a fresh one'
        IS dword [buffer], 0
        IS dword [buffer+4], 0000F300h
        mov dword [buffer], 0CDEF1234h
        mov dword [buffer+4], 12DAF2ABh ; G, D, AVL, limit A1234h, base 12ABCDEFh
        SVC 000Ch
        OK '000Ch'
        lsl eax, ebx
        IS eax, 0A1234FFFh
        SVC 0006h
        OK '0006h'
        IS cx, 12ABh
        IS dx, 0CDEFh
        mov dword [buffer+4], 0
        SVC 000Bh
        OK '000Bh'
        IS dword [buffer], 0CDEF1234h
        IS dword [buffer+4], 12DAF3ABh ; the accessed bit is set
%macro BYTE5 1
        mov byte [buffer+5], %1
        SVC 000Ch
        NO '000Ch, byte 5'
%endmacro
        BYTE5 0E3h
        BYTE5 93h
        BYTE5 0D3h
        BYTE5 0FFh
        BYTE5 0F9h
        mov byte [buffer+5], 0F3h
        mov byte [buffer+6], 20h
        SVC 000Ch
        NO '000Ch, byte 6'
        mov byte [buffer+6], 0
        mov edi, 0ABC0000h + buffer
        SVC 000Ch
%if W == 16
        OK '000Ch, high half'
%else
        NO '000Ch, high half'
%endif
        mov edi, 0FFF8h         ; the last eight bytes
        SVC 000Bh
        OK '000Bh at the end'
        mov edi, 0FFF9h
        SVC 000Bh
        NO '000Bh over the end'
        SVC 000Ch
        NO '000Ch over the end'
        mov edi, buffer
        push cs
        pop es
        SVC 000Bh
        NO '000Bh into code'
        SVC 000Ch
        OK '000Ch from code'
        push word 0
        pop es
        SVC 000Ch
        NO '000Ch from null'
        push ds
        pop es
        mov bx, 0087h
        SVC 000Bh
        OK '000Bh of the host'
        IS dword [buffer], 0000FFFFh
        IS dword [buffer+4], 0000FB0Fh
        SVC 000Ch
        NO '000Ch of the host'
        mov bx, 0
        SVC 000Bh
        NO '000Bh of null'
        mov bx, 0F37h
        SVC 000Bh
        NO '000Bh, not held'
        SVC 000Ch
        NO '000Ch, not held'
        mov bx, 0040h
        SVC 0002h
        OK '0002h'
        mov bx, ax
        SVC 000Ch
        NO '000Ch of a segment'
        DONE
buffer  equ 8000h               ; far after the image
