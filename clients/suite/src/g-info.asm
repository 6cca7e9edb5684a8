;@ g-info-16 -DW=16
;@ g-info-32 -DW=32
; 0500h with the default budget: 10000h at 0Ch, and 10000h less the pages in use at 1Ch; the numbers with
; one block of 64 pages, two of them locked.
%include "prot.inc"
table   equ 0E000h
ENTER_PROT
        push ds
        pop es
        mov edi, table
        SVC 0500h
        OK '0500h at the start'
        IS dword [table], 400000h
        IS dword [table+4], 400h
        IS dword [table+8], 400h
        IS dword [table+0Ch], 10000h
        IS dword [table+10h], 400h
        IS dword [table+14h], 400h
        IS dword [table+18h], 400h
        IS dword [table+1Ch], 10000h
        IS dword [table+20h], 0
        IS dword [table+24h], -1
        IS dword [table+28h], -1
        IS dword [table+2Ch], -1
        mov bx, 4
        mov cx, 0
        SVC 0501h
        OK '0501h'
        mov bx, 0040h
        mov cx, 0FFFh
        mov si, 0
        mov di, 2
        SVC 0600h
        OK '0600h'
        mov edi, table
        SVC 0500h
        OK '0500h'
        IS dword [table], 3C0000h
        IS dword [table+4], 3C0h
        IS dword [table+8], 3C0h
        IS dword [table+0Ch], 10000h
        IS dword [table+10h], 3FEh
        IS dword [table+14h], 3C0h
        IS dword [table+18h], 400h
        IS dword [table+1Ch], 0FFC0h
        IS dword [table+20h], 0
        IS dword [table+24h], -1
        IS dword [table+28h], -1
        IS dword [table+2Ch], -1
        DONE
