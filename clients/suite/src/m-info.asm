;@ m-info-16 -DW=16
;@ m-info-32 -DW=32
;@ c-info-16 -DW=16 -DPRINT
;@ c-info-32 -DW=32 -DPRINT
; 0500h: the 48 bytes after an allocation and after locking, and refusals. The checks hold for a region of
; 4000h pages; this host's has 10000h (g-info), so m-info ends with 5, the number of the first check that
; fails, and c-info has `?` for each of them.
%include "prot.inc"
table   equ 8000h
ENTER_PROT
        push ds
        pop es
        mov edi, table
        SVC 0500h
        OK '0500h at the start'
        IS dword [table], 400000h
        IS dword [table+4], 400h
        IS dword [table+8], 400h
        IS dword [table+0Ch], 4000h
        IS dword [table+10h], 400h
        IS dword [table+14h], 400h
        IS dword [table+18h], 400h
        IS dword [table+1Ch], 4000h
        IS dword [table+20h], 0
        IS dword [table+24h], -1
        IS dword [table+28h], -1
        IS dword [table+2Ch], -1
        IS dword [table+30h], 0
        mov bx, 4               ; one block of 64 pages, two of them locked
        mov cx, 0
        SVC 0501h
        OK '0501h'
        mov bx, 0040h
        mov cx, 0FFFh
        mov si, 0
        mov di, 2
        SVC 0600h
        OK '0600h'
        SVC 0600h
        OK '0600h again'
        mov edi, table
        SVC 0500h
        OK '0500h'
        IS dword [table], 3C0000h
        IS dword [table+4], 3C0h
        IS dword [table+8], 3C0h
        IS dword [table+0Ch], 4000h
        IS dword [table+10h], 3FEh
        IS dword [table+14h], 3C0h
        IS dword [table+18h], 400h
        IS dword [table+1Ch], 3FC0h
        IS dword [table+20h], 0
        mov edi, 0FFD0h
        SVC 0500h
        OK '0500h at the end of the segment'
        mov edi, 0FFD1h
        SVC 0500h
        NO '0500h over the end'
        mov edi, 12340000h + table
        SVC 0500h
%if W == 16
        OK '0500h with a high half'
%else
        NO '0500h with a high half'
%endif
        push cs
        pop es
        mov edi, table
        SVC 0500h
        NO '0500h into code'
        push word 0
        pop es
        SVC 0500h
        NO '0500h into null'
        DONE
