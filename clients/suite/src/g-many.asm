;@ g-many-16 -DW=16
;@ g-many-32 -DW=32
; With --pages 16384, 0501h of 04000000h bytes gives 00400000h. Then the budget is
; empty; the block's last byte, 0500h and locks of far pages.
%include "prot.inc"
%include "flat.inc"
%include "exc.inc"
table   equ 0E000h
%macro REGION 3
        mov bx, (%2) >> 16
        mov cx, (%2) & 0FFFFh
        mov si, (%3) >> 16
        mov di, (%3) & 0FFFFh
        SVC %1
%endmacro
ENTER_PROT
        CATCH
        FLAT
        push ds
        pop es
        mov edi, table
        SVC 0500h
        OK '0500h'
        IS dword [table], 4000000h
        IS dword [table+4], 4000h
        IS dword [table+8], 4000h
        IS dword [table+0Ch], 10000h
        IS dword [table+10h], 4000h
        IS dword [table+14h], 4000h
        IS dword [table+18h], 4000h
        IS dword [table+1Ch], 10000h
        mov bx, 0400h
        mov cx, 1
        SVC 0501h
        NO '0501h of one byte more'
        IS ax, 8013h
        mov bx, 0400h
        mov cx, 0
        SVC 0501h
        OK '0501h of 64 MB'
        IS bx, 0040h
        IS cx, 0
        IS si, 0
        IS di, 1
        mov bx, 0
        mov cx, 1
        SVC 0501h
        NO '0501h of a byte'
        IS ax, 8013h
        mov edi, table
        SVC 0500h
        OK '0500h'
        IS dword [table], 0
        IS dword [table+4], 0
        IS dword [table+8], 0
        IS dword [table+0Ch], 10000h
        IS dword [table+10h], 4000h
        IS dword [table+14h], 0
        IS dword [table+18h], 4000h
        IS dword [table+1Ch], 0C000h
        mov esi, 00400000h      ; each megabyte's first doubleword
.write: mov [fs:esi], esi
        add esi, 100000h
        cmp esi, 04400000h
        jne .write
        mov esi, 043FFFFCh
        IS dword [fs:esi], 0
        mov dword [fs:esi], 89ABCDEFh
        mov eax, 0
        mov esi, 00400000h
.read:  mov ebx, [fs:esi]
        xor ebx, esi
        or eax, ebx
        add esi, 100000h
        cmp esi, 04400000h
        jne .read
        IS eax, 0
        mov esi, 043FFFFFh
        IS byte [fs:esi], 89h
        mov esi, 04400000h
        FAULTS 0Eh, 4, mov al, [fs:esi]
        mov esi, 043FFFFDh
        FAULTS 0Eh, 6, mov [fs:esi], eax
        REGION 0600h, 043FE000h, 2000h ; the last two pages, and the last one twice
        OK '0600h'
        REGION 0600h, 043FFFFFh, 1
        OK '0600h'
        REGION 0600h, 043FFFFFh, 2
        NO '0600h over the end'
        IS ax, 8025h
        REGION 0601h, 043FE000h, 2000h
        OK '0601h'
        REGION 0601h, 043FE000h, 2000h
        NO '0601h again'
        IS ax, 8021h
        mov edi, table
        SVC 0500h
        OK '0500h'
        IS dword [table+10h], 3FFFh
        REGION 0703h, 043FD000h, 3000h ; zeroes the two unlocked pages
        OK '0703h'
        mov esi, 043FFFFCh
        IS dword [fs:esi], 89ABCDEFh
        REGION 0601h, 043FFFFFh, 1
        OK '0601h'
        REGION 0703h, 043FD000h, 3000h
        OK '0703h'
        IS dword [fs:esi], 0
        mov si, 0
        mov di, 1
        SVC 0502h
        OK '0502h'
        mov esi, 043FFFFFh
        FAULTS 0Eh, 4, mov al, [fs:esi]
        EXIT 0
EXC_FINISH
