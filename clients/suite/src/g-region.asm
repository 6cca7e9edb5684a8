;@ g-region-16 -DW=16
;@ g-region-32 -DW=32
; The whole block region 00400000h to 103FFFFFh. Pairs of blocks of 8000 pages and more are made
; after all others; of each the first is freed and the second shrunk to one page, so that the last
; block ends with the region. Writes, locks and faults there. Words: --pages 16384.
%include "prot.inc"
%include "flat.inc"
%include "exc.inc"
table   equ 0E000h
%macro PAGES 1
        mov ecx, %1
        shl ecx, 12
        mov ebx, ecx
        shr ebx, 16
%endmacro
%macro REGION 3
        mov bx, (%2) >> 16
        mov cx, (%2) & 0FFFFh
        mov si, (%3) >> 16
        mov di, (%3) & 0FFFFh
        SVC %1
%endmacro
ENTER_PROT
        CATCH
        FLAT
        push ds
        pop es
        mov esi, 103FFFFFh      ; nothing yet
        FAULTS 0Eh, 4, mov al, [fs:esi]
        FAULTS 0Eh, 6, mov [fs:esi], al
        mov ebp, 8000
.hop:   PAGES ebp
        SVC 0501h
        OK '0501h of the first'
        mov [first_one], di
        PAGES ebp
        SVC 0501h
        OK '0501h of the second'
        mov bx, 0
        mov cx, 1
        SVC 0503h
        OK '0503h'
        mov di, [first_one]
        SVC 0502h
        OK '0502h'
        inc ebp
        cmp ebp, 8007
        jne .hop
        ; the seventh small one is page 56027, so 9508 pages are after it
        PAGES 9509
        SVC 0501h
        NO '0501h of one page more'
        IS ax, 8012h            ; no run
        mov edi, table
        SVC 0500h
        OK '0500h'
        IS dword [table], 9508 * 1000h ; the longest free run
        IS dword [table+4], 9508
        IS dword [table+8], 9508
        IS dword [table+0Ch], 10000h
        IS dword [table+10h], 4000h
        IS dword [table+14h], 4000h - 7
        IS dword [table+1Ch], 10000h - 7
        PAGES 9508
        SVC 0501h
        OK '0501h up to the end'
        IS bx, 0DEDh            ; 00400000h + 56028 pages
        IS cx, 0C000h
        mov [last_one], di
        mov esi, 103FFFFCh      ; the region's last page
        IS dword [fs:esi], 0
        mov dword [fs:esi], 89ABCDEFh
        IS dword [fs:esi], 89ABCDEFh
        mov esi, 103FFFFFh
        IS byte [fs:esi], 89h
        inc byte [fs:esi]
        IS byte [fs:esi], 8Ah
        mov esi, 10400000h
        FAULTS 0Eh, 4, mov al, [fs:esi]
        FAULTS 0Eh, 6, mov [fs:esi], al
        mov esi, 103FFFFDh
        FAULTS 0Eh, 4, mov eax, [fs:esi]
        FAULTS 0Eh, 6, mov [fs:esi], eax
        push fs                 ; a string instruction over the end
        pop es
        mov edi, 103FFFF8h
        mov ecx, 3
        mov eax, 7
        FAULTS 0Eh, 6, a32 rep stosd
        IS ecx, 1
        IS edi, 10400000h
        push ds
        pop es
        REGION 0600h, 103FFFFFh, 1
        OK '0600h of the last byte'
        REGION 0600h, 103FFFFFh, 2
        NO '0600h over the end'
        IS ax, 8025h
        REGION 0601h, 103FE000h, 2000h
        NO '0601h of which one is 0'
        IS ax, 8021h
        REGION 0703h, 103FE000h, 2000h
        OK '0703h'
        mov esi, 103FFFFCh      ; locked
        IS dword [fs:esi], 7
        REGION 0601h, 103FF000h, 1000h
        OK '0601h'
        REGION 0703h, 103FE000h, 2000h
        OK '0703h'
        IS dword [fs:esi], 0
        REGION 0702h, 103FF000h, 1000h
        OK '0702h'
        REGION 0702h, 103FF000h, 1001h
        NO '0702h over the end'
        IS ax, 8025h
        mov si, 0               ; it can't grow in place, and nowhere else
        mov di, [last_one]
        PAGES 9509
        SVC 0503h
        NO '0503h'
        IS ax, 8012h
        mov di, [last_one]
        SVC 0502h
        OK '0502h'
        mov esi, 103FFFFFh
        FAULTS 0Eh, 4, mov al, [fs:esi]
        mov esi, 0DEDBFFFh      ; the small block before it
        mov [fs:esi], al
        mov esi, 0DEDC000h
        FAULTS 0Eh, 6, mov [fs:esi], al
        EXIT 0
first_one: dw 0
last_one: dw 0
EXC_FINISH
