;@ x-pages-16 -DW=16
;@ x-pages-32 -DW=32
;@ c-xpages-16 -DW=16 -DPRINT
;@ c-xpages-32 -DW=32 -DPRINT
; Page faults through a flat descriptor: code 4 + 1 where the page is present + 2 for a write.
; What is read and written at the borders of memory. The checks hold for a host's window of 8Fh frames; this
; host's has DBh (g-window), so x-pages ends with 21, the number of the first check that fails, and
; c-xpages has `?` for each of them.
%include "prot.inc"
%include "exc.inc"
%macro F 2                      ; a read and a write of a byte that fail: address, whether present
        mov esi, %1
        FAULTS 0Eh, 4 + %2, mov al, [fs:esi]
        FAULTS 0Eh, 6 + %2, mov [fs:esi], al
%endmacro
ENTER_PROT
        CATCH
        mov cx, 1
        SVC 0000h
        mov bx, ax
        mov cx, 0FFFFh
        mov dx, 0FFFFh
        SVC 0008h
        mov fs, bx
        F 00110000h, 0          ; nothing
        F 00200000h, 0
        F 003FFFFFh, 0
        F 00400000h, 0          ; no block yet
        F 04400000h, 0
        F 80000000h, 0
        F 0BFFFFFFFh, 0
        F 0C0000000h, 1         ; the host's frames
        F 0C0012345h, 1
        F 0C008EFFFh, 1
        F 0C008F000h, 0
        F 0FFFFFFFFh, 0
        mov esi, 0FFFFFFFEh     ; past the end: the limit comes first
        FAULTS 0Dh, 0, mov eax, [fs:esi]
        mov esi, 0F0000h        ; read-only
        mov eax, [fs:esi]
        IS eax, 0F4F4F4F4h
        FAULTS 0Eh, 7, mov [fs:esi], al
        FAULTS 0Eh, 7, inc byte [fs:esi]
        FAULTS 0Eh, 7, xchg al, [fs:esi]
        mov esi, 0EFFFEh        ; a doubleword of which half may be written: nothing is
        FAULTS 0Eh, 7, mov dword [fs:esi], 12345678h
        mov eax, [fs:esi]
        IS eax, 0F4F40000h
        mov esi, 0FFFFEh        ; over the megabyte
        mov eax, [fs:esi]
        IS eax, 0000F4F4h
        mov esi, 100180h
        mov dword [fs:esi], 89ABCDEFh
        mov esi, 180h
        mov eax, [fs:esi]
        IS eax, 89ABCDEFh
        mov esi, 10FFFEh
        mov ax, [fs:esi]
        FAULTS 0Eh, 4, mov eax, [fs:esi]
        FAULTS 0Eh, 4, inc dword [fs:esi]
        FAULTS 0Eh, 6, mov [fs:esi], eax
        mov bx, 0               ; a block of two pages
        mov cx, 2000h
        SVC 0501h
        mov esi, 00400000h
        mov dword [fs:esi], 1
        mov esi, 00401FFCh
        mov dword [fs:esi], 2
        F 003FFFFFh, 0
        F 00402000h, 0
        mov esi, 00401FFDh
        FAULTS 0Eh, 4, mov eax, [fs:esi]
        FAULTS 0Eh, 6, mov [fs:esi], eax
        mov esi, 003FFFFEh
        FAULTS 0Eh, 4, add [fs:esi], eax
        ; a string instruction stops at the element that fails
        push fs
        pop es
        mov edi, 00401FF8h
        mov ecx, 5
        mov eax, 7
        FAULTS 0Eh, 6, a32 rep stosd
        IS ecx, 3
        IS edi, 00402000h
        mov si, 0
        mov di, 1
        SVC 0502h
        mov esi, 00400000h
        FAULTS 0Eh, 4, mov eax, [fs:esi]
        EXIT 0
EXC_FINISH
