;@ g-window-16 -DW=16
;@ g-window-32 -DW=32
; C0000000h to C00DAFFFh are the host's 219 frames, supervisor only: a touch there is exception
; 0Eh with code 5, or 7 for a write; after them is nothing, 4 and 6. The block region is 00400000h to
; 103FFFFFh.
%include "prot.inc"
%include "flat.inc"
%include "exc.inc"
%macro F 2                      ; a read and a write of a byte that fail: address, whether present
        mov esi, %1
        FAULTS 0Eh, 4 + %2, mov al, [fs:esi]
        FAULTS 0Eh, 6 + %2, mov [fs:esi], al
%endmacro
ENTER_PROT
        CATCH
        FLAT
        F 0BFFFFFFFh, 0
        F 0C0000000h, 1
        F 0C0001000h, 1
        F 0C008EFFFh, 1         ; in the middle
        F 0C008F000h, 1
        F 0C0090000h, 1
        F 0C00DA000h, 1
        F 0C00DAFFFh, 1
        F 0C00DB000h, 0
        F 0C00DC000h, 0
        F 0C0100000h, 0
        F 0C03FFFFFh, 0
        F 0C0400000h, 0
        F 0FFFFFFFFh, 0
        mov esi, 0C00DAFFEh     ; the first byte that is forbidden counts
        FAULTS 0Eh, 5, mov eax, [fs:esi]
        FAULTS 0Eh, 7, mov [fs:esi], eax
        FAULTS 0Eh, 5, add [fs:esi], eax
        mov esi, 0BFFFFFFFh
        FAULTS 0Eh, 4, mov eax, [fs:esi]
        F 003FFFFFh, 0
        F 00400000h, 0
        F 043FFFFFh, 0
        F 04400000h, 0
        F 103FFFFFh, 0
        F 10400000h, 0
        ; services see it so too
        mov bx, 0C00Dh
        mov cx, 0AFFFh
        mov si, 0
        mov di, 1
        SVC 0600h
        NO '0600h of the host'
        IS ax, 8025h
        push fs
        pop es
%if W == 32
        mov edi, 0C00DAFD0h
        SVC 0500h
        NO '0500h into the host'
        IS ax, 8025h
        mov edi, 0C00DB000h
        SVC 0500h
        NO '0500h into nothing'
        IS ax, 8025h
%endif
        EXIT 0
EXC_FINISH
