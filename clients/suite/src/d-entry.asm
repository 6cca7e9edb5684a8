;@ d-entry-16 -DW=16
;@ d-entry-32 -DW=32
;@ c-entry-16 -DW=16 -DPRINT
;@ c-entry-32 -DW=32 -DPRINT
; The state after the entry: registers, flags, the five descriptors of the client and the two of
; the host. LAR shows D/B in bit 22.
%include "prot.inc"
%if W == 32
 %define BIG 00400000h
%else
 %define BIG 0
%endif
%macro DESC 4                   ; selector, LAR, limit, base
        mov bx, %1
        lar eax, ebx
        IS eax, %2
        lsl eax, ebx
        IS eax, %3
        SVC 0006h
        OK '0006h'
        shl ecx, 16
        mov cx, dx
        IS ecx, %4
%endmacro
START
        mov ax, cs
        mov ds, ax
        mov fs, ax
        mov gs, ax
        mov ax, 1687h
        int 2Fh
        mov [entry], di
        mov [entry+2], es
        mov eax, 11110000h + W / 32
        mov ebx, 22222222h
        mov ecx, 33333333h
        mov edx, 44444444h
        mov esi, 55555555h
        mov edi, 66666666h
        mov ebp, 77777777h
        mov esp, 00000100h
        push word 0AD7h
        popf
        call far [entry]
        pushf                   ; carry alone is changed
        mov [regs], eax
        pop ax
        IS ax, 0AD6h
        IS dword [regs], 11110000h + W / 32
        IS ebx, 22222222h
        IS ecx, 33333333h
        IS edx, 44444444h
        IS esi, 55555555h
        IS edi, 66666666h
        IS ebp, 77777777h
        IS esp, 00000100h
        mov ax, cs
        IS ax, 0207h
        mov ax, ss
        IS ax, 020Fh
        mov ax, ds
        IS ax, 0217h
        mov ax, es
        IS ax, 021Fh
        mov ax, fs
        IS ax, 0
        mov ax, gs
        IS ax, 0
        IS word [es:2Ch], 0227h
        DESC 0207h, 0000FB00h, 0FFFFh, 0740h
        DESC 020Fh, 0000F300h + BIG, 0FFFFh, 0740h + ((size + 15) & 0FFF0h)
        DESC 0217h, 0000F300h + BIG, 0FFFFh, 0740h
        DESC 021Fh, 0000F300h, 00FFh, 0640h
        DESC 0227h, 0000F300h, 0FFFFh, 0610h
        DESC 0087h, 0000FB00h, 0FFFFh, 0F0000h
        DESC 008Fh, 0000F300h + BIG, 7FFFh, 0E4000h
        mov bx, 022Fh           ; and no others
        SVC 0006h
        NO '0006h'
        mov bx, 0107h
        SVC 0006h
        NO '0006h'
        EXIT 0
entry:  dd 0
regs:   dd 0
PROT_FINISH
