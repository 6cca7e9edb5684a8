;@ x-segments-16 -DW=16
;@ x-segments-32 -DW=32
;@ c-xsegments-16 -DW=16 -DPRINT
;@ c-xsegments-32 -DW=32 -DPRINT
; Exceptions by selectors, rights and limits. The error code is the selector with its two low bits
; clear.
%include "prot.inc"
%include "exc.inc"
%macro NEW 2                    ; BX = a new selector with CH:CL and the byte limit
        mov cx, 1
        SVC 0000h
        mov bx, ax
        mov cx, %1
        SVC 0009h
        mov cx, (%2) >> 16
        mov dx, (%2) & 0FFFFh
        SVC 0008h
%endmacro
ENTER_PROT
        CATCH
        push word 0
        pop es
        FAULTS 0Dh, 0, mov al, [es:0]
        FAULTS 0Dh, 0, mov [es:0], al
        mov ax, 0F37h           ; not held
        FAULTS 0Dh, 0F34h, mov es, ax
        mov ax, 0013h           ; TI clear
        FAULTS 0Dh, 0010h, mov fs, ax
        mov ax, 0003h           ; null
        mov fs, ax
        FAULTS 0Dh, 0, mov ax, [fs:10h]
        FAULTS 0Dh, 0, mov [cs:1000h], al
        NEW 00F3h, 3            ; four bytes
        mov es, bx
        mov al, [es:3]
        FAULTS 0Dh, 0, mov al, [es:4]
        FAULTS 0Dh, 0, mov ax, [es:3]
        FAULTS 0Dh, 0, mov eax, [es:1]
        FAULTS 0Dh, 0, mov [es:0FFFFh], al
        mov edi, 00010000h
        FAULTS 0Dh, 0, mov al, [es:edi]
        NEW 00F1h, 0FFFFh       ; read-only
        mov es, bx
        mov al, [es:0]
        FAULTS 0Dh, 0, mov [es:0], al
        FAULTS 0Dh, 0, inc byte [es:0]
        FAULTS 0Dh, 022Ch + 8, mov ss, bx
        NEW 00F7h, 0FFFh        ; expand-down: 1000h to FFFFh
        mov es, bx
        mov al, [es:1000h]
        mov al, [es:0FFFFh]
        FAULTS 0Dh, 0, mov al, [es:0FFFh]
        FAULTS 0Dh, 0, mov eax, [es:0FFDh]
        FAULTS 0Dh, 0, mov ax, [es:0FFFFh]
        FAULTS 0Dh, 0, mov al, [es:edi]
        mov cx, 40F7h           ; B = 1: up to FFFFFFFFh
        SVC 0009h
        mov al, [es:edi]
        mov cx, 0073h           ; not present, also where it is loaded already
        SVC 0009h
        FAULTS 0Bh, 023Ch, mov al, [es:2000h]
        FAULTS 0Bh, 023Ch, mov gs, bx
        FAULTS 0Ch, 023Ch, mov ss, bx
        mov cx, 00F3h
        SVC 0009h
        mov es, bx
        SVC 0001h               ; freed, and still loaded
        FAULTS 0Dh, 023Ch, mov al, [es:2000h]
        FAULTS 0Dh, 023Ch, mov es, bx
        xor ax, ax
        FAULTS 0Dh, 0, mov ss, ax
        mov ax, 020Eh
        FAULTS 0Dh, 020Ch, mov ss, ax
        mov ax, cs
        FAULTS 0Dh, 0204h, mov ss, ax
        FAULTS 0Ch, 0, mov ax, [ss:0FFFFh]
        mov bp, 0FFFFh
        FAULTS 0Ch, 0, mov [bp], ax
        mov word [stack], 0100h
        mov esp, 1
        FAULTS 0Ch, 0, push ax
        mov word [stack], 0100h
        mov sp, 0FFFFh
        FAULTS 0Ch, 0, pop ax
        mov eax, 0F3F0000h      ; far pointers: the selector is asked
        mov [8000h], eax
        FAULTS 0Dh, 0F3Ch, les ax, [8000h]
        FAULTS 0Dh, 0, lds ax, [0FFFDh]
        push word 0F37h
        FAULTS 0Dh, 0F34h, pop es
        pop ax
        IS ax, 0F37h
        EXIT 0
EXC_FINISH
