;@ g-stacks-16 -DW=16
;@ g-stacks-32 -DW=32
; Selector 008Fh, index 17, is the protected stacks: writable data, base E0000h, limit FFFFh, B = 1 for
; a 32-bit client. Index 16, 0087h, is the code of the protected traps.
%include "prot.inc"
%include "flat.inc"
%include "exc.inc"
ENTER_PROT
        CATCH
        mov bx, 008Fh
        SVC 0006h
        OK '0006h of 008F'
        IS cx, 000Eh
        IS dx, 0000h
        mov ebx, 008Fh
        lsl eax, ebx
        IS eax, 0FFFFh
        lar eax, ebx
%if W == 16
        IS eax, 0000F300h
%else
        IS eax, 0040F300h
%endif
        mov bx, 0087h
        SVC 0006h
        OK '0006h of 0087'
        IS cx, 000Fh
        IS dx, 0000h
        mov ebx, 0087h
        lsl eax, ebx
        IS eax, 0FFFFh
        lar eax, ebx
        IS eax, 0000FB00h
        mov bx, 008Fh           ; with origin Host neither is changeable
        SVC 0007h
        NO '0007h of 008F'
        SVC 0001h
        NO '0001h of 008F'
        FLAT
        mov ax, 008Fh           ; all 64 KB are the client's to touch
        mov es, ax
        mov esi, 0E8000h
        mov dword [es:8000h], 12345678h
        IS dword [fs:esi], 12345678h
        mov esi, 0EFFFCh
        mov dword [es:0FFFCh], 89ABCDEFh
        IS dword [fs:esi], 89ABCDEFh
        mov word [fs:esi], 4321h
        IS dword [es:0FFFCh], 89AB4321h
        FAULTS 0Dh, 0, mov eax, [es:0FFFDh]
        mov edi, 10000h
        FAULTS 0Dh, 0, mov al, [es:edi]
        mov esi, 0EFFFDh        ; then comes what can't be written
        FAULTS 0Eh, 7, mov [fs:esi], eax
        mov esi, 0D8000h        ; the real stacks are zero at the start
        mov ecx, 2000h
        mov eax, 0
.real:  or eax, [fs:esi]
        add esi, 4
        dec ecx
        jnz .real
        IS eax, 0
        mov esi, 0A0000h        ; A0000h to D7FFFh is plain memory, zero at the start
        mov dword [fs:esi], 11111111h
        IS dword [fs:esi], 11111111h
        mov esi, 0D7FFCh
        IS dword [fs:esi], 0
        mov dword [fs:esi], 22222222h
        IS dword [fs:esi], 22222222h
        EXIT 0
EXC_FINISH
