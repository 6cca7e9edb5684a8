;@ f-call-16 -DW=16
;@ f-call-32 -DW=32
; 0300h to 0302h refused, which changes AX alone: 8021h where CX is above 200, 8025h where the structure, a stack
; word or the real stack can't be reached, by the first that applies. (8012h: f-depth.)
%include "refuse.inc"
%macro SETW 2
        mov word [struct+%1], %2
%endmacro
S_CS    equ 2Ch
S_IP    equ 2Ah
S_SP    equ 2Eh
S_SS    equ 30h
struct  equ 0E000h
%macro ALL 1                    ; a number that all three answer
        mov ebx, 0BEEF0060h
        REFUSED %1, 0300h
        REFUSED %1, 0301h
        REFUSED %1, 0302h
%endmacro
ENTER_REFUSE
        push ds
        pop es
        mov ax, [real_cs]
        SETW S_CS, ax
        SETW S_IP, callee
        mov sp, 4000h
        mov edi, struct
        mov ecx, 201            ; CX above 200, 8021h
        ALL 8021h
        mov ecx, 0FFFFh
        ALL 8021h
        mov edi, 0FFCFh         ; and a structure over the end
        ALL 8021h
        push word 0
        pop es                  ; and in null
        ALL 8021h
        mov ecx, 200            ; that alone: 8025h
        ALL 8025h
        mov ecx, 0FFFF0000h     ; CX counts
        ALL 8025h
        push cs
        pop es                  ; a structure in code can't be written
        mov edi, struct
        ALL 8025h
        push ds
        pop es
        mov edi, 0FFCFh
        ALL 8025h
%if W == 32
        mov edi, struct + 10000h
        ALL 8025h
%endif
        mov edi, struct
        SETW S_SS, 0F000h       ; a real stack that can't be written
        SETW S_SP, 1000h
        mov ecx, 0
        ALL 8025h
        mov ecx, 201
        ALL 8021h
        mov ecx, 200
        SETW S_SS, 3000h
        SETW S_SP, 0001h        ; a word at offset FFFFh
        ALL 8025h
        mov ecx, 0              ; three words over F0000h for 0300h, two for 0301h
        SETW S_SS, 0EFFFh
        SETW S_SP, 0014h
        ALL 8025h
        SETW S_SP, 0012h
        mov ebx, 0060h
        REFUSED 8025h, 0300h
        REFUSED 8025h, 0302h
        SETW S_SP, 0010h
        SVC 0301h
        OK '0301h up to F0000h'
        IS ax, 0301h
        SETW S_SS, 0
        SETW S_SP, 0
%if W == 32                     ; a stack word that isn't there
        mov esp, 0FFFCh
        mov ecx, 3
        ALL 8025h
        mov ecx, 201
        ALL 8021h
        mov esp, 4000h
%endif
        mov ecx, 200
        mov edi, struct
        SVC 0301h
        OK '0301h with 200 words'
        IS ax, 0301h
        mov ebx, 0              ; others of the family
        REFUSED 8001h, 0307h
        REFUSED 8001h, 0308h
        REFUSED 8001h, 03FFh
        EXIT 0
callee: retf
REFUSE_FINISH
