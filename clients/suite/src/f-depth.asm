;@ f-depth-16 -DW=16
;@ f-depth-32 -DW=32
; The order of the reasons of 0300h to 0302h, in an exception handler at the greatest depth: CX above 200,
; 8021h; the greatest depth, 8012h; a structure or a stack word that can't be reached, 8025h. The handler
; asks for a call at each depth and goes deeper by HLT as long as calls are served.
%include "refuse.inc"
struct  equ 0E000h
%macro ALL 1
        mov ebx, 0060h
        REFUSED %1, 0300h
        REFUSED %1, 0301h
        REFUSED %1, 0302h
%endmacro
ENTER_REFUSE
        mov bl, 0Dh
        mov cx, cs
        mov edx, handler
        SVC 0203h
        OK '0203h'
        push ds
        pop es
        mov ax, [real_cs]
        mov [struct+2Ch], ax
        mov word [struct+2Ah], callee
        mov edi, struct
        mov ecx, 0
        hlt
        IS word [reached], 1
        SVC 0301h
        OK '0301h afterwards'
        IS ax, 0301h
        EXIT 0
callee: retf
handler: mov ecx, 0
        mov edi, struct
        SVC 0301h
        jc .deep
        hlt                     ; one deeper
        jmp .back
.deep:  ALL 8012h
        mov ecx, 200
        ALL 8012h
        mov ecx, 201            ; 8021h comes first
        ALL 8021h
        mov ecx, 0
        mov edi, 0FFCFh         ; and a structure that isn't there: 8012h comes first
        ALL 8012h
        push word 0
        pop es
        ALL 8012h
        mov ecx, 201
        ALL 8021h
        push ds
        pop es
        mov edi, struct
        mov word [struct+30h], 0F000h ; and a real stack that can't be written
        mov ecx, 0
        ALL 8012h
        mov word [struct+30h], 0
        mov ecx, 0              ; other services know no depth
        REFUSED 8021h, 0000h
        mov ecx, 1
        SVC 0000h
        OK '0000h'
        inc word [reached]
.back:  mov bp, sp
        inc WORDW [bp+3*ITEM]
        xretf
reached: dw 0
REFUSE_FINISH
