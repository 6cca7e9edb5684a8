;@ g-call-16 -DW=16
;@ g-call-32 -DW=32
;@ g-deep-reflect-16 -DW=16 -DDEEPER
;@ g-deep-reflect-32 -DW=32 -DDEEPER
; Calls within calls to depth 32 and back; each callee goes on in protected mode by a raw
; switch. Where SS and SP of the structure are both 0, the stack is D800h:(depth+1)*400h. At depth
; 32 the three calls are refused with 8012h, but with CX above 200 with 8021h. g-deep-reflect makes
; a reflection there: the exit is deep.
%include "prot.inc"
structs equ 0C000h              ; 40h bytes for each depth
stacks  equ 9000h               ; 80h bytes for each depth, in SS
ENTER_PROT
        push ds
        pop es
        call round
        IS word [level], 0
        IS word [most], 32
        mov bx, sp
        IS bx, 0100h
        EXIT 0
round:  mov di, [level]
        shl di, 6
        add di, structs
        movzx edi, di
        mov ax, [real_cs]
        mov [di+2Ch], ax
        mov [di+24h], ax        ; DS
        mov word [di+2Ah], callee
        mov dword [di+2Eh], 0   ; SP and SS
        mov word [di+20h], 0002h
        mov ax, [level]
        mov [di+1Ch], ax
        mov cx, 0
        push xdi
        SVC 0301h
        OK '0301h'
        pop xdi
        mov ax, [level]         ; what the callee wrote into AX
        add ax, 1000h
        IS word [di+1Ch], ax
        ret
callee: mov bx, ss              ; real mode
        IS bx, 0D800h
        IS ax, [level]
        mov bx, ax
        inc bx
        shl bx, 10              ; (depth + 1) * 400h, less the far return address
        sub bx, 4
        mov cx, sp
        IS cx, bx
        mov bp, sp
        IS word [bp], 0103h
        IS word [bp+2], 0F000h
        inc word [level]
        mov ax, [level]
        mov [most], ax
        shl ax, 7
        add ax, stacks
        movzx ebx, ax
        mov ax, 0217h
        mov cx, 0217h
        mov dx, 020Fh
        mov si, 0207h
        mov edi, deeper
        jmp 0F000h:0101h
deeper: cmp word [level], 32
        je .deepest
        call round
        jmp .back
.deepest:
        mov edi, structs + 32*40h
        mov cx, 0
        mov bx, 0060h
%ifdef DEEPER
        mov ah, 30h
        int 21h
%endif
        SVC 0300h
        NO '0300h at depth 32'
        IS ax, 8012h
        SVC 0301h
        NO '0301h at depth 32'
        IS ax, 8012h
        SVC 0302h
        NO '0302h at depth 32'
        IS ax, 8012h
        mov cx, 201
        SVC 0302h
        NO '0302h with 201 words'
        IS ax, 8021h
.back:  dec word [level]
        mov ax, [level]
        inc ax
        shl ax, 10
        sub ax, 4
        movzx ebx, ax
        mov ax, [real_cs]
        mov si, ax
        mov cx, ax
        mov dx, 0D800h
        mov edi, leaves
        jmp 0087h:0320h
leaves: mov ax, [level]
        add ax, 1000h
        retf
level:  dw 0
most:   dw 0
PROT_FINISH
