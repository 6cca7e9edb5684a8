;@ g-real-16 -DW=16
;@ g-real-32 -DW=32
; What needs no record goes on at depth 32. In real mode: interrupts, exceptions 0 and 6 with
; handlers, DOS calls; after a raw switch in protected mode: services of INT 31h, INT 2Fh 1686h, a
; client's own vector; and back. Then 4Ch at depth 32 ends the client.
%include "prot.inc"
struct  equ 0E000h
ENTER_PROT
        push ds
        pop es
        mov bl, 0Dh
        mov cx, cs
        mov edx, nest
        SVC 0203h
        OK '0203h'
        mov bl, 60h
        mov edx, own60
        SVC 0205h
        OK '0205h'
        mov cx, [real_cs]
        mov dx, real60
        SVC 0201h
        OK '0201h'
        mov bl, 0
        mov dx, real0
        SVC 0201h
        mov bl, 6
        mov dx, real6
        SVC 0201h
        mov ax, [real_cs]
        mov [struct+24h], ax
        mov [struct+2Ch], ax
        mov word [struct+2Ah], callee
        hlt
        EXIT 99
nest:   inc word [level]
        cmp word [level], 31
        je .call
        hlt
.call:  mov edi, struct
        mov cx, 0
        SVC 0301h
        EXIT 98                 ; the callee doesn't return
callee: mov ax, 0
        int 60h
        IS ax, 6060h
        mov cl, 0
        div cl
.after: ud2
.next:  mov ah, 30h
        int 21h
        IS ax, 5
        mov ax, 0217h
        mov cx, 0217h
        mov dx, 020Fh
        mov ebx, 6000h
        mov si, 0207h
        mov edi, prot
        jmp 0F000h:0101h
prot:   mov ax, 1686h
        int 2Fh
        IS ax, 0
        int 60h
        IS ax, 3232h
        SVC 0902h
        OK '0902h'
        IS ah, 09h
        mov cx, 0
        SVC 0000h
        NO '0000h'
        IS ax, 8021h
        mov edi, struct
        SVC 0301h
        NO '0301h'
        IS ax, 8012h
        IS word [seen], 3
        EXIT 0
own60:  mov ax, 3232h
        xiret
real60: mov ax, 6060h
        inc word [cs:seen]
        iret
real0:  add sp, 6
        inc word [cs:seen]
        jmp callee.after
real6:  add sp, 6
        inc word [cs:seen]
        jmp callee.next
level:  dw 0
seen:   dw 0
PROT_FINISH
