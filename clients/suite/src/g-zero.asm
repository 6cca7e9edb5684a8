;@ g-zero-16 -DW=16
;@ g-zero-32 -DW=32
; A callback from real mode at depth 0, reached by a raw switch: descriptor 32, base SS*16 of the
; client's own stack; its record's protected stack ends at 008Fh:800h. Then 16 of them, one after the
; other, each make descriptor 32 anew.
%include "prot.inc"
back    equ 0E000h
ENTER_PROT
        push ds
        pop es
        mov ax, ds
        mov [data], ax
        mov ax, cs
        mov [code], ax
        push ds
        push cs
        pop ds
        mov esi, proc
        mov edi, back
        SVC 0303h
        pop ds
        OK '0303h'
        mov [address], dx
        mov [address+2], cx
        mov ax, [real_cs]
        mov si, ax
        mov cx, ax
        mov dx, 2000h
        mov ebx, 0800h
        mov edi, real
        jmp 0087h:0320h
real:   call far [address]
.next:  mov ax, ss
        IS ax, [stack_is]
        add ax, 10h
        mov [stack_is], ax
        mov ss, ax
        mov sp, 0800h
        cmp word [count], 16
        jne real
        mov ax, 0217h
        mov cx, 0217h
        mov dx, 020Fh
        mov ebx, 0100h
        mov si, 0207h
        mov edi, done
        jmp 0F000h:0101h
done:   mov bx, 0107h
        SVC 0006h
        OK '0006h'
        IS cx, 2
        IS dx, 0F00h            ; 2000h + 15 * 10h paragraphs
        mov bx, 010Fh
        SVC 0006h
        NO '0006h of the next one'
        mov bx, 008Fh           ; the protected stacks' base
        SVC 0006h
        OK '0006h'
        IS cx, 000Eh
        IS dx, 0
        EXIT 0
proc:   mov ebp, esp
        mov bx, ds
        mov ds, [cs:data]
        IS bx, 0107h
        SVC 0006h
        OK '0006h'
        mov ax, [stack_is]
        shl ax, 4               ; base SS*16
        IS dx, ax
        IS cx, 2
        mov eax, 800h - 3*ITEM  ; an IRET frame to 0087h:0323h
        IS ebp, eax
        mov bx, ss
        IS bx, 008Fh
        IS WORDW [bp], 0323h
        IS word [bp+ITEM], 0087h
        IS si, 07FCh
        IS di, back
        inc word [count]
        mov word [es:back+2Ah], real.next
        mov ax, [real_cs]
        mov [es:back+2Ch], ax
        xiret
count:  dw 0
stack_is: dw 2000h
data:   dw 0
code:   dw 0
address: dd 0
PROT_FINISH
