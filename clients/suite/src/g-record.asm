;@ g-record-16 -DW=16
;@ g-record-32 -DW=32
; All kinds of records nested to depth 32: exception, reflection, callback, exception and so on,
; eight rounds of four. A real handler of INT 60h asks for the next level by the callback. Every
; level's registers come back.
%include "prot.inc"
back    equ 0E000h
ENTER_PROT
        push ds
        pop es
        mov ax, ds
        mov [data], ax
        push ds
        push cs
        pop ds
        mov esi, proc
        mov edi, back
        SVC 0303h
        pop ds
        OK '0303h'
        mov [address], dx
        mov [address+2], cx
        mov bl, 60h
        mov cx, [real_cs]
        mov dx, real
        SVC 0201h
        OK '0201h'
        mov bl, 0Dh
        mov cx, cs
        mov edx, handler
        SVC 0203h
        OK '0203h'
        mov ebp, 5A5A5A5Ah
        mov esi, 0
        hlt                     ; depth 0
        IS esi, 0
        IS ebp, 5A5A5A5Ah
        IS word [most], 11
        IS word [level], 0
        mov bx, sp
        IS bx, 0100h
        EXIT 0
handler: mov ds, [cs:data]      ; an exception of depth 3n
        inc word [level]
        push ebp
        push esi
        mov esi, 0AAAA0000h
        mov si, [level]
        push esi
        int 60h                 ; a reflection of depth 3n+1, or at depth 31 the last
        pop ebx
        IS esi, ebx
        pop esi
        pop ebp
        dec word [level]
        mov bp, sp
        inc WORDW [bp+3*ITEM]
        mov ebp, 5A5A5A5Ah
        xretf
real:   mov ax, [cs:level]      ; real mode
        mov [cs:most], ax
        cmp ax, 11              ; depth 32: one more would be deep
        je .end
        push esi
        call far [cs:address]   ; a callback of depth 3n+2
.back:  add sp, 4               ; the far return address
        pop esi
.end:   iret
proc:   mov ds, [cs:data]
        mov cx, 25              ; the callback's structure onto the stack
        mov bx, 0
.keep:  push word [es:back+bx]
        add bx, 2
        loop .keep
        push es
        mov ebp, 5A5A5A5Ah
        hlt                     ; an exception of depth 3n+3
        IS ebp, 5A5A5A5Ah
        pop es
        mov cx, 25
        mov bx, 48
.bring: pop word [es:back+bx]
        sub bx, 2
        loop .bring
        mov edi, back
        mov word [es:back+2Ah], real.back
        mov ax, [real_cs]
        mov [es:back+2Ch], ax
        xiret
level:  dw 0
most:   dw 0
data:   dw 0
address: dd 0
PROT_FINISH
