; The first state: registers, flags, stack, the PSP, the environment and the two header paragraphs.
%include "client.inc"
START
        V8 eax
        V8 ebx
        V8 ecx
        V8 edx
        V8 esi
        V8 edi
        V8 ebp
        VSP
        FL
        V4 cs
        V4 ds
        V4 es
        V4 fs
        V4 gs
        mov ax, ss
        mov bx, cs
        sub ax, bx
        V4 ax                   ; SS less CS, as the header says
        NL
        mov si, 0               ; the PSP: CDh 20h, the paragraph after the block, the environment
        mov cx, 10h
        call dump
        mov si, 2Ch
        mov cx, 4
        call dump
        mov si, 78h
        mov cx, 10h
        call dump
        SAY 'sum of the PSP '
        xor si, si
        xor ax, ax
.sum:   add al, [si]
        adc ah, 0
        inc si
        cmp si, 100h
        jne .sum
        H4 ax
        NL
        mov ax, [2Ch]
        mov ds, ax
        mov si, 0
        mov cx, 20h
        call dump
        mov ax, 0060h
        mov ds, ax
        mov si, 0
        mov cx, 10h
        call dump
        mov si, 30h
        call dump
        mov ax, 40h             ; below the arena all is zero
        mov ds, ax
        mov si, 0
        call dump
        mov ax, 0A000h          ; and above it
        mov ds, ax
        call dump
        EXIT 0
dump:   push cx                 ; CX bytes from DS:SI
        mov bx, si
.next:  H2 [bx]
        SAY ' '
        inc bx
        loop .next
        NL
        pop cx
        ret
FINISH
