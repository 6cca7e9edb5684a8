; Relocations: 0074h is added, modulo 65536, to each word named, in order, also twice, also where
; words overlap, and also after the image (but within the program block).
%include "client.inc"
section head start=0 vstart=0
        db 'MZ'
        dw (80+size) % 512, (80+size+511) / 512, 10, 5, 0010h, 0010h, (size+15) / 16, 0100h
        dw 0, 0, 0, table, 0, 0, 0
table:  dw code - first + 1, 0
        dw pointer - first + 2, 0
        dw twice - first, 0
        dw twice - first, 0
        dw 4, (aligned - first) / 16
        dw wraps - first, 0
        dw over - first, 0
        dw over - first + 1, 0
        dw size + 1, 0
        dw 10h, (size + 15) / 16
        times 80 - ($-$$) db 0
section .text start=80 vstart=0
first:
code:   mov ax, 0
        V4 ax
        mov bx, cs
        V4 bx
        call far [cs:pointer]
        H4 [cs:twice]
        SAY ' '
        H4 [cs:aligned+4]
        SAY ' '
        H4 [cs:wraps]
        SAY ' '
        H4 [cs:over]
        H2 [cs:over+2]
        SAY ' '
        H4 [cs:size+1]
        SAY ' '
        H4 [ss:10h]
        NL
        EXIT 0
callee: SAY 'far call '
        retf
pointer: dw callee, 0
twice:  dw 1
wraps:  dw 0FFFFh
over:   db 0FFh, 0FFh, 0
        align 16
aligned: dw 1111h, 2222h, 1000h
FINISH
