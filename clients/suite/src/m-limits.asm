;@ m-pages -DW=32 -DCASE=1
;@ m-handles -DW=16 -DCASE=2
;@ d-limit -DW=32 -DCASE=3
; Limits. m-pages ends with the number of blocks that the budget gives: as many of 64 KB as there
; are, then as many of one page (64 with the default budget). m-handles makes 256 blocks and asks for one
; more, which is served: it ends with 5, the number of that check. d-limit: 8123 descriptors.
%include "prot.inc"
ENTER_PROT
%if CASE == 1
        xor bp, bp
.large: mov bx, 1
        mov cx, 0
        SVC 0501h
        jc .small
        inc bp
        jmp .large
.small: mov bx, 0
        mov cx, 1
        SVC 0501h
        jc .end
        inc bp
        jmp .small
.end:   mov ax, bp
        mov ah, 4Ch
        int 21h
%elif CASE == 2
        mov bp, 256
.more:  mov bx, 0
        mov cx, 1
        SVC 0501h
        OK '0501h'
        dec bp
        jnz .more
        IS di, 256
        IS bx, 0040h + 000Fh    ; the last of 256 pages from 00400000h on
        IS cx, 0F000h
        mov bx, 0
        mov cx, 1
        SVC 0501h
        NO '0501h'
        mov si, 0
        mov di, 7
        SVC 0502h
        OK '0502h'
        mov bx, 0
        mov cx, 1
        SVC 0501h
        OK '0501h'
        IS di, 7
%else
        mov cx, 1FBCh
        SVC 0000h
        NO '0000h of 8124'
        mov cx, 1FBBh
        SVC 0000h
        OK '0000h of 8123'
        IS ax, 022Fh
        mov cx, 1
        SVC 0000h
        NO '0000h'
        mov bx, cs
        SVC 000Ah
        NO '000Ah'
        mov bx, 0040h
        SVC 0002h
        NO '0002h'
        mov bx, 0FFFFh          ; the last one
        SVC 0001h
        OK '0001h'
        mov bx, 0040h
        SVC 0002h
        OK '0002h'
        IS ax, 0FFFFh
%endif
        DONE
