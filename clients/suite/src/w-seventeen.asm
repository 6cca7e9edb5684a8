;@ w-seventeen
; Sixteen watchpoints get the handles 1 to 16, each compared with SI; there is no seventeenth.
; Expected: 16 lines `int31 0b00 ok`, then `int31 0b00 carry` and `int31 0b02 carry`; exit 0, and 1 where a handle or a carry is another. At
; the end ESI = 11h; EDI = 8016h, since no handle is free; EBP = 8023h, since handle 17, in EBX, isn't held. 217 steps: the entry takes 9,
; MOV 1, each of the 16 rounds 12 with the trap of INT 31h, each of the two refusals 6, and the end 3.
%include "plain.inc"
START
ENTER
        mov si, 1
more:   mov ax, 0B00h
        xor bx, bx
        xor cx, cx
        mov dx, 0101h           ; one byte, at 0, when it is written
        int 31h
        jc wrong
        cmp bx, si
        jne wrong
        inc si
        cmp si, 17
        jne more
        mov ax, 0B00h
        xor bx, bx
        int 31h
        jnc wrong
        mov di, ax
        mov ax, 0B02h
        mov bx, 17
        int 31h
        jnc wrong
        mov bp, ax
        EXIT 0
wrong:  EXIT 1
FINISH
