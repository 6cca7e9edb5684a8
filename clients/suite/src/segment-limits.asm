;@ string-limit -DCASE=1
;@ stack-of-four-bytes -DCASE=2
;@ base-moved -DCASE=3
; Segments with another limit or base.
%include "plain.inc"
START
ENTER
%if CASE == 1                   ; REP MOVSB of 8 bytes from the prefix to ES:0, a segment with base 8000h and limit 3. Four are moved; the
        xor ax, ax              ; fifth raises exception 0Dh with code 0. Expected: exit fault 0d code=00000000; ECX = ESI = EDI = 4; the
        mov cx, 1               ; `enter` line has the IP of the prefix F3h, 34h, and the registers between two repetitions
        int 31h
        mov bx, ax
        mov ax, 0007h
        xor cx, cx
        mov dx, 8000h
        int 31h
        mov ax, 0008h
        xor cx, cx
        mov dx, 3
        int 31h
        mov es, bx
        xor si, si
        xor di, di
        mov cx, 8
        rep movsb
%elif CASE == 2                 ; SS is a segment of four bytes, into which the frame of an interrupt, six bytes, doesn't fit. Expected:
        xor ax, ax              ; after `int31 0008 ok` exception 0Ch with code 0 at the INT, and exit fault 0c
        mov cx, 1
        int 31h
        mov bx, ax
        mov ax, 0008h
        xor cx, cx
        mov dx, 3
        int 31h
        mov ss, bx
        mov sp, 4
        int 31h
%else                           ; Function 0007h moves the base of the descriptor in DS from the prefix to the image: the next instruction
                                ; reads there.
        mov di, [0]             ; Expected: DI = 20CDh, the INT 20h at the beginning of the prefix; SI = 87B8h, the first two bytes of the
        mov bx, ds              ; image, MOV AX,1687h
        mov ax, 0007h
        xor cx, cx
        mov dx, 0740h
        int 31h
        mov si, [0]
        EXIT 0
%endif
FINISH
