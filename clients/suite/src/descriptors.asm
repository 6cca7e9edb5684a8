;@ descriptors-all -DCASE=1
;@ limit-in-pages -DCASE=2
; Functions 0000h and 0008h at their ends.
; 1: none is asked for; then all 8,123 that are free, indices 69 to 8191; then one more. Expected: EBX = 8021h, ESI = 022Fh (index 69), EDI
;    = 8011h; the lines of function 0000h are carry, ok, carry; 8,130 descriptors, the last one FFFFh.
; 2: the limit FFFFFh, the greatest that counts bytes; 100000h, above it and not the last byte of a page; 100FFFh, 257 pages. Expected: the
;    lines of function 0008h are ok, carry, ok; ESI = 8021h; desc 022f has limit=00100fff and flags=8, that is G.
%include "plain.inc"
START
ENTER
%if CASE == 1
        mov cx, 0
        SERVICE 0000h
        mov bx, ax
        mov cx, 8123
        SERVICE 0000h
        mov si, ax
        mov cx, 1
        SERVICE 0000h
        mov di, ax
%else
        mov cx, 1
        SERVICE 0000h
        mov bx, ax
        mov cx, 000Fh
        mov dx, 0FFFFh
        SERVICE 0008h
        mov cx, 0010h
        mov dx, 0000h
        SERVICE 0008h
        mov si, ax
        mov cx, 0010h
        mov dx, 0FFFh
        SERVICE 0008h
%endif
        EXIT 0
FINISH
