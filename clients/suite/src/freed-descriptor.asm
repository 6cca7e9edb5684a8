;@ freed-data -DCASE=1
;@ freed-code -DCASE=2
;@ freed-stack -DCASE=3
; A descriptor is freed by function 0001h while a segment register holds its selector: the register keeps it, and the next access through it
; raises the exception of a selector that isn't held, with the selector as code, its two low bits clear.
; Expected: `int31 0001 ok`, then exit fault 0d code=00000214 for DS, 0d code=00000204 for CS (the next instruction can't be fetched), and
; 0c code=0000020c for SS (a push).
%include "plain.inc"
START
ENTER
%if CASE == 1
        mov bx, ds
        SERVICE 0001h
        mov al, [0]
%elif CASE == 2
        mov bx, cs
        SERVICE 0001h
        nop
%else
        mov bx, ss
        SERVICE 0001h
        push ax
%endif
FINISH
