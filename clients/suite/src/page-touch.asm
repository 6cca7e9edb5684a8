;@ page-host-16 -DCASE=1
;@ page-host-32 -DCASE=1 -DW=32
;@ page-none-16 -DCASE=2
;@ page-none-32 -DCASE=2 -DW=32
;@ page-read-only-16 -DCASE=3
;@ page-read-only-32 -DCASE=3 -DW=32
;@ page-mirror -DCASE=4
;@ page-freed -DCASE=5
; Memory through a descriptor of all memory (022Fh in DS).
; Expected: a read at C0000000h, in the host's window, which is there for the host alone: exception 0Eh with code 5 (4: by the client; 1:
; the page is there); a read at 00200000h, where nothing is: code 4; a write at 000F0000h, which can be read only: code 7 (2: a write).
; Nothing handles them: exit fault 0e, depth 1. Functions 0000h and 0008h and then the exception leave a line each after the two of the
; entry.
%include "plain.inc"
START
ENTER
FLAT
%if CASE == 1
        mov esi, 0C0000000h
        mov al, [esi]
%elif CASE == 2
        mov esi, 00200000h
        mov al, [esi]
%elif CASE == 3
        mov esi, 000F0000h
        mov [esi], al
%elif CASE == 4                 ; From 100000h on the first 64 KB are seen once more. The doubleword at FFFFEh is two bytes F4h of the
        mov esi, 000FFFFEh      ; read-only memory and the two at 0, the low half of vector 0, 0: EBP = 0000F4F4h. What is written
        mov ebp, [esi]          ; at 100000h is read at 0: EDX = 12345678h. Exit 0
        mov dword [esi+2], 12345678h
        xor edi, edi
        mov edx, [edi]
        EXIT 0
%else                           ; A page of a block is read, the block is freed, and the page is read again by the same instruction: code 4
        mov ax, 0501h
        xor bx, bx
        mov cx, 1000h
        int 31h
        mov ebp, 00400000h
        mov al, [ds:ebp]
        SERVICE 0502h
        mov al, [ds:ebp]
%endif
FINISH
