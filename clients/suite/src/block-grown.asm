;@ block-grown
; With a budget of 8 pages: two blocks of 4 pages each, at 00400000h and 00404000h. The first is freed; the second shrinks to one page and
; grows to 8 where it is.
; Expected: 11223344h was written to its first page, which it kept: ESI. The second page was written too and given back, so it is 0 when it
; comes again: EDI; so is the eighth: EBP. One block is left: handle 2 at 00404000h with 8 pages. Words: --pages=8.
%include "plain.inc"
START
ENTER
FLAT
        mov ax, 0501h
        xor bx, bx
        mov cx, 4000h
        int 31h
        mov ax, 0501h
        mov cx, 4000h
        xor bx, bx
        int 31h
        mov edx, 00404000h
        mov eax, 11223344h
        mov [edx], eax
        mov [edx+1000h], eax
        mov ax, 0502h           ; handle 1
        xor si, si
        mov di, 1
        int 31h
        mov ax, 0503h           ; handle 2: a page
        xor bx, bx
        mov cx, 1000h
        mov di, 2
        int 31h
        mov ax, 0503h           ; and 8 pages
        xor bx, bx
        mov cx, 8000h
        int 31h
        mov esi, [edx]
        mov edi, [edx+1000h]
        mov ebp, [edx+7000h]
        EXIT 0
FINISH
