;@ flat-block
; What a usual client of 32 bits does: it shrinks its program to 1000h paragraphs, enters, takes a block of 256 KB, fills it through a
; descriptor of all memory, and prints by two calls of function 0300h.
; Expected: each of these holds, so that it ends with 0. 1 and 2: function 0501h answers BX:CX = 0040h:0000h, the first address of the block
; region; 3 and 4: SI:DI = 0000h:0001h, the lowest handle; 5: function 0000h answers 022Fh, index 69, the first one after the entry's; 6:
; REP STOSD ends at 00440000h. Console `OK`; desc 022f has base 0, limit=ffffffff, flags=8 and origin=own; block 1 is at 00400000h with 64
; pages, and its digest is that of 65,536 times the bytes 04h 03h 02h 01h.
%define W 32
%include "plain.inc"
START
        mov ah, 4Ah             ; ES is the prefix, 0064h
        mov bx, 1000h
        int 21h
ENTER
        mov bx, 0004h
        xor cx, cx
        SERVICE 0501h
        EQUAL bx, 0040h
        EQUAL cx, 0000h
        EQUAL si, 0000h
        EQUAL di, 0001h
        mov cx, 1
        SERVICE 0000h
        EQUAL ax, 022Fh
        mov bx, ax
        xor cx, cx
        xor dx, dx
        SERVICE 0007h
        mov cx, 0FFFFh
        mov dx, 0FFFFh
        SERVICE 0008h
        mov es, bx
        mov edi, 00400000h
        mov ecx, 65536
        mov eax, 01020304h
        a32 rep stosd
        EQUAL edi, 00440000h
        push ds
        pop es
        mov edi, 1000h          ; the structure: AX at 1Ch, DX at 14h
        mov word [di+1Ch], 0200h
        mov byte [di+14h], 'O'
        mov bx, 0021h
        xor cx, cx
        SERVICE 0300h
        mov byte [di+14h], 'K'
        SERVICE 0300h
        EXIT 0
FINISH
