;@ dos-block
; DOS memory of more than 64 KB, in protected mode. The program is shrunk to 1000h paragraphs, 0064h to 1063h, so that the header of the
; free entry is at 1064h, and 9FFFh - 1064h = 8F9Bh paragraphs are free. Function 48h with FFFFh, in real mode: carry (check 1), AX = 8 (2),
; BX = 8F9Bh (3). Function 0100h with 1001h paragraphs: the block is at 1065h, linear 10650h.
; Expected: exit 0; EBP = 1065h, the segment in AX; EDX = 022Fh, the first of two descriptors. 022f: base 00010650, limit 0001000f, the
; whole block of 10010h bytes; 0237: base 00020650, limit 0000000f, the last 10h bytes. Both have origin=dos.
%include "plain.inc"
START
        mov ah, 4Ah             ; ES is the prefix, 0064h
        mov bx, 1000h
        int 21h
        mov ah, 48h
        mov bx, 0FFFFh
        int 21h
        sbb dx, dx              ; FFFFh where carry is set
        EQUAL dx, 0FFFFh
        EQUAL ax, 8
        EQUAL bx, 8F9Bh
ENTER
        mov bx, 1001h
        SERVICE 0100h
        mov bp, ax
        EXIT 0
FINISH
