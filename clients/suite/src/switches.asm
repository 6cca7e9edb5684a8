;@ switch-prints -DCASE=1
;@ switch-ds-free -DCASE=2
;@ switch-es-free -DCASE=3
;@ switch-ss-null -DCASE=4
;@ switch-ss-level -DCASE=5
;@ switch-cs-null -DCASE=6
;@ switch-cs-data -DCASE=7
;@ switch-last-byte -DCASE=8
;@ switch-after-last -DCASE=9
; Raw switches: DS, ES, SS:SP and CS:IP of the other mode are in AX, CX, DX:BX and SI:DI; the jump is to 0087h:0320h, and from real mode to
; F000h:0101h.
; 1: prints R in real mode and switches back, to the selector 0204h, which is loaded as 0207h. Expected: console `R`; exit 7, the low byte
;    of CS; `switch real`, `int21 02`, `switch protected`; DS = ES = 0217h, FS = GS = 0.
; 2 to 7: back with a selector that isn't held in DS or in ES, with null or privilege level 0 in SS, null or data in CS. Expected: exit
;    badswitch; the machine is left at the trap, F000h:0101h with SS = 8000h, and `switch real` is the last of 3 lines.
; 8: to the last byte of the first megabyte, FFFFh:000Fh, which is HLT: exit fault 0d code=00000000 at turn 18, CS:EIP = FFFFh:000Fh.
; 9: to the byte after it, FFFFh:0010h, which is the first byte of memory: ADD [BX+SI],AL of two bytes is turn 18. Expected (words: --bound
;    18): exit bound, CS:EIP = FFFFh:0012h.
%include "plain.inc"
%if CASE == 2
 %define NEW_DS 022Fh
%endif
%if CASE == 3
 %define NEW_ES 022Fh
%endif
%if CASE == 4
 %define NEW_SS 0000h
%endif
%if CASE == 5
 %define NEW_SS 020Ch
%endif
%if CASE == 6
 %define NEW_CS 0000h
%endif
%if CASE == 7
 %define NEW_CS 020Fh
%endif
%ifndef NEW_DS
 %define NEW_DS 0217h
%endif
%ifndef NEW_ES
 %define NEW_ES 0217h
%endif
%ifndef NEW_SS
 %define NEW_SS 020Fh
%endif
%ifndef NEW_CS
 %define NEW_CS 0204h
%endif
START
ENTER
        mov ax, 0064h
        mov cx, 0064h
        mov dx, 8000h
        mov bx, 0100h
%if CASE >= 8
        mov si, 0FFFFh
        mov di, 000Fh + (CASE - 8)
        jmp 0087h:0320h
%else
        mov si, 0074h
        mov di, real
        jmp 0087h:0320h
real:
 %if CASE == 1
        mov ah, 02h
        mov dl, 'R'
        int 21h
 %endif
        mov ax, NEW_DS
        mov cx, NEW_ES
        mov dx, NEW_SS
        mov bx, 00FCh
        mov si, NEW_CS
        mov di, protected
        jmp 0F000h:0101h
protected:
 %if CASE == 1
        mov ax, cs
        mov ah, 4Ch
        int 21h
 %endif
%endif
FINISH
