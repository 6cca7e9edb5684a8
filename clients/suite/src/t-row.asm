;@ t-row-2 -DROW=2
;@ t-row-7 -DROW=7
; t-row-2 (words: --timer 3) writes `A`: the trace has its two lines of INT 21h, and 15 steps are counted, seven
; of the client and the rounds of the interrupts between them. t-row-7 (words: --timer 10) enters protected
; mode and ends: int2f 1687, entry 16, enter 0 reflect 08, leave 0 reflect 08, int21 4c, steps 15.
size    equ code_end - code
section head start=0 vstart=0
        db 'MZ'
        dw (32+size) % 512, (32+size+511) / 512, 0, 2, 0010h, 0FFFFh, (size+15) / 16, 0100h
        dw 0, 0, 0, 1Ch, 0, 0, 0
section .text start=32 vstart=0
code:
%if ROW == 2
        db 0B4h, 02h, 0B2h, 41h, 0CDh, 21h
%else
        db 0B8h, 87h, 16h, 0CDh, 2Fh, 06h, 57h, 89h, 0E5h, 31h, 0C0h, 0FFh, 5Eh, 00h
%endif
        db 0B8h, 00h, 4Ch, 0CDh, 21h
code_end:
