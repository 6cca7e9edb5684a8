; A watchpoint on writes of two bytes at linear 000006C0h, in the prefix, and a store there: exit fault 01
; code=00000000, steps 18, depth 1, and eip=00000022, after the store, in the `enter 0 exc 01` line.
size    equ code_end - code
section head start=0 vstart=0
        db 'MZ'
        dw (32+size) % 512, (32+size+511) / 512, 0, 2, 0010h, 0FFFFh, (size+15) / 16, 0100h
        dw 0, 0, 0, 1Ch, 0, 0, 0
section .text start=32 vstart=0
code:   db 0B8h, 87h, 16h, 0CDh, 2Fh, 06h, 57h, 89h, 0E5h, 31h, 0C0h, 0FFh, 5Eh, 00h
        db 0BBh, 00h, 00h, 0B9h, 0C0h, 06h, 0BAh, 02h, 01h, 0B8h, 00h, 0Bh, 0CDh, 31h
        db 0C7h, 06h, 80h, 00h, 34h, 12h
code_end:
