;@ g-row-6
; The client of 16 bits that prints Z through a reflection of INT 21h: its enter and leave lines have ss=d800,
; and the line of 008f has base=000e0000 limit=0000ffff; console `Z`, steps 21, seven trace lines, seven
; descriptors.
size    equ code_end - code
section head start=0 vstart=0
        db 'MZ'
        dw (32+size) % 512, (32+size+511) / 512, 0, 2, 0010h, 0FFFFh, (size+15) / 16, 0100h
        dw 0, 0, 0, 1Ch, 0, 0, 0
section .text start=32 vstart=0
code:   db 0B8h, 87h, 16h, 0CDh, 2Fh, 06h, 57h, 89h, 0E5h, 31h, 0C0h, 0FFh, 5Eh, 00h
        db 0B8h, 00h, 04h, 0CDh, 31h, 88h, 0C2h, 0B4h, 02h, 0CDh, 21h, 0B8h, 00h, 4Ch, 0CDh, 21h
code_end:
