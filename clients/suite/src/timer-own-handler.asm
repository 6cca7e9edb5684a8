;@ timer-own-handler
; The client's own handler of the timer's interrupt, an IRET in protected mode (words: --timer 18).
; Expected: the entry takes 9 turns and function 0205h with its trap 6, the jump is the 16th, the first NOP the 17th; then the interrupt is
; due and the handler is called, once, as the 18th turn. 24 steps; 4 lines, none of which tells of it; it starts with virtual interrupts
; disabled, and IRET leaves them so: `fl` at the end, 0046, has no IF.
%include "plain.inc"
START
ENTER
        mov ax, 0205h
        mov bl, 08h
        mov cx, cs
        mov dx, handler
        int 31h
        jmp short on
handler: iret
on:     nop
        nop
        nop
        EXIT 0
FINISH
