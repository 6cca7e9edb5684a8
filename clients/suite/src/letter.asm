;@ letter
; Prints the letter A and ends: the shortest client that writes something.
; Expected: console `A`; INT 21h AH = 02h and AH = 4Ch in the trace; exit 0; 7 steps, five instructions and the two traps at F000h:0021h.
; The frame of the last interrupt, 6 bytes, is still on the stack: SP = 00FAh. No descriptor and no block is left. With --bound 1 the run
; ends after the first instruction: AH = 2, EIP = 2, no line.
%include "plain.inc"
START
        mov ah, 02h
        mov dl, 'A'
        int 21h
        EXIT 0
FINISH
