;@ p-client-fast -DTIMES=26 -DPAUSE=5 -DFIRST=97
;@ p-client-slow -DTIMES=10 -DPAUSE=100 -DFIRST=65
;@ p-client-late -DTIMES=3 -DPAUSE=1000 -DFIRST=48
;@ p-client-quiet -DTIMES=0 -DPAUSE=3 -DFIRST=48
;@ p-client-burst -DTIMES=50 -DPAUSE=1 -DFIRST=48
;@ p-client-lines -DTIMES=6 -DPAUSE=9 -DFIRST=10 -DSAME
; For the pairs: TIMES letters from FIRST on, before each a loop of PAUSE rounds. Letter k, counted from
; 1, is written by turn 2 + (k-1)*(PAUSE+7) + PAUSE + 4: two MOV first, and for each letter MOV, the
; loop, MOV, INT, the trap, INC (but for p-client-lines), DEC and the jump.
%include "client.inc"
START
        mov dl, FIRST
        mov bx, TIMES
.more:  mov cx, PAUSE
        loop $
%if TIMES
        mov ah, 02h
        int 21h
 %ifndef SAME
        inc dl
 %endif
        dec bx
        jnz .more
%endif
        EXIT TIMES
        FINISH
