;@ t-one -DCASE=1
;@ t-two -DCASE=2
;@ t-three -DCASE=3
;@ t-five -DCASE=4
; Small N in real mode with the default vector, which takes two rounds. With --timer 1 and
; --timer 2 nothing goes on after the first instruction or two: bound (words: --bound 500). With --timer 3
; one instruction is run in three rounds, with --timer 5 three in five.
%include "client.inc"
START
        mov cx, 20
.l:     inc ax
        loop .l
        EXIT 21
        FINISH
