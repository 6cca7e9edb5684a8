;@ t-clock -i ../../
;@ t-clock-16 -i ../../ -DWIDTH=0
;@ t-clock-32 -i ../../ -DWIDTH=1
; The clock of clients/clock.asm, which counts the timer's ticks with handlers of its own (words: --timer 1000). The same words give the
; same bytes on every run, so the rounds that it counts between two lines are in the text too.
; Expected: exit 0; a console of 60 bytes, five lines `00:01 ` to `00:05 ` with a number each. A second is 18 ticks of 1,000 turns, and a
; round of the loop takes three turns, so the number is below 6,000, by less than a hundred: the ticks, and the letters of the line before,
; are turns too. Steps: 90 ticks and what the last line takes, 90,000 and some hundreds.
%include "clock.asm"
