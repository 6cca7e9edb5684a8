; Handlers of the timer's interrupt that never return. By MODEL.md, section 14: of --timer 50, rounds 50, 100, 150 and so on make an
; interrupt due, at most one waits, and it is taken where virtual interrupts are enabled. In its handler they are disabled. BP counts
; the handlers that began. A run with the timer counts its rounds as turns.
;: -DCASE=1 --timer 50 --bound 2000             real mode: it comes once
;= exit bound
;= steps 2000
;= mode real
;= depth 0
;= regs .. ebp=00000001 esp=000000fa ..
;: -DCASE=2 -DW=16 --timer 50 --bound 2000      protected mode, with a handler of the client's own: an interrupt has no record
;= exit bound
;= steps 2000
;= mode protected
;= depth 0
;= regs .. ebp=00000001 esp=000000fa ..
;: -DCASE=2 -DW=32 --timer 50 --bound 2000
;= exit bound
;= depth 0
;= regs .. ebp=00000001 esp=000000f4 ..
;: -DCASE=3 --timer 50 --bound 2000             reflected to a handler of real mode: its record stays
;= enter 0 reflect 08 ..
;= exit bound
;= mode real
;= depth 1
;= regs .. ebp=00000001 esp=000003fa ..
;- leave ..
;: -DCASE=4 --timer 50 --bound 1000             real mode, with STI: in round 1000 it comes for the 20th time; 19 handlers have begun
;= exit bound
;= steps 1000
;= mode real
;= regs .. ebp=00000013 esp=00000088 ..
;: -DCASE=5 -DW=16 --timer 50 --bound 1000      the same in protected mode
;= exit bound
;= mode protected
;= depth 0
;= regs .. ebp=00000013 esp=00000088 ..
;: -DCASE=5 -DW=32 --timer 50                   as a client of 32 bits: 21 frames fit into the 256 bytes of ESP = 100h; the 22nd doesn't
;= enter 0 exc 0c ..
;= exit fault 0c code=00000000
;= steps 1101
;: -DCASE=6 --timer 50 --bound 2000             reflected, with STI in the handler: the next one comes in real mode, to the real vector
;= enter 0 reflect 08 ..
;= exit bound
;= mode real
;= depth 1
;= regs .. ebp=00000027 esp=00000310 ..
;- leave ..
;- enter 1 ..
%include "hostile.inc"
    push cs
    pop ds
    xor ebp, ebp
    mov dx, handler - code
    mov ax, 2508h
    int 21h
%if CASE != 1 && CASE != 4
    enter_protected
%endif
%if CASE == 2 || CASE == 5
    mov bl, 8
    mov cx, cs
    mov edx, handler - code
    service 0205h
%endif
    xor ebp, ebp
    jmp $
handler:
    inc bp
%if CASE >= 4
    sti
%endif
    jmp $
end:
