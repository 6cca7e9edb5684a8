; Virtual interrupts are disabled for the whole run, from the first instruction on: the timer's interrupt never comes (MODEL.md, section
; 14), so the text is that of the same run without a timer, to the last byte. With --timer 2 the first interrupt would come in round 2:
; CLI is round 1.
;: -DCASE=1 --timer 2
;= exit exited 0
;~
;: -DCASE=1 --timer 50
;= exit exited 0
;~
;: -DCASE=2 -DW=16 --timer 50
;= exit exited 0
;~
;: -DCASE=2 -DW=32 --timer 3
;= exit exited 0
;~
%include "hostile.inc"
    cli
    push cs
    pop ds
    mov dx, real_handler - code
    mov ax, 2508h
    int 21h
%if CASE == 2
    enter_protected
    mov bl, 8
    mov cx, cs
    mov edx, handler - code
    service 0205h
%endif
    mov cx, 5000
    loop $
    mov ah, 02h                 ; in protected mode it is reflected, and comes back
    mov dl, '.'
    int 21h
    mov cx, 5000
    loop $
    check word [ticks - code], 0
    finish 0
real_handler:
    inc word [cs:ticks - code]
    iret
%if CASE == 2
handler:
    inc word [ticks - code]
    sti
    interrupt_return
%endif
ticks:
    dw 0
end:
