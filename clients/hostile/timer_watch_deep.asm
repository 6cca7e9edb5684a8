; A watchpoint's hit and the timer's interrupt are due together, in handlers of exceptions at depth LEVEL. By MODEL.md, section 14, a
; round asks for the timer first, which in protected mode needs a depth below 32; then for the hit, which at depth 32 ends the run. At
; depth 31 it is reflected, at depth 32 the hit waits since the mode is real, and after the return exception 1 comes, at depth 31.
;: -DLEVEL=31 --timer 500
;= enter 31 reflect 08 ..
;= leave 31 reflect 08 ..
;= enter 31 exc 01 ..
;= leave 31 exc 01 ..
;= exit exited 0
;= depth 31
; With a handler of the client's own, exception 1 comes before that handler's first instruction.
;: -DLEVEL=31 -DOWN --timer 500
;= enter 31 exc 01 ..
;= leave 31 exc 01 ..
;= exit exited 0
;= depth 31
;- enter 31 reflect 08 ..
; At depth 32 the interrupt isn't taken, and the hit ends the run.
;: -DLEVEL=32 --timer 500
;= exit deep
;= mode protected
;= depth 32
;- enter 31 reflect 08 ..
;- enter .. exc 01 ..
;: -DLEVEL=32 -DOWN --timer 500
;= exit deep
;= depth 32
;- enter .. exc 01 ..
%include "hostile.inc"
    enter_protected
    cli
    exception 1, on_hit
    exception 0Dh, handler
%ifdef OWN
    mov bl, 8
    mov cx, cs
    mov edx, on_tick - code
    service 0205h
%endif
    watch linear(enables), 1, 0
    hlt
handler:                        ; virtual interrupts are disabled in it
    inc word [level - code]
    cmp word [level - code], LEVEL
    je deepest
    hlt
deepest:
    mov cx, 1000                ; until an interrupt waits
    loop $
enables:
    sti
after_enabling:
    nop
    cli
    check word [hits - code], 1
%ifdef OWN
    check word [ticks - code], 1
    check word [where - code], on_tick - code
%else
    check word [where - code], after_enabling - code
%endif
    finish 0
on_hit:
    push bp
    push ax
    mov bp, sp
    inc word [hits - code]
    mov ax, [bp+4+3*ITEM]
    mov [where - code], ax
    pop ax
    pop bp
    far_return
on_tick:
    inc word [ticks - code]
    interrupt_return
level:
    dw 0
hits:
    dw 0
ticks:
    dw 0
where:
    dw 0
end:
