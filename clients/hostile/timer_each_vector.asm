; Vector 08h at each default vector that serves nothing, one after another: all but 00h, 06h, 07h, 20h, 21h, 2Fh and (in protected mode)
; 31h. In real mode the trap pops the frame. In protected mode it pops it, and reflects the interrupt of that number; virtual interrupts
; are disabled after it, but for 08h, the default. Then (the flags apart) nothing is another than before: MODEL.md, section 14.
;: -DCASE=1 --timer 200
;= exit exited 0
;= mode real
;= regs .. esp=000000fa ..
;: -DCASE=2 -DW=16 --timer 200
;= enter 0 reflect 01 ..
;= leave 0 reflect 01 ..
;= enter 0 reflect 08 ..
;= enter 0 reflect ff ..
;= leave 0 reflect ff ..
;= exit exited 0
;= mode protected
;= depth 0
;: -DCASE=2 -DW=32 --timer 200
;= enter 0 reflect 01 ..
;= enter 0 reflect ff ..
;= exit exited 0
;= depth 0
%include "hostile.inc"
    push cs
    pop ds
%if CASE == 2
    enter_protected
%endif
    push ds
    pop es
    cli
next_vector:
    mov al, [vector - code]
    mov di, skipped - code
    mov cx, skipped_end - skipped
    repne scasb
    je no_wait
%if CASE == 1
    push ds                     ; real vector 08h becomes F000h:vector
    mov dx, 0F000h
    mov ds, dx
    mov dx, ax
    and dx, 0FFh
    mov ax, 2508h
    int 21h
    pop ds
%else
    movzx edx, al
    add dx, 200h
    mov cx, 87h
    mov bl, 8
    service 0205h
%endif
    mov eax, 0A1A1A1A1h
    mov ebx, 0B1B1B1B1h
    mov edx, 0D1D1D1D1h
    mov esi, 51515151h
    mov edi, 61616161h
    mov ebp, 71717171h
    mov cx, 250
    sti
    loop $
    cli
    check eax, 0A1A1A1A1h
    check ebx, 0B1B1B1B1h
    check edx, 0D1D1D1D1h
    check esi, 51515151h
    check edi, 61616161h
    check ebp, 71717171h
    check esp, 100h
no_wait:
    inc byte [vector - code]
    jnz next_vector
    finish 0
vector:
    db 0
skipped:
    db 0, 6, 7, 20h, 21h, 2Fh
%if CASE == 2
    db 31h
%endif
skipped_end:
end:
