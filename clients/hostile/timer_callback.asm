; Real vector 08h is a callback, whose procedure counts in protected mode. By MODEL.md, sections 13 and 14: in protected mode the
; timer's interrupt is reflected, at depth 0, and the callback starts at depth 1; in real mode the callback starts at depth 0. The
; procedure returns as IRET would: it takes IP, CS and the flags from the real caller's stack at DS:(E)SI, and puts them into the
; structure with SP 6 higher.
;: -DW=16 --timer 500
;= enter 0 reflect 08 ..
;= enter 1 back 0 ..
;= leave 1 back 0 ..
;= leave 0 reflect 08 ..
;= switch real
;= enter 0 back 0 ..
;= leave 0 back 0 ..
;= exit exited 0
;= mode real
;= depth 0
;- enter 2 ..
;: -DW=32 --timer 500
;= enter 0 reflect 08 ..
;= enter 1 back 0 ..
;= leave 1 back 0 ..
;= leave 0 reflect 08 ..
;= switch real
;= enter 0 back 0 ..
;= leave 0 back 0 ..
;= exit exited 0
;= depth 0
;- enter 2 ..
; In the handler of an exception at depth 30 there is room for both. At depth 31, below the greatest, it is taken, and the callback is
; one too many.
;: -DW=16 -DDEEP=30 --timer 500
;= enter 30 reflect 08 ..
;= enter 31 back 0 ..
;= leave 31 back 0 ..
;= leave 30 reflect 08 ..
;= exit exited 0
;= depth 30
;: -DW=16 -DDEEP=31 --timer 500
;= enter 31 reflect 08 ..
;= exit deep
;= mode real
;= depth 32
;- enter 32 ..
%include "hostile.inc"
    enter_protected
    push ds
    pop es
    push cs
    pop ds
    mov esi, procedure - code
    mov edi, structure - code
    mov ax, 0303h
    int 31h                     ; CX:DX = the callback
    push es
    pop ds
    mov bl, 8
    service 0201h
%ifdef DEEP
    exception 0Dh, handler
    hlt
handler:                        ; virtual interrupts are disabled in it
    inc word [level - code]
    cmp word [level - code], DEEP
    je deepest
    hlt
deepest:
    mov word [count - code], 0
    sti
    mov cx, 1000
    loop $
    cmp word [count - code], 2
    jae enough
    finish 100
enough:
    finish 0
%else
    ; Ten ticks at least in 5,000 rounds of the loop, and no register is another after them.
    mov word [count - code], 0
    mov eax, 11112222h
    mov ebx, 33334444h
    mov edx, 55556666h
    mov esi, 77778888h
    mov edi, 9999AAAAh
    mov ebp, 0BBBBCCCCh
    mov cx, 5000
    loop $
    check eax, 11112222h
    check ebx, 33334444h
    check edx, 55556666h
    check esi, 77778888h
    check edi, 9999AAAAh
    check ebp, 0BBBBCCCCh
    check esp, 100h
    cmp word [count - code], 10
    jae enough
    finish 100
enough:
    mov word [count - code], 0
    mov ax, [real_code - code]  ; a raw switch: DS, ES, SS, SP, CS, IP
    mov cx, ax
    mov dx, 3000h
    mov ebx, 800h
    mov si, ax
    mov edi, real - code
    jmp 87h:320h
real:
    mov cx, 5000
    loop $
    check sp, 800h
    cmp word [count - code], 10
    jae enough_again
    finish 101
enough_again:
    finish 0
%endif
procedure:                      ; ES:(E)DI is the structure, in the image's segment
    push ax
    mov ax, [si]
    mov [es:di+2Ah], ax
    mov ax, [si+2]
    mov [es:di+2Ch], ax
    mov ax, [si+4]
    mov [es:di+20h], ax
    add word [es:di+2Eh], 6
    inc word [es:count - code]
    pop ax
    interrupt_return
count:
    dw 0
level:
    dw 0
structure:
    times 32h db 0
end:
