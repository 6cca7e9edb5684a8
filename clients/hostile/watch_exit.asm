; A hit, or what looks like one, and the end of the run. By MODEL.md, section 14: an instruction that is an event hits nothing; a hit is
; due after its instruction; the exception is a turn of its own.
;: -DCASE=1                     INT 21h function 4Ch at a watchpoint for executing: a software interrupt, so no hit. It ends the client.
;= exit exited 7
;- enter 0 exc 01 ..
;: -DCASE=2                     HLT at a watchpoint for executing, and nothing handles it: exception 0Dh, and not 1.
;= enter 0 exc 0d ..
;= exit fault 0d code=00000000
;- enter 0 exc 01 ..
;: -DCASE=3                     A word that is half read-only is written over a watched byte: exception 0Eh, code 7, and not 1.
;= enter 0 exc 0e ..
;= exit fault 0e code=00000007
;- enter 0 exc 01 ..
;: -DCASE=4 --bound 16          A store that hits is the last turn: the exception never comes.
;= exit bound
;= steps 16
;= depth 0
;- enter 0 exc 01 ..
;: -DCASE=4 --bound 17          One turn more: it is delivered, and its handler hasn't run.
;= enter 0 exc 01 ..
;= exit bound
;= steps 17
;= depth 1
;: -DCASE=4                     And one more: the default handler ends the run.
;= exit fault 01 code=00000000
;= steps 18
;: -DCASE=5                     A hit in real mode, and the client ends there: it never comes.
;= exit exited 3
;= depth 0
;- enter 0 exc 01 ..
;: -DCASE=6                     A hit by the last store before INT 21h function 4Ch: exception 1 comes before that, and ends the run.
;= exit fault 01 code=00000000
;- int21 4c
%include "hostile.inc"
%if CASE == 4
    mov ax, 1687h               ; nine turns to the client's first instruction in protected mode
    int 2Fh
    push es
    push di
    mov bp, sp
    xor ax, ax
    call far [bp]
    mov bx, 0                   ; a watchpoint on a word of the prefix, six turns
    mov cx, 6C0h
    mov dx, 102h
    mov ax, 0B00h
    int 31h
    mov word [80h], 1234h       ; turn 16
    nop
%else
    enter_protected
%endif
%if CASE == 1
    watch linear(last), 2, 0
    mov ax, 4C07h
last:
    int 21h
%elif CASE == 2
    watch linear(last), 1, 0
last:
    hlt
%elif CASE == 3
    mov cx, 1
    service 0000h
    mov bx, ax
    mov cx, 0Eh                 ; base EFFF0h
    mov dx, 0FFF0h
    service 0007h
    mov cx, 0
    mov dx, 0FFh
    service 0008h
    mov es, bx
    watch 0EFFFFh, 1, 1
    mov [es:0Fh], ax            ; EFFFFh, and F0000h, which is read-only
    finish 1
%elif CASE == 5
    watch linear(cell), 2, 1
    mov ax, [real_code - code]  ; a raw switch: DS, ES, SS, SP, CS, IP
    mov cx, ax
    mov dx, 3000h
    mov ebx, 800h
    mov si, ax
    mov edi, real - code
    jmp 87h:320h
real:
    mov [cell - code], ax
    mov ax, 4C03h
    int 21h
%elif CASE == 6
    watch linear(cell), 2, 1
    mov ax, 4C07h
    mov [cell - code], ax
    int 21h
%endif
cell:
    dw 0
end:
