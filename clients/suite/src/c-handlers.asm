;@ c-deep-16 -DW=16 -DPRINT -DCASE=1
;@ c-deep-32 -DW=32 -DPRINT -DCASE=1
;@ c-handler-16 -DW=16 -DPRINT -DCASE=2
;@ c-handler-32 -DW=32 -DPRINT -DCASE=2
;@ c-stacks-16 -DW=16 -DPRINT -DCASE=3
;@ c-stacks-32 -DW=32 -DPRINT -DCASE=3
; Calls and reflections within exception handlers: a call and a reflection at depth 15, a call at depth 1,
; and the host's real stacks, of which each depth has its own. c-deep ends with 1: fifteen handlers and a
; reflection leave room for records, so the call from there is served.
%include "prot.inc"
%include "call.inc"
ENTER_PROT
        push ds
        pop es
        FILL
        SETW S_IP, callee
        SETW S_FLAGS, 0202h
        mov edi, struct
        mov bl, 0Dh
        mov cx, cs
        mov edx, handler
        SVC 0203h
        mov cx, 0
        hlt
back:   SAY 'end', 10
        EXIT 0
callee: SAY 'real', 10
%if CASE == 3
        mov ax, ss
        V4 ax
        VSP
        NL
%endif
        retf
handler: mov bp, sp
%if CASE == 1                   ; fifteen handlers within one another
        inc byte [level]
        cmp byte [level], 15
        je .last
        hlt
.last:  SAY 'fifteen', 10       ; by a reflection, a record more
        mov bl, 0Dh
        mov cx, cs
        mov edx, sixteen
        SVC 0203h
        hlt
sixteen: mov cx, 0
        mov edi, struct
        SVC 0301h
        jc .refused             ; printing would be a reflection too
        EXIT 1
.refused: int 60h               ; a reflection
        EXIT 2
%elif CASE == 2
        SVC 0301h
        CALLED '0301h in a handler'
        int 61h
        mov WORDW [bp+3*ITEM], back
        xretf
%else                           ; six handlers within one another, with a call in each
        inc byte [level]
        push bp
        SVC 0301h
        pop bp
        cmp byte [level], 6
        je .out
        hlt
.out:   mov bp, sp
        dec byte [level]
        mov WORDW [bp+3*ITEM], back
        cmp byte [level], 0
        je .first
        mov WORDW [bp+3*ITEM], .out
.first: xretf
%endif
level:  dw 0
CALL_FINISH
