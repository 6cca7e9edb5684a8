;@ b-nested-16 -DW=16 -DPRINT
;@ b-nested-32 -DW=32 -DPRINT
; Calls and callbacks within one another to depth 32, where one more call is refused (c001: with
; carry); everything then unwinds. The levels up to depth 14 print how they start and end.
%include "prot.inc"
%include "call.inc"
back    equ 8100h
ENTER_PROT
        push ds
        pop es
        push ds
        push cs
        pop ds
        mov esi, proc
        mov edi, back
        SVC 0303h
        OK '0303h'
        pop ds
        mov [address], dx
        mov [address+2], cx
        call round
        SAY 'done', 10
        EXIT 0
round:  mov edi, struct         ; a call: its own structure for each level
        mov ax, [level]
        imul ax, 40h
        add di, ax
        mov word [es:di+S_CS], 0
        mov ax, [real_cs]
        mov [es:di+S_CS], ax
        mov word [es:di+S_IP], callee
        mov dword [es:di+S_SP], 0
        mov word [es:di+S_DS], ax
        mov word [es:di+S_FLAGS], 0202h
        mov ax, [level]
        mov [es:di+S_EAX], ax
        mov cx, 0
        SVC 0301h
        ret
callee: SAY '('                 ; real mode, at an even depth plus one
        H2 al
        cmp al, 7               ; depth 15: the callback's procedure has no room to print
        je .quiet
        call far [address]
        SAY ')'
        retf
.quiet: call far [address]
        V4 ax
        SAY ')'
        retf
proc:   mov eax, [si]
        mov [es:di+S_IP], eax
        add word [es:di+S_SP], 4
        mov ax, [es:di+S_EAX]
        cmp ax, 7
        je .last
        push es
        pop ds                  ; DS is the caller's stack: take the image's
        SAY '['
        V4 ss
        VSP
        mov word [level], ax
        inc word [level]
        call keep
        call round
        dec word [level]
        call bring
        SAY ']'
        xiret
.last:  mov cx, 0               ; the calls at depth 16 and more
        push xdi
        mov edi, struct + 7*40h
        SVC 0301h
        pop xdi
        mov word [es:di+S_EAX], 0
        adc word [es:di+S_EAX], 0C000h ; shows the carry
        xiret
keep:   pop bx                  ; the structure of the callback on the stack, 32h bytes
        mov cx, 25
.more:  push word [es:di]
        add di, 2
        loop .more
        jmp bx
bring:  pop bx
        mov edi, back + 32h
        mov cx, 25
.more:  sub di, 2
        pop word [es:di]
        loop .more
        jmp bx
level:  dw 0
address: dd 0
CALL_FINISH
