;@ return-lost -DCASE=1
;@ return-in-handler -DCASE=2
;@ return-again -DCASE=3
; Returns of procedures of real mode that mean harm. The run ends at the trap of the return, F000h:0103h, with CS:EIP there.
; 1: the procedure switches to protected mode, frees the descriptor of its own structure, switches back and returns. Expected: exit
;    loststructure, depth 1.
; 2: it switches to protected mode and raises an exception; the handler switches back, and the procedure returns within it. Expected: the
;    top record isn't that of the call: exit stray, depth 2.
; 3: the call returns, and then the client comes to the trap of the return again, by a raw switch to real mode. Expected: exit stray, depth
;    0.
%include "plain.inc"
%macro TO_PROTECTED 1
        mov ax, 0217h
        mov cx, 0217h
        mov dx, 020Fh
        mov bx, 0080h
        mov si, 0204h
        mov di, %1
        jmp 0F000h:0101h
%endmacro
%macro TO_REAL 1                ; with the stack of the call, which has its return address
        mov ax, strict word 0
        mov cx, strict word 0
        mov dx, 0D800h
        mov bx, 03FCh
        mov si, 0074h
        mov di, %1
        jmp 0087h:0320h
%endmacro
START
ENTER
%if CASE == 1
        mov ax, 0000h           ; the structure is at 022Fh:0000h, linear 2000h
        mov cx, 1
        int 31h
        mov bx, ax
        mov ax, 0007h
        xor cx, cx
        mov dx, 2000h
        int 31h
        mov ax, 0008h
        mov dx, 0FFFFh
        int 31h
        mov es, bx
        xor di, di
        mov word [es:di+2Ah], procedure
        mov word [es:di+2Ch], 0074h
        SERVICE 0301h
procedure: TO_PROTECTED inside
inside: mov ax, 0001h
        mov bx, 022Fh
        int 31h
        TO_REAL outside
outside: retf
%elif CASE == 2
        mov ax, 0203h
        mov bl, 0Dh
        mov cx, cs
        mov dx, handler
        int 31h
        push ds
        pop es
        mov di, 1000h
        mov word [di+2Ah], procedure
        mov word [di+2Ch], 0074h
        xor cx, cx
        SERVICE 0301h
procedure: TO_PROTECTED inside
inside: hlt
handler: TO_REAL outside
outside: retf
%else
        push ds
        pop es
        mov di, 1000h
        mov word [di+2Ah], procedure
        mov word [di+2Ch], 0074h
        xor cx, cx
        SERVICE 0301h
        mov si, 0F000h
        mov di, 0103h
        jmp 0087h:0320h
procedure: retf
%endif
FINISH
