;@ handler-frees-code -DCASE=1
;@ handler-frees-stack -DCASE=2
;@ handler-outer-frame -DCASE=3
;@ handler-return-again -DCASE=4
;@ handler-no-stack-exit -DCASE=5
;@ handler-no-stack-return -DCASE=6
;@ handler-freed -DCASE=7
;@ handler-prints -DCASE=8
; Handlers of exception 0Dh, which HLT raises, that mean harm, and one that doesn't.
%include "plain.inc"
START
ENTER
%if CASE <= 7
HANDLED
 %if CASE == 4
        hlt
        jmp 0087h:0322h
 %elif CASE == 5 || CASE == 6
        mov bx, 020Fh
        SERVICE 0001h
        hlt
 %elif CASE == 7                ; The handler is set once more, in a code segment of its own, 022Fh, whose descriptor is freed before the
                                ; exception.
        xor ax, ax              ; Expected: exit fault 0d code=00000000, the client's own exception, which has no handler; 7 lines, depth 0
        mov cx, 1
        int 31h
        mov bx, ax
        mov ax, 0009h
        mov cx, 00FBh
        int 31h
        mov cx, bx
        mov ax, 0203h
        mov bl, 0Dh
        xor dx, dx
        int 31h
        mov bx, 022Fh
        SERVICE 0001h
        hlt
 %else
        hlt
 %endif
END_HANDLED
%endif
%if CASE == 1                   ; It frees the descriptor of its own code, 0207h. The next instruction can't be fetched: exception 0Dh with
        mov bx, cs              ; code 0204h, whose handler is in the freed segment too. Expected: exit fault 0d code=00000204, 5 lines,
                                ; depth 1
        SERVICE 0001h
%elif CASE == 2                 ; It frees the descriptor of the client's stack, 020Fh, and returns there. Expected: exit badframe, depth 1
        mov bx, 020Fh
        SERVICE 0001h
        retf
%elif CASE == 3                 ; At depth 0, where SP is 07F0h, it raises the exception again; at depth 1 it jumps to the trap of the
        cmp sp, 07F0h           ; return with the frame of depth 0, whose IP it made that after HLT. Expected: exit 5; the return takes the
        jne .inner              ; record of depth 1, so the record of depth 0 is there to the end: depth 1; 7 lines
        hlt
.inner: mov sp, 07F4h
        inc word [ss:07F6h]
        jmp 0087h:0322h
%elif CASE == 4 || CASE == 6    ; 4: it returns past HLT; then the client jumps to the trap of a return. Expected: exit stray, depth 0, 5
                                ;    lines
        push bp                 ; 6: the client freed the descriptor of its stack before the exception, so its handler can't return.
        mov bp, sp              ; Expected: exit badframe, depth 1, 5 lines
        inc word [bp+08h]
        pop bp
        retf
%elif CASE == 5                 ; The same, but the handler, which runs on the host's stack, ends the client. Expected: exit 7, depth 1, 6
                                ; lines
        mov ax, 4C07h
        int 21h
%elif CASE == 8                 ; It prints B by INT 21h, which is reflected at depth 1, adds 1 to IP in the frame, past HLT, and returns.
        mov ax, 0203h           ; Expected: console `B`, exit 0; enter 0 exc 0d, enter 1 reflect 21, leave 1 reflect 21, leave 0 exc 0d
        mov bl, 0Dh
        mov cx, cs
        mov dx, handler
        int 31h
        hlt
        EXIT 0
handler: mov ah, 02h
        mov dl, 'B'
        int 21h
        mov bp, sp
        inc word [bp+06h]
        retf
%endif
FINISH
