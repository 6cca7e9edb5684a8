; Memory, calls and the stack: 6 times 65,535 calls of a procedure with a frame, which adds two arguments to a variable.
;     nasm -f bin -I ../clients/ procedures.asm -o procedures.exe                    # in real mode
;     nasm -f bin -I ../clients/ -DWIDTH=16 procedures.asm -o procedures16.exe       # in protected mode, as a client of 16 bits
;     nasm -f bin -I ../clients/ -DWIDTH=32 procedures.asm -o procedures32.exe       # or of 32 bits
%include "exe.inc"
    mov ax, cs
    mov ds, ax
%include "mode.inc"
%ifndef ROUNDS
    %define ROUNDS 6
%endif
    mov word [rounds - code], ROUNDS
outer:
    mov cx, 65535
inner:
    push cx
    push word [rounds - code]
    call accumulate
    add sp, 2 + W
    inc word [count - code]
    loop inner
    dec word [rounds - code]
    jnz outer
    mov ax, 4C00h
    int 21h

; adds both arguments to the total
accumulate:
    push bp
    mov bp, sp
    push si
    mov si, total - code
    mov ax, [bp + 2*W]
    add [si], ax
    mov eax, [bp + 2*W]
    add [si+2], eax
    pop si
    pop bp
    ret

rounds: dw 0
count:  dw 0
total:  dw 0, 0, 0
end:
