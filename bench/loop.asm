; ADD, XOR, INC, DEC and JNZ: 20 times 65,535 rounds, in real mode.
;     nasm -f bin -I ../clients/ loop.asm -o loop.exe
%include "exe.inc"
%include "mode.inc"
%ifndef ROUNDS
    %define ROUNDS 20
%endif
    mov dx, ROUNDS
outer:
    mov cx, 65535
inner:
    add ax, bx
    xor bx, cx
    inc si
    dec cx
    jnz inner
    dec dx
    jnz outer
    mov ax, 4C00h
    int 21h
end:
