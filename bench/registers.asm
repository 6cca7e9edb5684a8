; Register arithmetic and loops: 20 times 65,535 rounds of seven instructions.
;     nasm -f bin -I ../clients/ registers.asm -o registers.exe                    # in real mode
;     nasm -f bin -I ../clients/ -DWIDTH=16 registers.asm -o registers16.exe       # in protected mode, as a client of 16 bits
;     nasm -f bin -I ../clients/ -DWIDTH=32 registers.asm -o registers32.exe       # or of 32 bits
%include "exe.inc"
%include "mode.inc"
%ifndef ROUNDS
    %define ROUNDS 20
%endif
    mov dx, ROUNDS
outer:
    mov cx, 65535
inner:
    add ax, bx
    xor bx, cx
    lea si, [bx+di+3]
    adc di, ax
    shr bp, 1
    dec cx
    jnz inner
    dec dx
    jnz outer
    mov ax, 4C00h
    int 21h
end:
