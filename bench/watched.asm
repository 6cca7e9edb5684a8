; The loop of registers.asm with sixteen watchpoints on a word that it doesn't touch: each instruction is compared with them.
;     nasm -f bin -I ../clients/ -DWIDTH=16 watched.asm -o watched16.exe        # in protected mode alone, with 16 bits
;     nasm -f bin -I ../clients/ -DWIDTH=32 watched.asm -o watched32.exe        # or with 32
%include "exe.inc"
%include "mode.inc"
    mov bp, 16
watch:
    mov bx, 0                   ; the word at 500h, when it is read or written
    mov cx, 500h
    mov dx, 0202h
    mov ax, 0B00h
    int 31h
    dec bp
    jnz watch
    mov dx, 20
outer:
    mov cx, 65535
inner:
    add ax, bx
    xor bx, cx
    lea si, [bx+di+3]
    adc di, ax
    shr bp, 1
    dec cx
    jnz inner
    dec dx
    jnz outer
    mov ax, 4C00h
    int 21h
end:
