; 512 memory blocks of a page are held, and the last one is freed and made again: each time the first gap and the lowest handle are sought.
;     nasm -f bin -I ../clients/ -DWIDTH=16 blocks.asm -o blocks16.exe          # in protected mode alone; WIDTH=32 is for 32 bits
%include "exe.inc"
%include "mode.inc"
    mov dx, 512
make:
    mov bx, 0
    mov cx, 1
    mov ax, 0501h
    int 31h
    dec dx
    jnz make
    mov dx, 2000
again:
    mov si, 0
    mov di, 512
    mov ax, 0502h
    int 31h
    mov bx, 0
    mov cx, 1
    mov ax, 0501h
    int 31h
    dec dx
    jnz again
    mov ax, 4C00h
    int 21h
end:
