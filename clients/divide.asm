; Handles its own divide error: the handler counts it, and goes on after the division.   nasm -f bin divide.asm -o divide.exe
%include "exe.inc"
    push cs
    pop ds
    mov dx, handler - code
    mov ax, 2500h               ; vector 0 becomes DS:DX
    int 21h
    xor bx, bx
    mov cx, 3
again:
    mov ax, 1
    cwd
    div bx                      ; by 0, three times
    loop again
    mov dl, [errors - code]
    add dl, '0'
    mov ah, 02h
    int 21h
    mov al, [errors - code]     ; end with their number
    mov ah, 4Ch
    int 21h

; the frame's IP is that of the division, which has two bytes
handler:
    push bp
    mov bp, sp
    add word [bp + 2], 2
    inc byte [errors - code]
    pop bp
    iret
errors:
    db 0
end:
