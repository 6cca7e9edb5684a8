; Prints a line, and ends with 0.                         nasm -f bin hello.asm -o hello.exe
%include "exe.inc"
    push cs
    pop ds
    mov dx, text - code
    mov ah, 09h                 ; print up to '$'
    int 21h
    mov ax, 4C00h               ; end with 0
    int 21h
text:
    db 'Hello from real mode.', 13, 10, '$'
end:
