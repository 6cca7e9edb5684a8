; Computes the squares of 1 to 12 and prints them in decimal.   nasm -f bin squares.asm -o squares.exe
%include "exe.inc"
    mov si, 1
next:
    mov ax, si
    mul si                      ; AX = SI * SI
    call print_number
    mov dl, ' '
    mov ah, 02h
    int 21h
    inc si
    cmp si, 12
    jbe next
    mov ax, 4C00h
    int 21h

; prints AX in decimal
print_number:
    mov bx, 10
    xor cx, cx
digit:
    xor dx, dx
    div bx                      ; the lowest digit in DX
    push dx
    inc cx
    test ax, ax
    jnz digit
print:
    pop dx
    add dl, '0'
    mov ah, 02h
    int 21h
    loop print
    ret
end:
