; Ends in a fault: HLT is a privileged instruction, exception 0Dh, and nothing handles it.   nasm -f bin fault.asm -o fault.exe
%include "exe.inc"
    mov ah, 02h
    mov dl, '?'
    int 21h
    hlt
end:
