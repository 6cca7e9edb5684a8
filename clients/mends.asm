; Enters protected mode, catches its exception 0Dh, goes on after the instruction, and ends with 7.   nasm -f bin mends.asm -o mends.exe
%include "exe.inc"
    mov ax, 1687h               ; ES:DI = the entry to protected mode
    int 2Fh
    push es
    push di
    mov bp, sp
    xor ax, ax                  ; a client of 16 bits
    call far [bp]
    mov ax, 0203h               ; the handler of exception BL is CX:DX
    mov bl, 0Dh
    mov cx, cs
    mov dx, handler - code
    int 31h
    hlt                         ; exception 0Dh
    mov ax, 4C07h
    int 21h

; On the handler's stack: the address to return to, the error code, then IP, CS, flags, SP and SS of the client.
handler:
    push bp
    mov bp, sp
    inc word [bp+8]             ; IP, which was that of HLT
    pop bp
    retf
end:
