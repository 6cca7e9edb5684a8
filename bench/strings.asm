; Strings with REP and prefixes: 40 rounds of copies, fills, searches and comparisons over 32 KB, by bytes, words and doublewords.
;     nasm -f bin -I ../clients/ strings.asm -o strings.exe                    # in real mode
;     nasm -f bin -I ../clients/ -DWIDTH=16 strings.asm -o strings16.exe       # in protected mode, as a client of 16 bits
;     nasm -f bin -I ../clients/ -DWIDTH=32 strings.asm -o strings32.exe       # or of 32 bits
%include "exe.inc"
%include "mode.inc"
%ifdef WIDTH
    mov bx, 3000h
    mov ax, 2                   ; a descriptor of the segment in BX
    int 31h
    mov es, ax
    mov bx, 2000h
    mov ax, 2
    int 31h
    mov ds, ax
%else
    mov ax, 2000h
    mov ds, ax
    mov ax, 3000h
    mov es, ax
%endif
    cld
    mov dx, 40
again:
    mov eax, 41424344h
    xor di, di
    mov cx, 2000h
    rep stosd                   ; with an operand-size prefix in code of 16 bits
    xor si, si
    xor di, di
    mov cx, 8000h
    es rep movsb                ; from ES:SI
    xor si, si
    xor di, di
    mov cx, 4000h
    rep movsw
    mov al, 0FFh
    xor di, di
    mov cx, 8000h
    repne scasb
    xor si, si
    xor di, di
    mov cx, 8000h
    repe cmpsb
    xor esi, esi
    mov ecx, 2000h
next:
    a32 lodsw                   ; with an address-size prefix in code of 16 bits
    add bx, ax
    a32 loop next
    dec dx
    jnz again
    mov ax, 4C00h
    int 21h
end:
