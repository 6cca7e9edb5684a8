; Counts the timer's ticks with handlers of its own, and prints the time: 18 ticks are a second, as with DOS. Between two lines it counts
; its rounds. Ends with 0 after five seconds. It needs the timer: dpmi run clock.exe --timer 1000.
;     nasm -f bin clock.asm -o clock.exe                        # in real mode
;     nasm -f bin -DWIDTH=0 clock.asm -o clock16.exe            # in protected mode, as a client of 16 bits
;     nasm -f bin -DWIDTH=1 clock.asm -o clock32.exe            # or of 32 bits
%include "exe.inc"
    push cs
    pop ds
    mov dx, real_handler - code
    mov ax, 2508h               ; real vector 8 becomes DS:DX
    int 21h
%ifdef WIDTH
    mov ax, 1687h               ; ES:DI = the entry to protected mode
    int 2Fh
    push es
    push di
    mov bp, sp
    mov ax, WIDTH               ; a client of 16 bits (0) or of 32 bits (1)
    call far [bp]
    mov [data - code], ds
    mov ax, 0205h               ; the handler of interrupt BL is CX:(E)DX
    mov bl, 8
    mov cx, cs
    mov edx, handler - code
    int 31h
%endif

second:
    xor ebp, ebp                ; rounds
round:
    inc ebp
    cmp word [ticks - code], 18
    jb round
    sub word [ticks - code], 18
    inc word [seconds - code]
    mov ax, [seconds - code]
    mov bl, 60
    div bl                      ; AL = minutes, AH = seconds
    mov bh, ah
    call print_two
    mov dl, ':'
    call print_letter
    mov al, bh
    call print_two
    mov dl, ' '
    call print_letter
    mov eax, ebp
    call print_number
    mov dl, 13
    call print_letter
    mov dl, 10
    call print_letter
    cmp word [seconds - code], 5
    jb second
    mov ax, 4C00h               ; end with 0
    int 21h

; A tick in real mode: also one of a client in protected mode, while DOS prints for it.
real_handler:
    inc word [cs:ticks - code]
    iret

%ifdef WIDTH
; A tick in protected mode. Virtual interrupts are disabled in the handler, and IRET leaves them so.
handler:
    push ds
    mov ds, [cs:data - code]
    inc word [ticks - code]
    pop ds
    sti
%if WIDTH
    iretd                       ; the frame of a client of 32 bits has doublewords
%else
    iret
%endif
%endif

; print AL in two decimal digits; EAX in decimal; DL
print_two:
    aam                         ; AH = AL / 10, AL = the rest
    add ax, '00'
    mov cx, ax
    mov dl, ch
    call print_letter
    mov dl, cl
    jmp print_letter
print_number:
    xor edx, edx
    mov ecx, 10
    div ecx                     ; the lowest digit in EDX
    push dx
    test eax, eax
    jz last
    call print_number
last:
    pop dx
    add dl, '0'
print_letter:
    mov ah, 02h
    int 21h
    ret
ticks:
    dw 0
seconds:
    dw 0
data:
    dw 0
end:
