; 511 memory blocks of a page and one of 500 pages are held; the pages of the last one are locked, unlocked, marked and discarded, again and
; again.
;     nasm -f bin -I ../clients/ -DWIDTH=16 pages.asm -o pages16.exe            # in protected mode alone; WIDTH=32 is for 32 bits
%include "exe.inc"
%include "mode.inc"
    mov dx, 511
make:
    mov bx, 0
    mov cx, 1
    mov ax, 0501h
    int 31h
    dec dx
    jnz make
    mov bx, 001Fh               ; 500 pages are 1F4000h bytes
    mov cx, 4000h
    mov ax, 0501h
    int 31h
    jc fail
    mov bp, 100
    mov dx, 0600h
again:
    mov ax, dx                  ; BX:CX is still the block's linear address
    mov si, 001Fh
    mov di, 4000h
    int 31h
    jc fail
    cmp dx, 0703h
    je done
    inc dx
    cmp dx, 0602h
    jne again
    mov dx, 0702h
    jmp again
done:
    mov dx, 0600h
    dec bp
    jnz again
    mov ax, 4C00h
    int 21h
fail:
    mov ax, 4C01h
    int 21h
end:
