# The handlers of exceptions: the state is copied from the host's stack to `frame`, exchanged on a stack of the client's own, and copied
# back. With the symbol `narrow` it is a client of 16 bits: the host's part of the frame has words, and its stack is one of 64 KB.
        .intel_syntax noprefix
        .code32
        .globl  handlers
pushed = 13                             # doublewords that are pushed here; then follow eight items of the host
        .balign 8
handlers:
vector = 0
        .rept 32
        .byte   0x6A, vector, 0xE9      # push vector; jmp trap, in five bytes, so that each handler has 8
        .long   trap - . - 4
        nop
vector = vector + 1
        .endr
trap:   pushad
        push    ds
        push    es
        push    fs
        push    gs
        mov     ax, cs                  # the selector after that of the flat code is that of the flat data
        add     ax, 8
        mov     ds, ax
        mov     es, ax
        cld
        mov     edi, offset frame
        movzx   esi, sp
        mov     ecx, pushed
        rep movs dword ptr es:[edi], dword ptr ss:[esi]
        mov     ecx, 8
in:
        .ifdef  narrow
        movzx   eax, word ptr ss:[esi]
        add     esi, 2
        .else
        mov     eax, ss:[esi]
        add     esi, 4
        .endif
        stosd
        loop    in
        mov     [host_stack], esp
        mov     [host_stack + 4], ss
        mov     ax, ds
        mov     ss, ax
        mov     esp, offset own_stack_end
        call    exchange
        lss     esp, [host_stack]
        mov     es, [host_stack + 4]
        mov     esi, offset frame
        movzx   edi, sp
        mov     ecx, pushed
        rep movs dword ptr es:[edi], dword ptr ds:[esi]
        mov     ecx, 8
out:    lodsd
        .ifdef  narrow
        stosw
        .else
        stosd
        .endif
        loop    out
        pop     gs
        pop     fs
        pop     es
        pop     ds
        popad
        add     esp, 4                  # the vector
        .ifdef  narrow
        .byte   0x66
        .endif
        retf
        .bss
        .balign 4
host_stack: .space 8
        .space  0x1000
own_stack_end:
