# Start-up of a flat client of 32 bits: it enters protected mode, makes descriptors of code and data of base 0 and 4 GB, and calls main.
        .intel_syntax noprefix
        .code16
        .section .start, "ax"
        .globl start
start:  mov     ax, cs
        mov     ds, ax
        mov     ax, 0x1687              # ES:DI is the entry to protected mode; the host needs SI paragraphs of ours
        int     0x2F
        test    ax, ax
        jnz     failed                  # there is no host
        test    bx, 1
        jz      failed                  # it has no clients of 32 bits
        cmp     si, 0x400
        ja      failed                  # the header asks for no more
        push    es
        push    di
        mov     bp, sp
        mov     ax, offset after_stack  # ES: they lie after the stack
        mov     es, ax
        mov     ax, 1                   # a client of 32 bits
        lcall   [bp]
        jc      failed
        xor     ax, ax                  # two descriptors, with base 0
        mov     cx, 2
        int     0x31
        jc      failed
        mov     bx, ax
        mov     cx, 0xC0FA              # code of 32 bits, its limit in pages
        call    make_flat
        add     bx, 8
        mov     cx, 0xC0F2              # data of 32 bits
        call    make_flat
        mov     ds, bx
        mov     es, bx
        mov     ss, bx
        mov     esp, offset stack_top
        sub     bx, 8
        movzx   ebx, bx
        push    ebx
        pushd   offset in_flat
        retfd
make_flat:                              # the descriptor BX: limit FFFFFFFFh, and the rights in CX
        push    cx
        mov     ax, 8
        mov     cx, 0xFFFF
        mov     dx, cx
        int     0x31
        pop     cx
        mov     ax, 9
        int     0x31
        ret
failed: mov     ax, 0x4CFF
        int     0x21
        .code32
in_flat:
        call    main
        mov     ah, 0x4C                # the code is what main returns
        int     0x21
