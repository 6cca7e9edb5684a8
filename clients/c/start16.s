# Start-up of a client of 16 bits: it makes its code segment the segment of data and stack too, enters protected mode, and calls main.
        .intel_syntax noprefix
        .code16
        .section .start, "ax"
        .globl start
start:  mov     ax, cs
        mov     ds, ax
        mov     ss, ax
        mov     esp, 0xFFF0
        mov     ax, 0x1687              # ES:DI is the entry to protected mode; the host needs SI paragraphs of ours
        int     0x2F
        test    ax, ax
        jnz     failed                  # there is no host
        cmp     si, 0x400
        ja      failed                  # the header asks for no more
        push    es
        push    di
        mov     bp, sp
        mov     ax, ds                  # ES: they lie after the segment
        add     ax, 0x1000
        mov     es, ax
        xor     ax, ax                  # a client of 16 bits
        lcall   [bp]
        jc      failed
        mov     ax, ds                  # selectors of the same segment: CS, DS and SS
        mov     es, ax
        .code16gcc                      # as gcc -m16 calls: with a return address of 32 bits
        call    main
        .code16
        mov     ah, 0x4C                # the code is what main returns
        int     0x21
failed: mov     ax, 0x4CFF
        int     0x21
