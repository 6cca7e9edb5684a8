# Start-up of a client of real mode in one segment.
        .intel_syntax noprefix
        .code16
        .section .start, "ax"
        .globl start
start:  mov     ax, cs
        mov     ds, ax
        mov     es, ax
        mov     ss, ax
        mov     esp, 0xFFF0
        .code16gcc
        call    main
        .code16
        mov     ah, 0x4C
        int     0x21
