# The handlers of the software interrupts 3 and 4: EIP, CS and the flags are taken from the stack, and the program goes on with them as with an
# exception.
        .intel_syntax noprefix
        .code32
        .globl  breakpoint, overflow
breakpoint:
        push    3
        jmp     taken
overflow:
        push    4
taken:  pop     eax                     # the vector
        pop     ecx                     # EIP
        add     esp, 4
        pop     edx                     # the flags
        push    edx
        push    ecx
        push    eax
        call    interrupted
