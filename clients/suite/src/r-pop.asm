; POP of registers, memory and segment registers at 16 and 32 bits, and POPA.
%include "client.inc"
%include "stack.inc"
START
        cli
        ; POP SP and POP ESP: the value popped stays
        push word 00F0h
        pop sp
        VSP
        push dword 000000E0h
        pop esp
        VSP
        NL
        mov sp, 0100h
        ; POP to memory with ESP as base: the address is that after the increment
        push word 1111h
        push word 2222h
        push word 3333h
        pop word [esp+2]
        TOP 'pop [esp+2]', 2
        push dword 0CAFEBABEh
        pop dword [cs:cell]
        push dword 12345678h
        pop fs
        pop ax
        H4 fs
        H4 ax
        H8 [cs:cell]
        NL
        push dword 12345678h    ; 32 bits: four bytes, the low word counts
        o32 pop fs
        V4 fs
        VSP
        NL
        ; POPA and POPAD pass over the slot of SP
        mov cx, 16
.more:  push cx
        loop .more
        popad
        V8 eax
        V8 ebx
        V8 ecx
        V8 edx
        V8 esi
        V8 edi
        V8 ebp
        VSP
        NL
        mov cx, 8
.again: push cx
        loop .again
        popa
        V8 eax
        V8 ebx
        V8 ecx
        V8 edx
        V8 esi
        V8 edi
        V8 ebp
        VSP
        NL
        EXIT 0
STACK_FINISH
