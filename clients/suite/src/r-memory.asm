; Operations on a memory operand at 8, 16 and 32 bits. After each line comes the cell as the
; instruction leaves it after both runs.
%include "client.inc"
%include "alu.inc"
START
%macro M 2+                     ; first value of the cell, instruction
        mov dword [cell], %1
        T 00000180h, 80000001h, %2
        SAY '   '
        H8 [cell]
        NL
%endmacro
        push cs
        pop ds
        COUNT 3
        M 81B2C193h, not byte [cell]
        M 81B2C193h, not word [cell+1]
        M 81B2C193h, not dword [cell]
        M 81B20000h, neg word [cell]
        M 80000000h, neg dword [cell]
        M 000000FFh, inc byte [cell]
        M 00FFFF00h, inc word [cell+1]
        M 0FFFFFFFFh, inc dword [cell]
        M 00000000h, dec byte [cell+3]
        M 00000000h, dec dword [cell]
        M 81B2C193h, rol byte [cell], 1
        M 81B2C193h, ror word [cell], cl
        M 81B2C193h, rcl dword [cell], 9
        M 81B2C193h, rcr byte [cell+1], cl
        M 81B2C193h, shl word [cell], 1
        M 81B2C193h, shr dword [cell], cl
        M 81B2C193h, sar byte [cell+3], 7
        M 81B2C193h, test byte [cell], 80h
        M 81B2C193h, test word [cell], ax
        M 81B2C193h, test dword [cell], 80000000h
        M 81B2C193h, mul byte [cell]
        M 81B2C193h, imul word [cell]
        M 81B2C193h, imul dword [cell]
        M 81B2C193h, imul dx, [cell]
        M 81B2C193h, imul edx, [cell], -2
        M 00000007h, div byte [cell]
        M 0FFFFFFFDh, idiv byte [cell]
        M 0F2345678h, div dword [cell]
        M 81B2C193h, add byte [cell], 7Fh
        M 81B2C193h, or word [cell], byte -16
        M 81B2C193h, adc dword [cell], byte 1
        M 81B2C193h, sbb [cell], dx
        M 81B2C193h, and [cell], eax
        M 81B2C193h, sub dl, [cell+1]
        M 81B2C193h, xor dx, [cell+1]
        M 81B2C193h, cmp edx, [cell]
        M 81B2C193h, cmp [cell], edx
        M 81B2C193h, setc [cell]
        M 81B2C193h, setle [cell+1]
        M 81B2C193h, xchg [cell+3], dl
        M 81B2C193h, xchg edx, [cell]
        M 81B2C193h, movzx edx, word [cell+1]
        M 81B2C193h, movsx edx, byte [cell+1]
        M 00010000h, bsf edx, [cell]
        M 00010000h, bsr dx, [cell+1]
        EXIT 0
        align 4
cell:   dd 0, 0
ALU_FINISH
