;@ code-over-itself
; An instruction runs, one of its bytes changes, and it runs again: each byte of MOV EAX,imm32, and six of the 13 bytes of MOV
; [EAX+EBX*4+disp32],imm32. So it does where it lies across the end of a page, at linear 1000h; where the bytes are written through the
; alias above 1 MB; and where it runs in the alias. A second run after each change, and one after the change is undone, are those of an
; instruction that was met before.
; Expected: exit 0. A wrong number ends the client with that of its check, counted from 1 in the order of the source.
%include "plain.inc"
ALIAS   equ 0750h               ; FFFFh:0750h is 0074h:0000h, 1 MB higher
START
        jmp main
a:      db 66h, 0B8h, 11h, 22h, 90h, 90h        ; MOV EAX,90902211h
        ret
d:      db 66h, 0B8h, 11h, 22h, 90h, 90h
        retf
b:      db 66h, 67h, 0C7h, 84h, 98h             ; MOV dword [EAX+EBX*4+room],90902211h
        dd room, 90902211h
        ret
align 16
room:   dd 0, 0, 0, 0
        times 8BDh - ($ - first) nop
c:      db 66h, 0B8h, 11h, 22h, 90h, 90h        ; its fourth byte is the first of a page
        ret
%macro RUN 3                    ; call, EAX, EBX: once, and once more
 %rep 2
        xor eax, eax
        xor ebx, ebx
        %1
        sub eax, %2
        sub ebx, %3
        or eax, ebx
        EQUAL eax, 0
 %endrep
%endmacro
%macro CHANGED 6                ; call, segment and place of the bytes, which one, its number before and then, EAX, EBX
        mov byte [%2+%3], (%4) % 100h
        RUN {%1}, %5, %6
        mov byte [%2+%3], (%4) / 100h
        RUN {%1}, 90902211h, 0
%endmacro
%macro EACH 2                   ; call, segment and place of the bytes
        RUN {%1}, 90902211h, 0
        CHANGED {%1}, %2, 0, 6690h, 2211h, 0    ; NOP, and MOV AX,2211h
        CHANGED {%1}, %2, 1, 0B8BBh, 0, 90902211h
        CHANGED {%1}, %2, 2, 1112h, 90902212h, 0
        CHANGED {%1}, %2, 3, 2223h, 90902311h, 0
        CHANGED {%1}, %2, 4, 9091h, 90912211h, 0
        CHANGED {%1}, %2, 5, 9091h, 91902211h, 0
%endmacro
%macro STORED 3                 ; EBX, where, what: once, and once more
 %rep 2
        xor eax, eax
        mov [room], eax
        mov [room+4], eax
        mov ebx, %1
        call b
        EQUAL dword [room+%2], %3
 %endrep
%endmacro
%macro LONG 5                   ; which byte, its number before and then, EBX, where, what
        mov byte [b+%1], (%2) % 100h
        STORED %3, %4, %5
        mov byte [b+%1], (%2) / 100h
        STORED 1, 4, 90902211h
%endmacro
main:   push cs
        pop ds
        mov ax, 0FFFFh
        mov es, ax
        EACH call a, a
        EACH call c, c
        STORED 1, 4, 90902211h
        LONG 0, 6690h, 0, 0, 2211h              ; MOV word
        LONG 4, 9858h, 1, 2, 90902211h          ; EBX*2
        LONG 5, ((room-first) % 100h) * 101h + 4, 0, 4, 90902211h
        LONG 9, 1112h, 0, 0, 90902212h
        LONG 11, 9091h, 0, 0, 90912211h
        LONG 12, 9091h, 0, 0, 91902211h
        jmp further
further:
        EACH call a, es:a+ALIAS
        EACH call c, es:c+ALIAS
        EACH call 0FFFFh:d+ALIAS, d
        EXIT 0
FINISH
