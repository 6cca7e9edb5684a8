; What is no instruction, or only raises one: exception 6 (and 7 for the x87), with handlers that
; print the number and the distance of the pushed IP from the instruction (0000), and go on.
%include "client.inc"
START
%macro BAD 1+                   ; bytes
        %defstr %%s %1
        SAY %%s, ':'
        mov word [cs:insn], %%i
        mov word [cs:next], %%n
%%i:    db %1
        times 8 nop
        SAY ' none'
%%n:    NL
%endmacro
        push cs
        pop ds
        mov dx, six
        mov ax, 2506h
        int 21h
        mov dx, seven
        mov ax, 2507h
        int 21h
        mov bx, scratch
        BAD 0Fh, 0Bh
        BAD 0Fh, 0FFh
        BAD 0Fh, 04h
        BAD 0D6h
        BAD 0F1h
        BAD 0FEh, 0D0h          ; FE /2
        BAD 0FFh, 0F8h          ; FF /7
        BAD 0FFh, 0D8h + 0      ; FF /3 with a register
        BAD 0FFh, 0E8h          ; FF /5 with a register
        BAD 0F6h, 0C8h          ; F6 /1
        BAD 0F7h, 0Fh           ; F7 /1
        BAD 0D0h, 0F0h          ; D0 /6
        BAD 8Fh, 0C8h           ; 8F /1
        BAD 0C6h, 0C8h          ; C6 /1
        BAD 8Ch, 0F0h           ; MOV from segment register 6
        BAD 8Eh, 0C8h           ; MOV to CS
        BAD 8Eh, 0F8h           ; MOV to segment register 7
        BAD 8Dh, 0C0h           ; LEA of a register
        BAD 0C4h, 0C0h          ; LES of a register
        BAD 62h, 0C0h           ; BOUND of a register
        BAD 63h, 0C0h           ; ARPL in real mode
        BAD 0Fh, 00h, 0C0h      ; SLDT
        BAD 0Fh, 00h, 0D0h      ; LLDT in real mode
        BAD 0Fh, 00h, 0E0h      ; VERR in real mode
        BAD 0Fh, 00h, 0F0h      ; 0F 00 /6
        BAD 0Fh, 01h, 07h       ; SGDT: 0F 01 /0 with memory
        BAD 0Fh, 01h, 0E0h      ; SMSW
        BAD 0Fh, 01h, 0F8h      ; 0F 01 /7
        BAD 0Fh, 02h, 0C0h      ; LAR in real mode
        BAD 0Fh, 03h, 0C0h      ; LSL in real mode
        BAD 0Fh, 0BAh, 0C0h, 1  ; 0F BA /0
        BAD 0Fh, 25h, 0C0h
        ; LOCK where it is not allowed
        BAD 0F0h, 90h
        BAD 0F0h, 89h, 07h
        BAD 0F0h, 01h, 0C0h
        BAD 0F0h, 03h, 07h
        BAD 0F0h, 39h, 07h      ; CMP
        BAD 0F0h, 83h, 3Fh, 1   ; CMP by group 1
        BAD 0F0h, 0FFh, 37h     ; PUSH by group 5
        BAD 0F0h, 0Fh, 0A3h, 07h ; BT with memory may
        ; the x87, with a register and with memory
        BAD 0D8h, 0C0h
        BAD 0D9h, 06h, 34h, 12h
        BAD 0DBh, 0E3h
        BAD 66h, 2Eh, 0DFh, 47h, 05h
        EXIT 0
six:    push ax
        mov al, '6'
        jmp handler
seven:  push ax
        mov al, '7'
handler: push bp
        mov bp, sp
        SAY ' '
        call putc
        SAY ' at '
        mov ax, [bp+4]
        sub ax, [cs:insn]
        H4 ax
        mov ax, [cs:next]
        mov [bp+4], ax
        pop bp
        pop ax
        iret
insn:   dw 0
next:   dw 0
scratch: dd 0, 0
FINISH
