;@ call-entry-again -DCASE=1
;@ call-segments -DCASE=2
;@ call-endless -DCASE=3
;@ switch-inside-call -DCASE=4
; Function 0301h, and what the procedure of real mode does. IP and CS are at 2Ah and 2Ch of the structure, the flags at 20h, ES and DS at
; 22h and 24h.
; 1: it calls the entry to protected mode again: that is refused, with carry. Expected: `entry refused` before `leave 0 far`; the exit code
;    is the low byte of the flags in the structure, 3: carry and bit 1, which is always set.
; 2: it changes every segment register and the stack. Expected: ES = 1234h and DS = 1233h in the structure, so that the exit code, the
;    difference of their low bytes, is 1; enter 0 far, leave 0 far, and the client's own segment registers are as before.
; 3: it never returns. Expected: exit bound after 100 turns (words: --bound 100), enter 0 far alone, depth 1, mode real.
; 4: it switches to protected mode and back, and returns: the call ends as without the switches. Before it returns it loads the seven
;    general registers but ESP. Then the 25 words of the structure are compared with `wanted`: the registers and the flags as the procedure
;    left them (0002h: all are clear, and virtual interrupts are disabled), ES, DS, FS and GS that the switch left (0), and the doubleword
;    at 0Ch, IP, CS, SP and SS as they were. Expected: exit 0, or n where the nth word is another; enter 0 far, switch protected, switch
;    real, leave 0 far; EBX = 1, EDX = 5Ah and EBP = FCh, the client's own registers, as the entry left them.
%include "plain.inc"
START
ENTER
        push ds
        pop es
        mov di, 1000h
        mov word [di+2Ah], procedure
        mov word [di+2Ch], 0074h
%if CASE == 4
        mov dword [di+0Ch], 5A5A5A5Ah
%endif
%if CASE == 3
        mov cx, strict word 0
        mov ax, 0301h
        mov bx, 0021h
        int 31h
        sbb al, al
        mov ah, 4Ch
        int 21h
procedure: jmp $
%else
        xor cx, cx
        SERVICE 0301h
 %if CASE == 1
        mov al, [di+20h]
        mov ah, 4Ch
        int 21h
procedure: mov ax, strict word 0
        call 0F000h:0100h
        retf
 %elif CASE == 2
        mov al, [di+22h]
        sub al, [di+24h]
        mov ah, 4Ch
        int 21h
procedure: pop bx               ; the return address goes onto the new stack
        pop cx
        mov ax, 1234h
        mov es, ax
        mov ax, 1233h
        mov ds, ax
        mov fs, ax
        mov gs, ax
        mov ss, ax
        mov sp, 0080h
        push cx
        push bx
        retf
 %else
        sbb al, al
        jc .end                 ; refused: FFh
        mov si, wanted+100h     ; DS is 100h bytes before the image
        mov cx, 25
        repe cmpsw
        mov al, 0
        je .end
        mov al, 25
        sub al, cl
.end:   mov ah, 4Ch
        int 21h
wanted: dd 0F0F0F0F0h, 0E0E0E0E0h, 12345678h, 5A5A5A5Ah, 0B0B0B0B0h, 0D0D0D0D0h, 0C0C0C0C0h, 0A0A0A0A0h
        dw 0002h, 0, 0, 0, 0, procedure, 0074h, 0, 0
procedure: mov ax, 0217h        ; DS, ES, SS:SP and CS:IP of protected mode
        mov cx, 0217h
        mov dx, 020Fh
        mov bx, 0080h
        mov si, 0204h
        mov di, inside
        jmp 0F000h:0101h
inside: mov ax, strict word 0   ; and of real mode, with the stack of the call, which has its return address, D800h:03FCh
        mov cx, strict word 0
        mov dx, 0D800h
        mov bx, 03FCh
        mov si, 0074h
        mov di, outside
        jmp 0087h:0320h
outside: mov eax, 0A0A0A0A0h
        mov ebx, 0B0B0B0B0h
        mov ecx, 0C0C0C0C0h
        mov edx, 0D0D0D0D0h
        mov esi, 0E0E0E0E0h
        mov edi, 0F0F0F0F0h
        mov ebp, 12345678h
        retf
 %endif
%endif
FINISH
