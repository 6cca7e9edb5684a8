;@ t-prot-16 -DW=16
;@ t-prot-32 -DW=32
; The timer in protected mode with a handler by 0205h (words: --timer 500): the frame on the present
; stack, at the client's width; virtual interrupts disabled in it, and after an IRET without STI
; still, since IRET in protected mode leaves the virtual flag.
%include "prot.inc"
%macro WAIT 0                   ; about a thousand rounds
        mov cx, 1000
        loop $
%endmacro
ENTER_PROT
        cli
        mov bl, 08h
        mov cx, cs
        mov edx, handler
        SVC 0205h
        OK '0205h'
        WAIT
        IS word [count], 0      ; disabled: it waits
        mov eax, 11112222h
        mov ebx, 33334444h
        push word 0ED7h
        popf
        sti
.a:     pushf
        pop dx
        cld
        IS word [count], 1      ; it came before the instruction after STI
        IS word [in_ip], .a
        IS word [in_cs], 0207h
        IS word [in_flags], 0ED7h ; IF of the image is the virtual flag, which was set
        IS word [in_sp], 0100h - 3*ITEM
        IS word [in_ss], 020Fh
        IS word [in_vif], 0900h ; disabled in the handler
        IS eax, 11112222h
        IS ebx, 33334444h
        IS dx, 0ED7h
        mov dx, sp
        IS dx, 0100h
        SVC 0902h
        OK '0902h'
        IS ax, 0900h            ; and after its IRET
        WAIT
        IS word [count], 1
        SVC 0901h               ; enabled by the service
.b:     OK '0901h'
        IS ax, 0900h
        IS word [count], 2
        IS word [in_ip], .b
        WAIT
        IS word [count], 2
        mov byte [again], 1     ; a handler that enables them itself
        sti
        WAIT
        WAIT
        cli
        cmp word [count], 6
        jae .enough
        EXIT 90
.enough:
        mov word [count], 0
        ; INT 08h of the client's own goes to the same handler
        mov byte [again], 0
        WAIT                    ; one waits
        int 08h
.c:     IS word [count], 1
        IS word [in_ip], .c
        and word [in_flags], 0200h
        IS word [in_flags], 0   ; the virtual flag is off
        EXIT 0
handler: push bp
        mov bp, sp
        push eax
        mov ax, [bp+2]
        mov [in_ip], ax
        mov ax, [bp+2+ITEM]
        mov [in_cs], ax
        mov ax, [bp+2+2*ITEM]
        mov [in_flags], ax
        lea ax, [bp+2]
        mov [in_sp], ax
        mov [in_ss], ss
        mov ax, 0902h
        int 31h
        mov [in_vif], ax
        inc word [count]
        pop eax
        pop bp
        cmp byte [again], 0
        je .end
        sti
.end:   xiret
count:  dw 0
again:  dw 0
in_ip:  dw 0
in_cs:  dw 0
in_flags: dw 0
in_sp:  dw 0
in_ss:  dw 0
in_vif: dw 0
PROT_FINISH
