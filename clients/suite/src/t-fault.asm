;@ t-push-16 -DW=16 -DCASE=1
;@ t-push-32 -DW=32 -DCASE=1
;@ t-load-16 -DW=16 -DCASE=2
;@ t-load-32 -DW=32 -DCASE=2
;@ t-load-none-16 -DW=16 -DCASE=3
;@ t-load-none-32 -DW=32 -DCASE=3
; A fault of the push or of the load of an interrupt 08h is delivered as an exception. t-push: the present
; stack has no room. t-load: the protected vector's selector was freed; t-load-none: its code isn't
; present. The frame has the IP of the instruction that would come next, and the stack pointer as it was;
; the interrupt itself doesn't come again before its time. Words: --timer 500.
%include "prot.inc"
ENTER_PROT
        cli
        mov bx, cs
        SVC 000Ah
        OK '000Ah'
        IS ax, 022Fh
        mov bx, ax
        mov cx, 00FBh
        SVC 0009h
        OK '0009h'
        mov bx, cs
        SVC 0006h
        mov bx, 022Fh
        SVC 0007h
        OK '0007h'
        mov bl, 08h
        mov cx, 022Fh
        mov edx, timer
        SVC 0205h
        OK '0205h'
        mov bl, 0Dh - (CASE == 1) - (CASE == 3) * 2
        mov cx, cs
        mov edx, handler
        SVC 0203h
        OK '0203h'
%if CASE == 1
        mov bx, 020Fh           ; a stack of four bytes
        SVC 0006h
        mov si, cx
        mov cx, 1
        SVC 0000h
        mov bx, ax
        mov cx, si
        SVC 0007h
        mov cx, 0
        mov dx, 3
        SVC 0008h
        OK '0008h'
        mov si, bx
%elif CASE == 2
        mov bx, 022Fh
        SVC 0001h
        OK '0001h'
%else
        mov bx, 022Fh
        mov cx, 007Bh
        SVC 0009h
        OK '0009h'
%endif
        mov cx, 1000
        loop $
%if CASE == 1
        mov ss, si
        mov sp, 2
%endif
        sti
there:  nop
        IS word [faults], 1
        IS word [ticks], 0
        SVC 0902h
        OK '0902h'
        IS ax, 0901h            ; IF of the frame was set
        mov ax, ss
        IS ax, 020Fh
        mov ax, sp
        IS ax, 0100h
        EXIT 0
handler: mov bp, sp
%if CASE == 1
        IS WORDW [bp+2*ITEM], 0
        IS word [bp+6*ITEM], 2
        IS word [bp+7*ITEM], si
        mov WORDW [bp+6*ITEM], 0100h
        mov word [bp+7*ITEM], 020Fh
%else
        IS WORDW [bp+2*ITEM], 022Ch ; the selector
        IS word [bp+6*ITEM], 0100h
        IS word [bp+7*ITEM], 020Fh
%endif
        IS WORDW [bp+3*ITEM], there
        IS word [bp+4*ITEM], 0207h
        mov ax, [bp+5*ITEM]
        and ax, 0200h
        IS ax, 0200h
        inc word [faults]
        xretf
timer:  inc word [ticks]
        xiret
faults: dw 0
ticks:  dw 0
PROT_FINISH
