;@ t-watch-16 -DW=16
;@ t-watch-32 -DW=32
;@ t-watch-default-16 -DW=16 -DDEFAULT
;@ t-watch-default-32 -DW=32 -DDEFAULT
; A watchpoint with the timer: where its exception and an interrupt are due together, the interrupt comes
; first. By the client's vector the exception then comes before the handler's first instruction;
; by reflection (DEFAULT) it waits for the return. The watchpoint is on the STI. A round that takes
; an interrupt runs no instruction, so its pushes hit nothing. Words: --timer 500.
%include "prot.inc"
%include "watch.inc"
ENTER_PROT
        cli
        WATCHING
        mov bl, 08h
        mov cx, [real_cs]
        mov dx, real8
        SVC 0201h
        OK '0201h'
%ifndef DEFAULT
        mov cx, cs
        mov edx, prot8
        SVC 0205h
        OK '0205h'
%endif
        mov cx, 1000
        loop $
        WATCH AT(.sti), 1, 0
        call fresh
.sti:   sti
.next:  nop
        mov dx, [order]
        call result
        IS ax, 0101h
%ifdef DEFAULT
        IS word [where], .next
        IS word [where_cs], 0207h
%else
        IS word [where], prot8
        IS word [where_cs], 0207h
%endif
        IS word [frame_at], 800h - 8*ITEM
        IS dx, 1
        cli
        UNWATCH
        mov word [order], 0
        mov cx, 1000
        loop $
        WATCH STACK(007Ch), 4, 1 ; where the frame's flags go
        call fresh
        mov sp, 0080h
        sti
        nop
        cli
        mov sp, 0100h
        IS word [order], 1
        call result
        IS ax, 0
        EXIT 0
real8:  inc word [cs:order]
        iret
prot8:  inc word [order]
        xiret
order:  dw 0
WATCH_PARTS
PROT_FINISH
