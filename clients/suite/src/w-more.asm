;@ w-badframe-16 -DW=16 -DCASE=1
;@ w-badframe-32 -DW=32 -DCASE=1
;@ w-depth-16 -DW=16 -DCASE=2
;@ w-depth-32 -DW=32 -DCASE=2
;@ w-chain-16 -DW=16 -DCASE=3
;@ w-chain-32 -DW=32 -DCASE=3
;@ w-code32 -DW=32 -DCASE=4
; w-badframe: 0B00h at its trap with a frame that can't be popped is no service: badframe.
; w-depth: a hit in real mode at depth 32 waits, and comes at depth 31. w-chain: a client's own vector
; 31h that leads to the trap; a hit at its JMP comes before the service. w-code32: code in a block,
; through a flat 32-bit code segment.
%include "prot.inc"
%include "watch.inc"
struct  equ 0E000h
ENTER_PROT
        push ds
        pop es
        WATCHING
%if CASE == 1
        mov bx, 0
        mov cx, 0700h
        mov dx, 0101h
        mov ax, 0B00h
 %if W == 16
        mov sp, 0FFFFh          ; the first word lies over the end
 %else
        mov esp, 0FFFCh
 %endif
        jmp 0087h:0231h
%elif CASE == 2
        mov bl, 0Dh
        mov cx, cs
        mov edx, nest
        SVC 0203h
        OK '0203h'
        mov ax, [real_cs]
        mov [struct+24h], ax
        mov [struct+2Ch], ax
        mov word [struct+2Ah], callee
        WATCH AT(cell), 1, 1
        hlt
        IS word [level], 0
        IS word [hits], 1
        IS word [where], nest.back
        EXIT 0
nest:   inc word [level]
        cmp word [level], 31
        je .call
        hlt
        jmp .out
.call:  mov edi, struct
        mov cx, 0
        mov ax, 0301h
        int 31h                 ; its callee runs at depth 32
.back:  OK '0301h'
        IS word [hits], 1
        IS word [frame_at], 32*800h - 8*ITEM
.out:   dec word [level]
        mov bp, sp
        inc WORDW [bp+3*ITEM]
        xretf
callee: mov [cell], al
        retf
level:  dw 0
        times 4 db 0
cell:   dd 0
%elif CASE == 3
        mov bl, 31h
        mov cx, cs
        mov edx, own31
        SVC 0205h
        OK '0205h'
        WATCH AT(own31.jump), 1, 0
        IS word [handle], 1
        mov word [calls], 0
        mov ax, 0B02h           ; the JMP is hit, and then the service says so
        mov bx, 1
        int 31h
        OK '0B02h'
        IS ax, 1
        IS bx, 1
        IS word [where], 0231h
        IS word [where_cs], 0087h
        IS word [hits], 1
        IS word [calls], 1
        mov ax, 0B03h           ; reset, after a hit while the status was set
        mov bx, 1
        int 31h
        OK '0B03h'
        IS word [hits], 1
        mov ax, 0B01h           ; hit again: freed all the same
        mov bx, 1
        int 31h
        OK '0B01h'
        IS word [hits], 2
        mov ax, 0B02h
        mov bx, 1
        int 31h
        NO '0B02h'
        IS ax, 8023h
        IS word [hits], 2
        IS word [calls], 4
        EXIT 0
own31:  inc word [calls]
.jump:  jmp 0087h:0231h
calls:  dw 0
%else
        mov bx, 0
        mov cx, 1000h
        SVC 0501h
        OK '0501h'
        mov cx, 2
        SVC 0000h
        OK '0000h'
        mov bx, ax
        mov [flat], ax
        add ax, 8
        mov [code+4], ax
        mov cx, 0FFFFh
        mov dx, 0FFFFh
        SVC 0008h
        OK '0008h'
        mov bx, [code+4]
        SVC 0008h
        OK '0008h'
        mov cx, 0C0FBh          ; 32-bit code, granular
        SVC 0009h
        OK '0009h'
        mov ax, [flat]
        mov es, ax
        mov esi, routine
        mov edi, 00400F00h
        mov ecx, routine_end - routine
        a32 rep movsb
        mov bx, 0040h           ; its second instruction
        mov cx, 0F01h
        mov dx, 0001h
        SVC 0B00h
        OK '0B00h'
        mov [handle], bx
        call fresh
        call dword far [code]
        call result
        IS ax, 0101h
        IS word [where], 0F06h
        mov cx, [code+4]
        IS word [where_cs], cx
        UNWATCH
        OK '0B01h'
        mov bx, 0040h           ; an operand byte
        mov cx, 0F02h
        mov dx, 0001h
        SVC 0B00h
        OK '0B00h'
        call fresh
        call dword far [code]
        call result
        IS ax, 0
        UNWATCH
        mov bx, 0040h           ; the routine reads its own bytes
        mov cx, 0F02h
        mov dx, 0201h
        SVC 0B00h
        OK '0B00h'
        call fresh
        call dword far [code]
        call result
        IS ax, 0101h
        IS word [where], 0F09h
        EXIT 0
bits 32
routine: nop
        mov ecx, 00400F02h      ; five bytes
        mov al, [cs:ecx]        ; three
        jmp short .end
        nop
        nop
.end:   nop
        retf
routine_end:
bits 16
flat:   dw 0
code:   dd 00400F00h
        dw 0
%endif
WATCH_PARTS
PROT_FINISH
