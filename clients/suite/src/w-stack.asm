;@ w-stack-write-16 -DW=16 -DTYPE=1
;@ w-stack-write-32 -DW=32 -DTYPE=1
;@ w-stack-access-16 -DW=16 -DTYPE=2
;@ w-stack-access-32 -DW=32 -DTYPE=2
; Pushes, pops, calls, returns and frames that touch a watched byte of the stack, SS:6FF0h.
; Pushes of a software interrupt and what a trap pops aren't touches of the instruction.
%include "prot.inc"
%include "watch.inc"
%define WR HIT
%define N MISS
%if TYPE == 2
 %define R HIT
%else
 %define R MISS
%endif
there   equ 6FF0h
ENTER_PROT
        WATCHING
        WATCH STACK(there), 1, TYPE
        push ds
        pop es
        WR {push ax}, {mov sp, there+2}
        WR {push ax}, {mov sp, there+1}
        N {push ax}, {mov sp, there}
        N {push ax}, {mov sp, there+3}
        WR {push eax}, {mov sp, there+4}
        WR {push eax}, {mov sp, there+1}
        N {push eax}, {mov sp, there+5}
        WR {push 1234h}, {mov sp, there+2}
        WR {push byte 1}, {mov sp, there+2}
        WR {push ds}, {mov sp, there+2}
        WR {push dword [cell]}, {mov sp, there+4}
        WR {pushf}, {mov sp, there+2}
        WR {pushfd}, {mov sp, there+3}
        WR {pusha}, {mov sp, there+16} ; the lowest byte of the eight words
        WR {pusha}, {mov sp, there+1}
        N {pusha}, {mov sp, there+17}
        N {pusha}, {mov sp, there}
        WR {pushad}, {mov sp, there+32}
        WR {pushad}, {mov sp, there+17}
        N {pushad}, {mov sp, there+33}
        mov word [ss:there-1], 0
        mov word [ss:there+1], 0
        R {pop ax}, {mov sp, there}
        R {pop ax}, {mov sp, there-1}
        N {pop ax}, {mov sp, there+1}
        N {pop ax}, {mov sp, there-2}
        R {pop eax}, {mov sp, there-3}
        N {pop eax}, {mov sp, there-4}
        R {pop es}, {mov sp, there}
        push ds
        pop es
        R {popf}, {mov sp, there}
        R {popa}, {mov sp, there-14} ; AX
        R {popa}, {mov sp, there}    ; DI
        R {popa}, {mov sp, there-4}  ; BP
        N {popa}, {mov sp, there-6}  ; the slot of SP is passed over
        N {popa}, {mov sp, there-16}
        R {popad}, {mov sp, there-28}
        N {popad}, {mov sp, there-12}
        R {pop word [cell]}, {mov sp, there}
        ; frames
        WR {enter 4, 0}, {mov sp, there+2}
        N {enter 4, 0}, {mov sp, there+4} ; the room that it leaves isn't touched
        N {enter 40h, 0}, {mov sp, there+20h}
        WR {enter 0, 1}, {mov sp, there+4}, {mov ebp, 6000h} ; the frame pointer after (E)BP
        WR {enter 0, 3}, {mov sp, there+8}, {mov ebp, 6000h}
        N {enter 0, 3}, {mov sp, there+9}, {mov ebp, 6000h}
        R {enter 0, 2}, {mov sp, 6400h}, {mov ebp, there+2}
        N {enter 0, 1}, {mov sp, 6400h}, {mov ebp, there+2}
        R {enter 0, 3}, {mov sp, 6400h}, {mov ebp, there+4}
        R {enter 0, 31}, {mov sp, 6400h}, {mov ebp, there+60}
        N {enter 0, 31}, {mov sp, 6400h}, {mov ebp, there+62}
        WR {enter 0, 31}, {mov sp, there+64}, {mov ebp, 6400h}
        N {enter 0, 31}, {mov sp, there+65}, {mov ebp, 6400h}
        R {leave}, {mov ebp, there}
        N {leave}, {mov ebp, there+1}
        ; near and far calls and returns
        call fresh
        mov sp, there+2
        call .near
.near:  mov sp, 0100h
        call result
        IS ax, 0101h
        IS word [where], .near
        call fresh
        mov sp, there+2         ; a far call: CS lies above IP
        call 0207h:.far1
.far1:  mov sp, 0100h
        call result
        IS ax, 0101h
        IS word [where], .far1
        call fresh
        mov sp, there+4
        call 0207h:.far2
.far2:  mov sp, 0100h
        call result
        IS ax, 0101h
        call fresh
        mov sp, there+5
        call 0207h:.far3
.far3:  mov sp, 0100h
        call result
        IS ax, 0
        mov word [ss:there], .ret
        call fresh
        mov sp, there
        ret
.ret:   mov sp, 0100h
        call result
        IS ax, (TYPE - 1) * 101h
        mov word [ss:there-2], .retf
        mov word [ss:there], 0207h
        call fresh
        mov sp, there-2
        retf 8
.retf:  mov sp, 0100h
        call result
        IS ax, (TYPE - 1) * 101h
        mov word [ss:there-4], .iret
        mov word [ss:there-2], 0207h
        mov word [ss:there], 0202h
        call fresh
        mov sp, there-4
        iret
.iret:  mov sp, 0100h
        call result
        IS ax, (TYPE - 1) * 101h
        ; a software interrupt hits nothing, and neither do the trap and the reflection
        N {int 61h}, {mov sp, there+2}
        N {int 61h}, {mov sp, there+3*ITEM}
        N {int3}, {mov sp, there+2}
        N {int 31h}, {mov ax, 0400h}, {mov sp, there+4}
        N {int 2Fh}, {mov ax, 1686h}, {mov sp, there+6}
        EXIT 0
cell:   dd 0
WATCH_PARTS
PROT_FINISH
