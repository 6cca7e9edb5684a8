;@ w-realint-write-16 -DW=16 -DTYPE=1
;@ w-realint-write-32 -DW=32 -DTYPE=1
;@ w-realint-access-16 -DW=16 -DTYPE=2
;@ w-realint-access-32 -DW=32 -DTYPE=2
; Watchpoints in real mode: the pushes of INT, of an exception and of a simulated call hit nothing, nor do
; the traps that pop them; a handler's own IRET and RETF read their frames. The watched bytes are those of
; the interrupt's frame below the call's return address, D83F6h to D83F9h.
%include "prot.inc"
%include "watch.inc"
struct  equ 0E000h
%macro CALLING 2                ; callee, whether it hits
 %assign checks checks + 1
        mov word [struct+2Ah], %1
        call fresh
        mov edi, struct
        mov cx, 0
        mov ax, 0301h
        int 31h
        jc %%bad
        call result
        cmp ax, (%2) * 101h
        je %%good
%%bad:  FAILING
%%good:
%endmacro
ENTER_PROT
        push ds
        pop es
        WATCHING
        mov bl, 60h
        mov cx, [real_cs]
        mov dx, iret60
        SVC 0201h
        OK '0201h'
        mov bl, 0
        mov dx, divided
        SVC 0201h
        OK '0201h'
        mov ax, [real_cs]
        mov [struct+24h], ax
        mov [struct+2Ch], ax
        WATCH 0D83F6h, 4, TYPE
        CALLING nothing, 0
        CALLING int61, 0        ; the default vector's trap pops it
        CALLING int21, 0
        CALLING int60, TYPE - 1 ; the handler's IRET reads
        CALLING divide, 0
        CALLING push1, 0        ; 3FAh and 3FBh
        CALLING push2, 1
        CALLING calls, 1
        CALLING jumps, 0        ; a far jump to the return trap
        UNWATCH
        WATCH 0D83FCh, 4, TYPE  ; the return address itself: pushed by the host, read by RETF
        CALLING nothing, TYPE - 1
        CALLING jumps, 0
        UNWATCH
        WATCH 0D8000h + 3FAh, 2, TYPE ; the words of a reflection: a trap pops and pushes them
        MISS {int 61h}
        UNWATCH
        WATCH AT(int61), 2, 0   ; INT in real mode, as executed bytes
        CALLING int61, 0
        EXIT 0
nothing: retf
int61:  int 61h
        retf
int21:  mov ah, 30h
        int 21h
        retf
int60:  int 60h
        retf
iret60: iret
divide: mov cl, 0
        div cl
after_divide: retf
divided: add sp, 6              ; reads nothing of the frame
        jmp after_divide
push1:  push ax
        pop ax
        retf
push2:  push ax
        push ax
        add sp, 4
        retf
calls:  push cs
        call .near
        add sp, 2
        retf
.near:  ret
jumps:  add sp, 4
        jmp 0F000h:0103h
WATCH_PARTS
PROT_FINISH
