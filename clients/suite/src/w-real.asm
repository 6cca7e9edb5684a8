;@ w-real-16 -DW=16
;@ w-real-32 -DW=32
; A hit in real mode waits for protected mode. Hits in a simulated call, in a
; reflected interrupt, between raw switches and in a callback's caller: the exception comes at the first
; instruction that then runs in protected mode, and its frame has that one's CS:IP.
%include "prot.inc"
%include "watch.inc"
struct  equ 0E000h
back    equ 0E100h
ENTER_PROT
        push ds
        pop es
        WATCHING
        WATCH AT(cell), 2, 1    ; a write
        mov bl, 60h
        mov cx, [real_cs]
        mov dx, interrupt
        SVC 0201h
        OK '0201h'
        mov ax, [real_cs]
        mov [struct+24h], ax
        mov [struct+2Ch], ax
        ; a simulated call
        mov word [struct+2Ah], callee
        mov edi, struct
        mov cx, 0
        call fresh
        mov ax, 0301h
        int 31h
.a:     OK '0301h'
        IS word [hits], 1
        IS word [where], .a
        IS word [where_cs], 0207h
        IS word [in_real], 0    ; none came in real mode
        call result
        IS ax, 0101h
        mov ax, 0301h           ; and a second one while the status is set
        int 31h
        OK '0301h'
        IS word [hits], 1
        ; a reflected interrupt
        call fresh
        int 60h
.b:     call result
        IS ax, 0101h
        IS word [where], .b
        ; type 0 at the callee's first instruction
        UNWATCH
        OK '0B01h'
        WATCH AT(callee), 1, 0
        call fresh
        mov edi, struct
        mov cx, 0
        mov ax, 0301h
        int 31h
.c:     call result
        IS ax, 0101h
        IS word [where], .c
        UNWATCH
        ; a read in real mode through other segments: linear addresses count
        WATCH AT(cell), 2, 2
        mov word [struct+2Ah], reads
        call fresh
        mov edi, struct
        mov cx, 0
        mov ax, 0301h
        int 31h
.d:     call result
        IS ax, 0101h
        IS word [where], .d
        ; the same bytes through 100000h are another linear address
        UNWATCH
        WATCH 00100500h, 4, 2
        mov word [struct+2Ah], low
        call fresh
        mov edi, struct
        mov cx, 0
        SVC 0301h
        OK '0301h'
        call result
        IS ax, 0
        mov word [struct+2Ah], high
        call fresh
        mov edi, struct
        mov cx, 0
        mov ax, 0301h
        int 31h
.e:     call result
        IS ax, 0101h
        IS word [where], .e
        UNWATCH
        ; raw switches: at the target in protected mode
        WATCH AT(cell), 1, 1
        call fresh
        mov ax, [real_cs]
        mov si, ax
        mov cx, ax
        mov dx, 3000h
        mov ebx, 0800h
        mov edi, switched
        jmp 0087h:0320h
switched: mov [cell], al
        nop
        mov ax, [hits]
        mov [in_real], ax
        mov ax, 0217h
        mov cx, 0217h
        mov dx, 020Fh
        mov ebx, 0100h
        mov si, 0207h
        mov edi, .f
        jmp 0F000h:0101h
.f:     IS word [in_real], 0
        call result
        IS ax, 0101h
        IS word [where], .f
        ; a callback: before the procedure's first instruction
        push ds
        push cs
        pop ds
        mov esi, proc
        mov edi, back
        SVC 0303h
        pop ds
        OK '0303h'
        mov [address], dx
        mov [address+2], cx
        mov word [struct+2Ah], calls
        call fresh
        mov edi, struct
        mov cx, 0
        SVC 0301h
        OK '0301h'
        IS word [where], proc
        IS word [at_proc], 1
        call result
        IS ax, 0101h
        ; the exception of the procedure stood at depth 2: its record's stack
        IS word [frame_at], 1800h - 8*ITEM
        EXIT 0
callee: mov [cell], ax
        nop
        mov ax, [hits]
        mov [in_real], ax
        retf
interrupt: mov [cs:cell], ax
        iret
reads:  mov ax, 0
        mov es, ax
        mov al, [es:AT(cell)+1]
        retf
low:    mov ax, 0
        mov ds, ax
        mov [0500h], eax
        mov eax, [0500h]
        retf
high:   mov ax, 0FFFFh
        mov ds, ax
        mov al, [0510h+3]
        retf
calls:  push cs
        pop ds
        mov [cell], al
        call far [address]
        retf
proc:   mov ds, [cs:data]
        mov ax, [hits]
        mov [at_proc], ax
        mov word [es:back+2Ah], behind
        mov ax, [real_cs]
        mov [es:back+2Ch], ax
        xiret
behind: add sp, 4
        retf
in_real: dw 0
at_proc: dw 0
address: dd 0
        times 8 db 0
cell:   dd 0
        times 8 db 0
WATCH_PARTS
PROT_FINISH
