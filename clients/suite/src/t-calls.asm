;@ t-calls-16 -DW=16
;@ t-calls-32 -DW=32
; The timer's interrupt within calls, callbacks, exceptions and raw switches (words: --timer 500). In real
; mode it goes to the real vector, also where a protected handler is set; where virtual interrupts are
; disabled, it waits, and is taken when they come back.
%include "prot.inc"
struct  equ 0E000h
back    equ 0E100h
%macro COUNTS 2                 ; real ones, protected ones
        IS word [real_count], %1
        IS word [prot_count], %2
%endmacro
ENTER_PROT
        cli
        push ds
        pop es
        mov ax, ds
        mov [data], ax
        mov bl, 08h
        mov cx, [real_cs]
        mov dx, real8
        SVC 0201h
        OK '0201h'
        mov cx, cs
        mov edx, prot8
        SVC 0205h
        OK '0205h'
        mov ax, [real_cs]
        mov [struct+2Ch], ax
        mov word [struct+2Ah], waits
        mov edi, struct
        mov cx, 0
        ; a call with IF clear: it waits in it, and afterwards, since the client has them disabled
        mov word [struct+20h], 0002h
        SVC 0301h
        OK '0301h'
        COUNTS 0, 0
        ; with IF set it comes in the callee, more than once, to the real vector
        mov word [struct+20h], 0202h
        SVC 0301h
        OK '0301h'
        IS word [prot_count], 0
        cmp word [real_count], 2
        jae .two
        EXIT 90
.two:   mov word [real_count], 0
        ; 0302h disables them whatever the structure says; but the callee's IRET takes IF from its
        ; flags word, and then it comes in real mode still, before the return trap
        mov word [struct+2Ah], waits_iret
        SVC 0302h
        OK '0302h'
        COUNTS 1, 0
        IS word [in_ip], 0103h
        mov word [real_count], 0
        mov word [struct+20h], 0002h
        SVC 0302h
        OK '0302h'
        COUNTS 0, 0
        ; enabled in the client: it comes as soon as the call is back, to the protected vector
        mov word [struct+20h], 0002h
        mov word [struct+2Ah], waits_off
        sti
        mov ax, 0301h
        int 31h
.a:     OK '0301h'
        COUNTS 0, 2             ; one before the INT, one that waited in the callee
        IS word [in_ip], .a
        mov word [prot_count], 0
        cli
        ; a callback's procedure starts with them disabled
        push cs
        pop ds
        mov esi, proc
        mov edi, back
        SVC 0303h
        push es
        pop ds
        OK '0303h'
        mov [address], dx
        mov [address+2], cx
        mov word [struct+2Ah], calls
        mov word [struct+20h], 0202h
        mov edi, struct
        mov cx, 0
        SVC 0301h
        OK '0301h'
        IS word [bad], 0
        ; the handler of an exception too; its return takes IF from the frame
        mov bl, 0Dh
        mov cx, cs
        mov edx, handler
        SVC 0203h
        OK '0203h'
        mov word [prot_count], 0
        mov word [real_count], 0
        mov cx, 1000
        loop $
        mov byte [disable], 1   ; the handler of 08h leaves them disabled
        sti
        nop                     ; here it comes
        IS word [prot_count], 1
        sti
        hlt
.b:     IS word [bad], 0
        COUNTS 0, 2
        IS word [in_ip], .b
        ; a raw switch: the real vector
        mov word [prot_count], 0
        cli
        mov ax, [real_cs]
        mov si, ax
        mov cx, ax
        mov dx, 3000h
        mov ebx, 0800h
        mov edi, switched
        jmp 0087h:0320h
switched: mov cx, 1000
        loop $
        COUNTS 0, 0
        sti
        nop                     ; here it comes
        COUNTS 1, 0
        cli
        mov cx, 1000
        loop $
        sti
        IS word [prot_count], 0
        cli
        mov cx, 1000            ; one that waits when protected mode comes
        loop $
        mov word [real_count], 0
        mov ax, 0217h
        mov cx, 0217h
        mov dx, 020Fh
        mov ebx, 0100h
        mov si, 0207h
        mov edi, again
        jmp 0F000h:0101h
again:  COUNTS 0, 0
        sti
        nop
        COUNTS 0, 1
        EXIT 0
waits:  mov cx, 2000
        loop $
        retf
waits_off: mov cx, 1000
        loop $
        retf
waits_iret: mov cx, 1000
        loop $
        iret
calls:  cli
        mov cx, 1000
        loop $
        sti                     ; the one that waited
        call far [cs:address]
.next:  add sp, 4
        retf
proc:   mov ds, [cs:data]       ; protected mode
        mov bx, [prot_count]
        mov cx, 1000
        loop $
        cmp bx, [prot_count]
        je .same
        mov word [bad], 1
.same:  mov byte [disable], 0
        sti
        nop                     ; here it comes, to the protected vector
        inc bx
        cmp bx, [prot_count]
        je .one
        mov word [bad], 2
.one:   mov word [es:back+2Ah], calls.next
        mov ax, [real_cs]
        mov [es:back+2Ch], ax
        and word [es:back+20h], 0FDFFh ; the caller goes on with them disabled
        xiret
handler: mov bx, [prot_count]
        mov cx, 1000
        loop $
        cmp bx, [prot_count]
        je .same
        mov word [bad], 3
.same:  mov bp, sp
        inc WORDW [bp+3*ITEM]
        test word [bp+5*ITEM], 0200h
        jnz .on
        mov word [bad], 4
.on:    xretf
real8:  inc word [cs:real_count]
        push bp
        push ax
        mov bp, sp
        mov ax, [bp+4]
        mov [cs:in_ip], ax
        pop ax
        pop bp
        iret
prot8:  push ds
        push bp
        push ax
        mov ds, [cs:data]
        inc word [prot_count]
        mov bp, sp
        mov ax, [bp+6]
        mov [in_ip], ax
        cmp byte [disable], 0
        pop ax
        pop bp
        pop ds
        jne .off
        sti
.off:   xiret
data:   dw 0
real_count: dw 0
prot_count: dw 0
in_ip:  dw 0
bad:    dw 0
disable: dw 0
address: dd 0
PROT_FINISH
