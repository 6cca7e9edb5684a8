;@ g-back-16 -DW=16
;@ g-back-32 -DW=32
;@ g-back-even-16 -DW=16 -DEVEN
;@ g-back-even-32 -DW=32 -DEVEN
;@ g-deep-back-16 -DW=16 -DDEEPER
;@ g-deep-back-32 -DW=32 -DDEEPER
;@ g-deep-even-16 -DW=16 -DEVEN -DDEEPER
;@ g-deep-even-32 -DW=32 -DEVEN -DDEEPER
; Calls and callbacks within one another to depth 32 and back: the order of the records, their
; descriptors 32 + depth, up to index 63, and the protected stack of each depth, which ends at
; 008Fh:(depth+1)*800h. Callbacks come at the odd depths; with EVEN an exception comes first and
; they come at the even ones. At depth 32 the next call is refused with 8012h. g-deep-back goes to
; real mode there and calls the callback; in g-deep-even the callee at depth 31 calls it: both end
; as deep.
%include "prot.inc"
structs equ 0C000h
back    equ 0E000h
%ifdef EVEN
 ROUNDS equ 15                  ; depths 1 to 30, then one call at depth 31
%else
 ROUNDS equ 16
%endif
ENTER_PROT
        push ds
        pop es
        mov ax, ds
        mov [data], ax
        push ds
        push cs
        pop ds
        mov esi, proc
        mov edi, back
        SVC 0303h
        pop ds
        OK '0303h'
        mov [address], dx
        mov [address+2], cx
%ifdef EVEN
        mov bl, 0Dh
        mov cx, cs
        mov edx, handler
        SVC 0203h
        OK '0203h'
        mov word [depth], 1
        hlt
%else
        call round
%endif
        IS word [rounds], 0
        IS word [most], ROUNDS
        mov bx, 63*8+7          ; what was made stays
        SVC 0006h
%ifdef EVEN
        NO '0006h of index 63'
        mov bx, 62*8+7
        SVC 0006h
        OK '0006h of index 62'
        mov bx, 33*8+7
        SVC 0006h
        NO '0006h of index 33'
%else
        OK '0006h of index 63'
        mov bx, 62*8+7
        SVC 0006h
        NO '0006h of index 62'
        mov bx, 32*8+7
        SVC 0006h
        NO '0006h of index 32'
%endif
%ifdef EVEN
        mov bx, (32+2)*8+7
%else
        mov bx, (32+1)*8+7
%endif
        SVC 0006h
        OK '0006h of the first'
        SVC 0001h
        NO '0001h of it'
        IS ax, 8022h
        SVC 0007h
        NO '0007h of it'
        IS ax, 8022h
        EXIT 0
%ifdef EVEN
handler: mov ax, 0
        push xdi
        call round
        pop xdi
        mov bp, sp
        inc WORDW [bp+3*ITEM]
        xretf
%endif
round:  mov di, [rounds]        ; DS and ES are the image's
        shl di, 6
        add di, structs
        movzx edi, di
        mov ax, [real_cs]
        mov [di+2Ch], ax
        mov [di+24h], ax
        mov word [di+2Ah], callee
        mov dword [di+2Eh], 0
        mov word [di+20h], 0202h
        mov cx, 0
        SVC 0301h
        OK '0301h'
        ret
callee: inc word [depth]        ; real mode
%ifdef EVEN
        cmp word [depth], 32
        je .deepest
%endif
        mov ax, [depth]
        shl ax, 10
        sub ax, 4
        IS sp, ax
        call far [address]
        dec word [depth]
        retf
%ifdef EVEN
.deepest:
 %ifdef DEEPER
        call far [address]
 %endif
        dec word [depth]
        retf
%endif
proc:   mov ebp, esp            ; protected mode; DS is the caller's stack
        mov bx, ds
        mov ds, [cs:data]
        movzx eax, word [depth]
        shl ax, 3
        add ax, 32*8+7
        IS bx, ax               ; descriptor 32+depth
        lsl ax, bx
        IS ax, 0FFFFh
        SVC 0006h
        OK '0006h'
        IS cx, 000Dh            ; base SS*16
        IS dx, 8000h
        movzx eax, word [depth]
        inc eax
        shl eax, 11
        sub eax, 3*ITEM
%if W == 16
        IS bp, ax
%else
        IS ebp, eax
%endif
        mov bx, ss
        IS bx, 008Fh
        mov ax, [depth]         ; SI = SP: the far return address lies there
        shl ax, 10
        sub ax, 8
        IS si, ax
        inc word [depth]
        inc word [rounds]
        mov ax, [rounds]
        mov [most], ax
        cmp word [depth], 32
        je .last
        mov cx, 25              ; the callback's structure onto the stack
        mov bx, 0
.keep:  push word [es:back+bx]
        add bx, 2
        loop .keep
        push es
        call round
        pop es
        mov cx, 25
        mov bx, 48
.bring: pop word [es:back+bx]
        sub bx, 2
        loop .bring
.end:   dec word [rounds]
        dec word [depth]
        mov edi, back
        mov word [es:back+2Ah], landing ; it goes on after the far call
        mov ax, [real_cs]
        mov [es:back+2Ch], ax
        xiret
.last:  mov edi, structs        ; depth 32
        mov cx, 0
%ifdef DEEPER
        mov ax, [real_cs]       ; real mode at depth 32
        mov si, ax
        mov dx, 9000h
        mov bx, 0800h
        mov edi, again
        jmp 0087h:0320h
%endif
        SVC 0301h
        NO '0301h at depth 32'
        IS ax, 8012h
        SVC 0300h
        NO '0300h at depth 32'
        IS ax, 8012h
        mov cx, 201
        SVC 0301h
        NO '0301h with 201 words'
        IS ax, 8021h
        jmp .end
again:  call far [address]
        EXIT 1
landing: add sp, 4              ; the return address of the far call
        dec word [depth]
        retf
depth:  dw 0
rounds: dw 0
most:   dw 0
data:   dw 0
address: dd 0
PROT_FINISH
