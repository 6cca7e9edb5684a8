;@ x-frame-16 -DW=16
;@ x-frame-32 -DW=32
;@ c-xframe-16 -DW=16 -DPRINT
;@ c-xframe-32 -DW=32 -DPRINT
; The frame of an exception, item by item; what the handler may change in it; an exception within
; the handler, whose frame lies on the next of the host's stacks.
%include "prot.inc"
%macro ITEMS 2                  ; a place in the frame and what it must hold
        IS WORDW [bp+(%1)*ITEM], %2
%endmacro
ENTER_PROT
        mov bl, 0Dh
        mov cx, cs
        mov edx, outer
        SVC 0203h
        OK '0203h'
        mov eax, 11112222h
        mov ecx, 33334444h
        push word 0AD7h         ; IF in a frame is the virtual flag, which is set
        popf
        hlt
back:   pushf                   ; here the handler leads to, with the flags that it wrote
        pop bx
        mov dx, sp
        IS eax, 11112222h
        IS ecx, 33334444h
        IS bx, 0693h
        IS dx, 00F0h
        mov ax, ss
        IS ax, 020Fh
        SVC 0902h               ; the virtual flag came from the frame: still set
        OK '0902h'
        IS ax, 0901h
        mov bl, 0Dh
        mov cx, cs
        mov edx, second
        SVC 0203h
        OK '0203h'
        cli
        hlt
there:  SVC 0902h               ; this handler set IF in the frame
        OK '0902h'
        IS ax, 0901h
        mov bx, ss
        IS bx, 0217h            ; and another SS
        mov bx, sp
        IS bx, 8000h
        EXIT 0
outer:  pushf
        cld
        mov bp, sp
        add bp, 2
        IS bp, 800h - 8*ITEM
        mov bx, ss
        IS bx, 008Fh
        mov bx, ds
        IS bx, 0217h
        mov bx, cs
        IS bx, 0207h
        ITEMS 0, 0322h
        IS word [bp+ITEM], 0087h
        ITEMS 2, 0
        ITEMS 3, back - 1
        IS word [bp+4*ITEM], 0207h
        IS word [bp+5*ITEM], 0AD7h
        ITEMS 6, 0100h
        IS word [bp+7*ITEM], 020Fh
        pop bx
        IS bx, 0AD7h            ; the flags come to the handler as they were; IF shows 1
        push eax
        SVC 0902h
        OK '0902h in the handler'
        IS ax, 0900h
        push ebx
        mov bl, 0Ch             ; an exception within: a stack fault
        mov cx, cs
        mov edx, inner
        SVC 0203h
        OK '0203h'
        mov [spare], esp
        mov edi, 0FFFFh
        mov al, [ss:edi]
over:   pop ebx
        pop eax
        mov ecx, 33334444h
        mov bp, sp
        mov WORDW [bp+3*ITEM], back
        mov word [bp+5*ITEM], 0693h
        mov WORDW [bp+6*ITEM], 00F0h
        xretf
inner:  mov bp, sp
        IS bp, 1000h - 8*ITEM
        ITEMS 2, 0
        IS word [bp+4*ITEM], 0207h
        mov bx, [spare]
        IS word [bp+6*ITEM], bx
        IS word [bp+7*ITEM], 008Fh
        mov WORDW [bp+3*ITEM], over
        xretf
second: mov bp, sp
        mov bx, [bp+5*ITEM]
        and bx, 200h
        IS bx, 0                ; CLI
        or word [bp+5*ITEM], 200h
        mov WORDW [bp+3*ITEM], there
        mov WORDW [bp+6*ITEM], 8000h
        mov word [bp+7*ITEM], 0217h
        xretf
spare:  dd 0
PROT_FINISH
