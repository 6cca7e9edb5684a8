;@ w-frame-16 -DW=16
;@ w-frame-32 -DW=32
; A hit in protected mode raises exception 1 with code 0 in a turn of its own after the
; instruction: the frame's items at depth 0 and 1, the virtual flag, flags that the instruction
; set, a handler that leads elsewhere, and a handler that itself is watched.
%include "prot.inc"
%macro ITEMS 2
        IS WORDW [bp+(%1)*ITEM], %2
%endmacro
%define AT(x) (0740h + (x) - first)
%macro WATCH 3
        mov bx, 0
        mov cx, AT(%1)
        mov dx, (%2) + 100h * (%3)
        SVC 0B00h
        OK '0B00h'
%endmacro
ENTER_PROT
        mov bl, 1
        mov cx, cs
        mov edx, outer
        SVC 0203h
        OK '0203h'
        WATCH cell, 2, 1        ; handle 1
        push word 0ED7h         ; all flags; the subtraction sets others
        popf
        mov eax, 11112222h
        mov ecx, 33334444h
        sub word [cell], 1      ; 5 - 1: all flags clear but DF
next:   cld
        IS eax, 11112222h
        IS ecx, 33334444h
        IS word [handled], 1
        SVC 0902h               ; IF of the frame was set: as before
        OK '0902h'
        IS ax, 0901h
        ; with virtual interrupts disabled it comes all the same
        mov bl, 1
        mov cx, cs
        mov edx, second
        SVC 0203h
        OK '0203h'
        mov bx, 1
        SVC 0B03h
        OK '0B03h'
        cli
        mov word [cell], 0
        EXIT 99                 ; the handler leads elsewhere
there:  IS word [handled], 2
        SVC 0902h
        OK '0902h'
        IS ax, 0900h
        mov ebx, esp
        IS ebx, 8000h
        mov bx, ss
        IS bx, 0217h
        mov ax, 020Fh
        mov ss, ax
        mov sp, 0100h
        sti
        ; a handler that hits another watchpoint: the next one comes at depth 1
        mov bl, 1
        mov cx, cs
        mov edx, third
        SVC 0203h
        OK '0203h'
        WATCH other, 1, 2       ; handle 2
        mov bx, 1
        SVC 0B03h
        OK '0B03h'
        mov [cell], ax
last:   IS word [handled], 4
        mov bx, 2
        SVC 0B02h
        OK '0B02h'
        IS ax, 1
        EXIT 0
outer:  mov bp, sp
        cld
        IS bp, 800h - 8*ITEM
        mov bx, ss
        IS bx, 008Fh
        mov bx, ds
        IS bx, 0217h
        ITEMS 0, 0322h
        IS word [bp+ITEM], 0087h
        ITEMS 2, 0
        ITEMS 3, next           ; the IP after the instruction
        IS word [bp+4*ITEM], 0207h
        IS word [bp+5*ITEM], 0602h
        ITEMS 6, 0100h
        IS word [bp+7*ITEM], 020Fh
        push eax
        SVC 0902h
        OK '0902h in the handler'
        IS ax, 0900h
        mov bx, 1
        SVC 0B02h
        OK '0B02h in the handler'
        IS ax, 1
        mov ax, [cell]
        IS ax, 4
        mov word [cell], 9      ; the status is set: no further one
        pop eax
        inc word [handled]
        xretf
second: mov bp, sp
        ITEMS 3, there - 5
        mov bx, [bp+5*ITEM]
        and bx, 0200h
        IS bx, 0
        inc word [handled]
        mov WORDW [bp+3*ITEM], there
        mov WORDW [bp+6*ITEM], 8000h
        mov word [bp+7*ITEM], 0217h
        xretf
third:  mov bp, sp
        IS bp, 800h - 8*ITEM
        mov bl, 1
        mov cx, cs
        mov edx, fourth
        SVC 0203h
        OK '0203h'
        mov al, [other]
.after: IS word [handled], 3
        inc word [handled]
        mov bp, sp
        ITEMS 3, last
        xretf
fourth: mov bp, sp
        IS bp, 1000h - 8*ITEM
        ITEMS 3, third.after
        IS word [bp+7*ITEM], 008Fh
        ITEMS 6, 800h - 8*ITEM
        inc word [handled]
        xretf
        times 8 db 0
cell:   dw 5
        times 8 db 0
other:  dw 0
        times 8 db 0
handled: dw 0
PROT_FINISH
