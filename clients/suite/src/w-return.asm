;@ w-return-16 -DW=16
;@ w-return-32 -DW=32
; A handler's far return reads its frame and is hit. The exception comes before the return trap,
; at depth 1, with 0087h:0322h as its CS:IP; then the first exception returns. The same with an IRET
; from a callback's procedure: 0087h:0323h.
%include "prot.inc"
%include "watch.inc"
back    equ 0E000h
struct  equ 0E100h
ENTER_PROT
        push ds
        pop es
        WATCHING
        mov bl, 0Dh
        mov cx, cs
        mov edx, first_one
        SVC 0203h
        OK '0203h'
        WATCH 0E0000h + 800h - 8*ITEM, 1, 2
        mov ax, 1234h
        hlt
        IS ax, 1234h
        IS word [hits], 1
        IS word [where], 0322h
        IS word [where_cs], 0087h
        IS word [frame_at], 1000h - 8*ITEM
        mov bx, 1
        SVC 0B02h
        OK '0B02h'
        IS ax, 1
        ; a callback's IRET frame, at depth 1
        mov bx, 1
        SVC 0B01h
        OK '0B01h'
        WATCH 0E0000h + 1000h - 3*ITEM, 1, 2
        push cs
        pop ds
        mov esi, proc
        mov edi, back
        SVC 0303h
        push es
        pop ds
        OK '0303h'
        mov [address], dx
        mov [address+2], cx
        mov ax, [real_cs]
        mov [struct+24h], ax
        mov [struct+2Ch], ax
        mov word [struct+2Ah], callee
        mov edi, struct
        mov cx, 0
        SVC 0301h
        OK '0301h'
        IS word [hits], 2
        IS word [where], 0323h
        IS word [where_cs], 0087h
        IS word [frame_at], 1800h - 8*ITEM
        EXIT 0
first_one: mov bp, sp
        inc WORDW [ss:bp+3*ITEM]
        IS word [hits], 0       ; (writes above the watched byte)
        xretf
callee: call far [address]
.next:  add sp, 4
        retf
proc:   mov word [es:back+2Ah], callee.next
        mov ax, [cs:real_cs]
        mov [es:back+2Ch], ax
        xiret
address: dd 0
WATCH_PARTS
PROT_FINISH
