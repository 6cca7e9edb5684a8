;@ g-places-16 -DW=16
;@ g-places-32 -DW=32
; Where calls, reflections and exceptions leave their words in DOS memory: real stacks from
; D8000h on, 400h bytes for each depth; protected ones from E0000h on, 800h bytes for each.
%include "prot.inc"
%include "flat.inc"
struct  equ 0E000h
%macro WORDS 3                  ; linear address of the first, and two words
        mov esi, %1
        IS word [fs:esi], %2
        IS word [fs:esi+2], %3
%endmacro
ENTER_PROT
        FLAT
        push ds
        pop es
        mov bl, 60h
        mov cx, [real_cs]
        mov dx, inner
        SVC 0201h
        OK '0201h'
        mov bl, 0Dh
        mov cx, cs
        mov edx, handler
        SVC 0203h
        OK '0203h'
        mov ax, [real_cs]
        mov [struct+2Ch], ax
        mov [struct+24h], ax
        mov word [struct+2Ah], callee
        mov edi, struct
        mov cx, 1               ; a word above the return address
        push word 7777h
        SVC 0301h
        OK '0301h'
        pop ax
        WORDS 0D8000h + 3FAh, 0103h, 0F000h
        IS word [fs:esi+4], 7777h
        int 60h                 ; a reflection: flags, F000h, 0103h
        IS word [seen_ss], 0D800h
        IS word [seen_sp], 03FAh
        WORDS 0D8000h + 3FAh, 0103h, 0F000h
        hlt                     ; exception 0Dh at depth 0
        WORDS 0E0000h + 800h - 8*ITEM, 0322h, (2-W/16) * 0087h
        IS word [seen_ss], 0D800h ; the handler's reflection at depth 1
        IS word [seen_sp], 07FAh
        WORDS 0D8000h + 7FAh, 0103h, 0F000h
        IS word [handled], 2    ; an exception within it at depth 1
        mov esi, 0E0000h + 1000h - 8*ITEM
        IS word [fs:esi], 0322h
        IS word [fs:esi+ITEM], 0087h
        mov esi, 0E0000h + 1800h - 8*ITEM
        IS word [fs:esi], 0     ; but none at depth 2
        mov esi, 0DFFFCh
        IS dword [fs:esi], 0
        EXIT 0
callee: retf
inner:  mov [cs:seen_ss], ss
        mov [cs:seen_sp], sp
        iret
handler: inc word [handled]
        cmp word [handled], 2
        je .second
        int 60h
        hlt
.second: mov bp, sp
        inc WORDW [bp+3*ITEM]
        xretf
seen_ss: dw 0
seen_sp: dw 0
handled: dw 0
PROT_FINISH
