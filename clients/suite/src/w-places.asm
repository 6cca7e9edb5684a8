;@ w-places-write-16 -DW=16 -DTYPE=1
;@ w-places-write-32 -DW=32 -DTYPE=1
;@ w-places-access-16 -DW=16 -DTYPE=2
;@ w-places-access-32 -DW=32 -DTYPE=2
; The bytes that an instruction touches are compared with a watched range by their linear addresses. Blocks,
; the page border, the read-only bytes, the two views of low memory, other segments, and ranges that end
; at FFFFFFFFh, which nothing hits.
%include "prot.inc"
%include "flat.inc"
%include "watch.inc"
%define WR HIT
%define N MISS
%if TYPE == 2
 %define R HIT
%else
 %define R MISS
%endif
ENTER_PROT
        push ds
        pop es
        WATCHING
        FLAT
        mov bx, 0
        mov cx, 3000h
        SVC 0501h
        OK '0501h'
        WATCH 00400FFEh, 4, TYPE ; over a page border
        mov esi, 00400FFEh
        WR {mov [fs:esi], al}
        WR {mov [fs:esi+3], al}
        WR {mov [fs:esi+2], ax}
        WR {mov [fs:esi-3], eax}
        N {mov [fs:esi+4], eax}
        N {mov [fs:esi-4], eax}
        R {mov eax, [fs:esi]}
        R {mov ax, [fs:esi+3]}
        N {mov al, [fs:esi+4]}
        UNWATCH
        OK '0B01h'
        WATCH 00402FFCh, 4, TYPE ; the block's end: what faults hits nothing
        mov bl, 0Eh
        mov cx, cs
        mov edx, skips
        SVC 0203h
        OK '0203h'
        mov esi, 00402FFFh
        WR {mov [fs:esi], al}
        mov byte [skip], 4
        N {mov [fs:esi], ax}
        N {mov ax, [fs:esi]}
        IS word [faults], 2
        UNWATCH
        WATCH 00400000h, 1, TYPE ; a place without a page later on
        mov si, 0
        mov di, 1
        SVC 0502h
        OK '0502h'
        mov esi, 00400000h
        mov byte [skip], 3
        N {mov [fs:esi], al}
        N {mov al, [fs:esi]}
        IS word [faults], 4
        mov bx, 0
        mov cx, 1000h
        SVC 0501h
        OK '0501h'
        mov esi, 00400000h
        WR {mov [fs:esi], al}
        R {mov al, [fs:esi]}
        N {mov [fs:esi+1], al}
        UNWATCH
        WATCH 000F0000h, 2, TYPE ; read-only bytes
        mov esi, 000F0001h
        R {mov al, [fs:esi]}
        N {mov [fs:esi], al}
        N {inc byte [fs:esi]}
        IS word [faults], 6
        mov esi, 000EFFFFh      ; half of it could be written
        mov byte [skip], 4
        N {mov [fs:esi], ax}
        IS word [faults], 7
        UNWATCH
        WATCH 00000500h, 1, TYPE ; low memory has two addresses
        mov esi, 00000500h
        WR {mov [fs:esi], al}
        R {mov al, [fs:esi]}
        mov esi, 00100500h
        N {mov [fs:esi], al}
        N {mov al, [fs:esi]}
        UNWATCH
        WATCH 00100500h, 1, TYPE
        WR {mov [fs:esi], al}
        mov esi, 00000500h
        N {mov [fs:esi], al}
        UNWATCH
        ; through a segment whose base wraps: base FFFFF000h, offset 1500h is linear 500h
        WATCH 00000500h, 2, TYPE
        mov bx, fs
        mov cx, 0FFFFh
        mov dx, 0F000h
        SVC 0007h
        OK '0007h'
        mov esi, 1500h
        WR {mov [fs:esi], al}
        R {mov ax, [fs:esi-1]}
        mov esi, 0500h
        mov byte [skip], 3
        N {mov al, [fs:esi]}    ; FFFFF500h: nothing is there
        IS word [faults], 8
        UNWATCH
        WATCH 0FFFFFFFCh, 4, TYPE
        mov esi, 0FFFh
        N {mov [fs:esi], al}    ; FFFFFFFFh
        IS word [faults], 9
        mov esi, 1000h
        N {mov [fs:esi], al}    ; 0
        N {mov eax, [fs:esi]}
        mov esi, 1001h
        N {mov [fs:esi], al}
        UNWATCH
        WATCH 0FFFFFFFFh, 1, TYPE
        mov esi, 1000h
        N {mov [fs:esi], al}
        N {mov eax, [fs:esi]}
        mov bx, fs
        mov cx, 0
        mov dx, 0
        SVC 0007h
        OK '0007h'
        mov esi, 0
        N {mov eax, [fs:esi]}
        N {mov [fs:esi], eax}
        mov esi, 0FFFFFFFFh
        mov byte [skip], 3
        N {mov al, [fs:esi]}
        IS word [faults], 10
        UNWATCH
        OK '0B01h'
        EXIT 0
skips:  push ds
        push bp
        push ax
        mov ds, [cs:data]
        inc word [faults]
        mov bp, sp
        movzx ax, byte [skip]
        add [bp+6+3*ITEM], ax
        pop ax
        pop bp
        pop ds
        xretf
skip:   db 0
        align 2
faults: dw 0
WATCH_PARTS
PROT_FINISH
