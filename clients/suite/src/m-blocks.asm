;@ m-blocks-16 -DW=16
;@ m-blocks-32 -DW=32
;@ c-blocks-16 -DW=16 -DPRINT
;@ c-blocks-32 -DW=32 -DPRINT
; 0500h to 0503h with the default budget of 1024 pages: places, handles, contents, refusals.
%include "prot.inc"
%macro GET 1                    ; 0501h of a number of bytes
        mov bx, (%1) >> 16
        mov cx, (%1) & 0FFFFh
        SVC 0501h
%endmacro
%macro SIZE 2                   ; 0503h: handle, bytes
        mov si, 0
        mov di, %1
        mov bx, (%2) >> 16
        mov cx, (%2) & 0FFFFh
        SVC 0503h
%endmacro
%macro AT 2                     ; address and handle of 0501h and 0503h
        IS bx, (%1) >> 16
        IS cx, (%1) & 0FFFFh
        IS si, 0
        IS di, %2
%endmacro
%macro DROP 1
        mov si, 0
        mov di, %1
        SVC 0502h
%endmacro
ENTER_PROT
        mov cx, 1               ; a flat descriptor in FS
        SVC 0000h
        OK '0000h'
        mov bx, ax
        mov cx, 0FFFFh
        mov dx, 0FFFFh
        SVC 0008h
        OK '0008h'
        mov fs, bx
        GET 0
        NO '0501h of none'
        GET 1
        OK '0501h of a byte'
        AT 00400000h, 1
        mov ebp, 00400000h
        IS dword [fs:ebp+0FFCh], 0
        mov dword [fs:ebp+0FFCh], 12345678h
        GET 10000h
        OK '0501h of 64 KB'
        AT 00401000h, 2
        GET 400000h - 11000h + 1
        NO '0501h of a byte above the budget'
        GET 400000h - 11000h
        OK '0501h of all that is left'
        AT 00411000h, 3
        GET 1
        NO '0501h with an empty budget'
        SIZE 1, 1001h
        NO '0503h with an empty budget'
        DROP 3
        OK '0502h'
        DROP 3
        NO '0502h twice'
        DROP 0
        NO '0502h of handle 0'
        mov si, 1
        mov di, 1
        SVC 0502h
        NO '0502h of handle 10001h'
        SIZE 1, 2000h           ; no room after it: it moves
        OK '0503h, moved'
        AT 00411000h, 1
        IS dword [fs:ebp+11FFCh], 12345678h
        IS dword [fs:ebp+12000h], 0
        GET 1000h               ; where it was, and zero
        OK '0501h in the hole'
        AT 00400000h, 3
        IS dword [fs:ebp+0FFCh], 0
        SIZE 1, 5000h           ; in place
        OK '0503h, grown in place'
        AT 00411000h, 1
        mov dword [fs:ebp+14000h], 9
        SIZE 1, 1
        OK '0503h, smaller'
        AT 00411000h, 1
        IS dword [fs:ebp+11FFCh], 12345678h
        SIZE 1, 4000h
        OK '0503h, larger again'
        IS dword [fs:ebp+14000h], 0 ; new pages are zero
        SIZE 1, 0
        NO '0503h of none'
        SIZE 4, 1000h
        NO '0503h, not held'
        DROP 2
        OK '0502h of 64 KB'
        SIZE 3, 11000h          ; exactly to the next block
        OK '0503h up to the next block'
        AT 00400000h, 3
        SIZE 3, 12000h          ; its own pages count as held
        OK '0503h, moved again'
        AT 00415000h, 3
        DONE
