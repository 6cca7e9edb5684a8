;@ w-numbers-16 -DW=16
;@ w-numbers-32 -DW=32
; 0B00h to 0B03h: sixteen handles, the numbers of the refusals and their order, and
; that they change AX alone.
%include "refuse.inc"
%macro MAKE 4                   ; linear address, size, type, handle that it must get
        mov ebx, 0BEEF0000h + ((%1) >> 16)
        mov ecx, 0CCCC0000h + ((%1) & 0FFFFh)
        mov edx, 0DDDD0000h + (%2) + 100h * (%3)
        mov eax, 0ABCD0B00h
        int 31h
        OK '0B00h'
        IS ebx, 0BEEF0000h + (%4) ; BX alone is changed
        IS eax, 0ABCD0B00h
        IS ecx, 0CCCC0000h + ((%1) & 0FFFFh)
        IS edx, 0DDDD0000h + (%2) + 100h * (%3)
%endmacro
%macro NOMAKE 4                 ; linear address, size, type, number
        mov ebx, 0BEEF0000h + ((%1) >> 16)
        mov ecx, 0CCCC0000h + ((%1) & 0FFFFh)
        mov edx, 0DDDD0000h + (%2) + 100h * (%3)
        REFUSED %4, 0B00h
%endmacro
%macro NOHANDLE 1               ; BX not held, 8023h
        mov ebx, 0BEEF0000h + (%1)
        REFUSED 8023h, 0B01h
        REFUSED 8023h, 0B02h
        REFUSED 8023h, 0B03h
%endmacro
ENTER_REFUSE
        mov esi, 51515151h
        mov edi, 0D1D1D1D1h
        NOHANDLE 0
        NOHANDLE 1
        NOHANDLE 16
        NOHANDLE 17
        NOHANDLE 0FFFFh
        ; DL not 1, 2 or 4 or DH above 2, 8021h
        NOMAKE 80000h, 0, 1, 8021h
        NOMAKE 80000h, 3, 1, 8021h
        NOMAKE 80000h, 5, 1, 8021h
        NOMAKE 80000h, 8, 1, 8021h
        NOMAKE 80000h, 0FFh, 1, 8021h
        NOMAKE 80000h, 1, 3, 8021h
        NOMAKE 80000h, 1, 0FFh, 8021h
        NOMAKE 80000h, 3, 3, 8021h
        ; a byte past FFFFFFFFh, 8025h; 8021h comes first
        NOMAKE 0FFFFFFFFh, 2, 1, 8025h
        NOMAKE 0FFFFFFFFh, 4, 0, 8025h
        NOMAKE 0FFFFFFFDh, 4, 2, 8025h
        NOMAKE 0FFFFFFFFh, 3, 1, 8021h
        NOMAKE 0FFFFFFFFh, 2, 3, 8021h
        NOMAKE 0FFFFFFFDh, 0, 0, 8021h
        NOHANDLE 1
        MAKE 80000h, 1, 0, 1
        MAKE 80000h, 1, 0, 2    ; the same once more
        MAKE 0FFFFFFFFh, 1, 2, 3 ; ranges that end with FFFFFFFFh, and other odd places
        MAKE 0FFFFFFFEh, 2, 1, 4
        MAKE 0FFFFFFFCh, 4, 0, 5
        MAKE 0C0000000h, 4, 2, 6
        MAKE 00200001h, 2, 2, 7
        MAKE 000F0300h, 4, 1, 8
        NOHANDLE 9
        mov cx, 8               ; the last eight
.more:  push cx
        mov bx, 0040h
        mov cx, 0
        mov dx, 0104h
        SVC 0B00h
        pop cx
        OK '0B00h'
        mov bp, bx
        loop .more
        IS bp, 16
        ; 16 held, 8016h; the other two come first
        NOMAKE 80000h, 1, 1, 8016h
        NOMAKE 0FFFFFFFEh, 2, 2, 8016h
        NOMAKE 0FFFFFFFEh, 4, 2, 8025h
        NOMAKE 80000h, 3, 1, 8021h
        NOMAKE 0FFFFFFFFh, 4, 3, 8021h
        NOHANDLE 0
        NOHANDLE 17
        NOHANDLE 0101h
        NOHANDLE 8001h
        ; the lowest unused handle
        mov ebx, 0BEEF000Bh
        mov eax, 0ABCD0B01h
        int 31h
        OK '0B01h of 11'
        IS eax, 0ABCD0B01h
        IS ebx, 0BEEF000Bh
        NOHANDLE 11
        mov bx, 3
        SVC 0B01h
        OK '0B01h of 3'
        mov bx, 16
        SVC 0B01h
        OK '0B01h of 16'
        MAKE 80000h, 2, 2, 3
        MAKE 80000h, 2, 2, 11
        MAKE 80000h, 2, 2, 16
        NOMAKE 80000h, 2, 2, 8016h
        ; what is clear: 0B02h has AX as output, 0B03h nothing
        mov ebx, 0BEEF0010h
        mov eax, 0ABCD0B02h
        int 31h
        OK '0B02h'
        IS eax, 0ABCD0000h
        IS ebx, 0BEEF0010h
        mov eax, 0ABCD0B03h
        int 31h
        OK '0B03h'
        IS eax, 0ABCD0B03h
        mov ebx, 0              ; and others of the family
        REFUSED 8001h, 0B04h
        REFUSED 8001h, 0BFFh
        REFUSE_DONE
