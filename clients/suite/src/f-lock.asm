;@ f-lock-16 -DW=16
;@ f-lock-32 -DW=32
; 0600h to 0603h, 0702h and 0703h refused: the number of each reason and their order.
%include "refuse.inc"
%macro REGION 2                 ; linear address, bytes
        mov ebx, 0BBBB0000h + (((%1) >> 16) & 0FFFFh)
        mov ecx, 0CCCC0000h + ((%1) & 0FFFFh)
        mov esi, 51510000h + (((%2) >> 16) & 0FFFFh)
        mov edi, 0D1D10000h + ((%2) & 0FFFFh)
%endmacro
%macro REF 4
        REGION %3, %4
        REFUSED %2, %1
%endmacro
%macro CLEAR 3
        REGION %2, %3
        SVC %1
        OK %1
        IS ax, %1
%endmacro
ENTER_REFUSE
        mov bx, 0
        mov cx, 4000h
        SVC 0501h
        OK '0501h of four pages'
        ; a byte past FFFFFFFFh or in neither a block nor below 110000h, 8025h
        REF 0600h, 8025h, 0FFFFFFFFh, 2
        REF 0600h, 8025h, 00404000h, 1
        REF 0600h, 8025h, 00403FFFh, 2
        REF 0600h, 8025h, 003FFFFFh, 2
        REF 0600h, 8025h, 00110000h, 1
        REF 0600h, 8025h, 00000000h, 110001h
        REF 0600h, 8025h, 0C0000000h, 1
        REF 0600h, 8025h, 00400000h, 0FFFFFFFFh
        REF 0601h, 8025h, 00404000h, 1
        REF 0601h, 8025h, 0FFFFFFFFh, 2
        ; for 0601h a count at 0, 8021h; a byte outside comes first
        REF 0601h, 8021h, 00400000h, 1
        REF 0601h, 8021h, 00400000h, 4000h
        REF 0601h, 8025h, 00400000h, 4001h
        REF 0601h, 8025h, 003FFFFFh, 2
        CLEAR 0600h, 00401000h, 2000h
        REF 0601h, 8021h, 00401000h, 2001h
        REF 0601h, 8021h, 00400FFFh, 2
        CLEAR 0601h, 00401FFFh, 2
        REF 0601h, 8021h, 00401FFFh, 2
        CLEAR 0600h, 0, 110000h
        CLEAR 0601h, 0, 110000h
        CLEAR 0601h, 00300000h, 0
        ; 0602h, 0603h: a byte from 110000h on, 8025h; pageable already or not, 8021h
        REF 0602h, 8025h, 10FFFFh, 2
        REF 0602h, 8025h, 110000h, 1
        REF 0602h, 8025h, 00400000h, 1
        REF 0603h, 8025h, 0FFFFFFFFh, 2
        REF 0603h, 8021h, 1000h, 1
        REF 0603h, 8025h, 1000h, 110000h ; both
        CLEAR 0602h, 1000h, 2000h
        REF 0602h, 8021h, 2FFFh, 1
        REF 0602h, 8021h, 0, 10000h
        REF 0602h, 8025h, 2000h, 110000h
        REF 0603h, 8021h, 0FFFh, 2
        CLEAR 0603h, 1FFFh, 2
        REF 0603h, 8021h, 2000h, 1
        ; 0702h, 0703h: a byte outside held blocks, 8025h
        REF 0702h, 8025h, 00403FFFh, 2
        REF 0702h, 8025h, 1000h, 1
        REF 0702h, 8025h, 0FFFFFFFFh, 1
        REF 0703h, 8025h, 00403FFFh, 2
        REF 0703h, 8025h, 1000h, 1
        REF 0703h, 8025h, 003FFFFFh, 2
        CLEAR 0702h, 00400000h, 4000h
        CLEAR 0703h, 00400000h, 4000h
        ; others
        REF 0605h, 8001h, 00400000h, 1
        REF 06FFh, 8001h, 00400000h, 1
        REF 0700h, 8001h, 00400000h, 1
        REF 0701h, 8001h, 00400000h, 1
        REF 0704h, 8001h, 00400000h, 1
        REFUSE_DONE
