;@ f-unknown-16 -DW=16
;@ f-unknown-32 -DW=32
;@ f-nowatch-16 -DW=16 -DWATCH
;@ f-nowatch-32 -DW=32 -DWATCH
; Functions that aren't served answer 8001h, 0800h and 0A00h among them. f-nowatch asks for 0B00h to
; 0B03h in that way: they are served, so it ends with 1, the number of its first check.
%include "refuse.inc"
ENTER_REFUSE
        push ds
        pop es
        mov ebx, 1
        mov ecx, 0740h
        mov edx, 0102h
        mov esi, 0
        mov edi, 8000h
%ifdef WATCH
        REFUSED 8001h, 0B00h
        REFUSED 8001h, 0B01h
        REFUSED 8001h, 0B02h
        REFUSED 8001h, 0B03h
        mov edx, 0FFFFh
        REFUSED 8001h, 0B00h
%else
 %macro UNKNOWN 1-*
  %rep %0
        REFUSED 8001h, %1
  %rotate 1
  %endrep
 %endmacro
        UNKNOWN 0004h, 0005h, 000Eh, 000Fh, 0010h, 0080h, 00FFh
        UNKNOWN 0103h, 0104h, 0106h, 01FFh, 0206h, 0207h, 02FFh
        UNKNOWN 0307h, 0310h, 03FFh, 0401h, 0402h, 04FFh, 0504h, 0505h, 050Ah, 05FFh
        UNKNOWN 0605h, 0606h, 06FFh, 0700h, 0701h, 0704h, 07FFh, 0800h, 0801h, 08FFh
        UNKNOWN 0903h, 09FFh, 0A00h, 0A01h, 0AFFh, 0B04h, 0B05h, 0BFFh
        UNKNOWN 0C00h, 0C01h, 0D00h, 0E00h, 0E01h, 1000h, 1234h, 1687h, 4C00h
        UNKNOWN 8000h, 8001h, 0FF00h, 0FFFFh
        mov eax, 0ABCD0400h     ; a known one in between
        SVC 0902h
        OK '0902h'
        IS ax, 0901h
        REFUSED 8001h, 1234h
%endif
        REFUSE_DONE
