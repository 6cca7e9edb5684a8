;@ l-empty -DCASE=0
;@ l-short -DCASE=1
;@ l-signature -DCASE=2
;@ l-signature-zm -DCASE=3
;@ l-last-page -DCASE=4
;@ l-pages-0 -DCASE=5
;@ l-paras -DCASE=6
;@ l-reloc-table -DCASE=7
;@ l-no-room -DCASE=8
;@ l-reloc-target -DCASE=9
;@ l-entry-above -DCASE=10
;@ l-entry-below -DCASE=11
;@ l-order-1 -DCASE=12
;@ l-order-2 -DCASE=13
;@ l-order-3 -DCASE=14
;@ l-order-4 -DCASE=15
;@ l-order-5 -DCASE=16
;@ l-order-6 -DCASE=17
;@ l-last-place -DCASE=18
; Files that the loader refuses, each by one wrong number; the l-order files have more than one
; fault, of which the first in the order of checks is named. The last one is not refused: its entry
; is the last byte of the program block.
cpu 386
bits 16
%define SIG 'MZ'
%define LAST 43
%define PAGES 1
%define RELOCS 0
%define PARAS 2
%define MIN 10h
%define MAX 10h
%define IP 0
%define ENTRY 0
%define TABLE 1Ch
%define OFFS 0
%if CASE == 1 || CASE == 12     ; 27 bytes
 %define SHORT
%endif
%if CASE == 2 || CASE == 12 || CASE == 13
 %define SIG 'ZZ'
%elif CASE == 3
 %define SIG 'ZM'
%endif
%if CASE == 4 || CASE == 13 || CASE == 14
 %define LAST 513
%elif CASE == 5
 %define PAGES 0
%elif CASE == 6                 ; 43 bytes are less than three paragraphs
 %define PARAS 3
%endif
%if CASE == 7 || CASE == 14 || CASE == 15 ; the table ends one byte after the file
 %define RELOCS 1
 %define TABLE 40
%endif
%if CASE == 8 || CASE == 15 || CASE == 16 ; 16 + 1 + 9F8Ch is one more than 9F9Ch
 %define MIN 9F8Ch
%endif
%if CASE == 9 || CASE == 16 || CASE == 17 ; the word at 010Fh ends one byte after the block
 %define RELOCS 1
 %define OFFS 010Fh
%if CASE == 16
 %define ENTRY 8000h
%endif
%endif
%if CASE == 10 || CASE == 17    ; the block has 17 paragraphs from the image on
 %define IP 0110h
%elif CASE == 11                ; 0063h:000Fh
 %define ENTRY 0FFEFh
 %define IP 0Fh
%elif CASE == 18
 %define IP 010Fh
%endif
%if CASE != 0
        db SIG
        dw LAST, PAGES, RELOCS, PARAS, MIN, MAX, 1, 0100h, 0, IP, ENTRY, TABLE
%ifdef SHORT
        db 0
%else
        dw 0
        dw OFFS, 0              ; the one relocation at 1Ch
        db 0B4h, 2, 0B2h, 'A', 0CDh, 21h, 0B8h, 0, 4Ch, 0CDh, 21h
%endif
%endif
