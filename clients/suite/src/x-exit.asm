;@ x-exit-default-16 -DW=16 -DCASE=1
;@ x-exit-default-32 -DW=32 -DCASE=1
;@ x-exit-page-16 -DW=16 -DCASE=2
;@ x-exit-page-32 -DW=32 -DCASE=2
;@ x-exit-notpresent-16 -DW=16 -DCASE=3
;@ x-exit-notpresent-32 -DW=32 -DCASE=3
;@ x-stray-default-16 -DW=16 -DCASE=4
;@ x-stray-default-32 -DW=32 -DCASE=4
;@ x-stray-return-16 -DW=16 -DCASE=5
;@ x-stray-return-32 -DW=32 -DCASE=5
;@ x-badframe-cs-16 -DW=16 -DCASE=6
;@ x-badframe-cs-32 -DW=32 -DCASE=6
;@ x-badframe-ss-16 -DW=16 -DCASE=7
;@ x-badframe-ss-32 -DW=32 -DCASE=7
;@ x-badframe-int-16 -DW=16 -DCASE=8
;@ x-badframe-int-32 -DW=32 -DCASE=8
;@ x-exit-freed-16 -DW=16 -DCASE=9
;@ x-exit-freed-32 -DW=32 -DCASE=9
;@ x-exit-deep-16 -DW=16 -DCASE=10
;@ x-exit-deep-32 -DW=32 -DCASE=10
;@ x-exit-inside-16 -DW=16 -DCASE=11
;@ x-exit-inside-32 -DW=32 -DCASE=11
;@ x-exit-trap-16 -DW=16 -DCASE=12
;@ x-exit-trap-32 -DW=32 -DCASE=12
;@ x-exit-record-16 -DW=16 -DCASE=13
;@ x-exit-record-32 -DW=32 -DCASE=13
;@ x-exit-host-16 -DW=16 -DCASE=14
;@ x-exit-host-32 -DW=32 -DCASE=14
; Ends of a run by exceptions in protected mode and their frames. Each ends with another exit. x-exit-host ends
; with 1: the host's stacks reach up to FFFFh, so the words at 7FFEh and 7FFFh are there.
%include "prot.inc"
ENTER_PROT
        mov cx, 1               ; a flat descriptor in FS
        SVC 0000h
        mov bx, ax
        mov cx, 0FFFFh
        mov dx, 0FFFFh
        SVC 0008h
        mov fs, bx
        mov bl, 0Dh             ; a handler for cases with one
        mov cx, cs
        mov edx, handler
%if CASE >= 6 && CASE != 8 && CASE != 12 && CASE != 14
        SVC 0203h
%endif
%if CASE == 1
        hlt
%elif CASE == 2
        mov esi, 0C0000000h
        mov [fs:esi], al
%elif CASE == 3
        mov bx, fs
        mov cx, 0073h
        SVC 0009h
        mov ax, [fs:0]
%elif CASE == 4                 ; a default handler without an exception
        jmp 0087h:030Dh
%elif CASE == 5                 ; the return of a handler without an exception
        jmp 0087h:0322h
%elif CASE == 8                 ; the frame of an interrupt that can't be read
        mov sp, 0FFFEh
        mov ax, 0003h
        jmp 0087h:0231h
%elif CASE == 9                 ; a handler in code that was freed
        mov bx, cs
        SVC 000Ah
        mov bx, ax
        mov cx, 00FBh
        SVC 0009h
        mov cx, bx
        mov bl, 0Dh
        SVC 0203h
        mov bx, cx
        SVC 0001h
        hlt
%elif CASE == 12                ; a trap of real mode is HLT here
        jmp 0087h:0021h
%elif CASE == 14                ; the host's own stack selector may be loaded and used
        mov ax, 008Fh
        mov es, ax
        mov ax, [es:7FFEh]
        mov ax, [es:7FFFh]
%else
        hlt
%endif
        EXIT 1
handler: mov bp, sp
%if CASE == 6                   ; CS of the frame becomes data
        mov word [bp+4*ITEM], 020Fh
        xretf
%elif CASE == 7
        mov word [bp+7*ITEM], 0
        xretf
%elif CASE == 10                ; again and again: 32 records, and one more
        hlt
%elif CASE == 11
        EXIT 77
%elif CASE == 13                ; another default handler: the record's number counts
        jmp 0087h:0300h
%endif
        EXIT 2
PROT_FINISH
