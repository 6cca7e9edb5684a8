;@ c-refused-16 -DW=16 -DPRINT
;@ c-refused-32 -DW=32 -DPRINT
; 0300h to 0302h: every refusal but that of depth. Nothing is called and nothing changes.
%include "prot.inc"
%include "call.inc"
%macro TRY 2+                   ; service, title: must be refused
        SVC %1
        NO %2
%endmacro
ENTER_PROT
        push ds
        pop es
        FILL
        SETW S_IP, farproc
        mov edi, struct
        mov bx, 0060h
        mov sp, 4000h
        mov ecx, 201
        TRY 0300h, '0300h with 201 words'
        TRY 0301h, '0301h with 201 words'
        TRY 0302h, '0302h with 201 words'
        mov ecx, 0FFFFh
        TRY 0301h, '0301h with 65535 words'
        mov ecx, 200
        SVC 0301h
        OK '0301h with 200 words'
        mov ecx, 00010000h      ; CX counts
        SVC 0301h
        OK '0301h with ECX 10000h'
        mov ecx, 0
        push word 0
        pop es
        TRY 0301h, 'structure in null'
        push cs
        pop es
        TRY 0301h, 'structure in code'
        push ds
        pop es
        mov edi, 0FFCFh
        TRY 0301h, 'structure over the end'
        mov edi, struct + 0FFFF0000h
%if W == 32
        TRY 0301h, 'structure far outside'
%endif
        mov edi, struct
        mov bx, ds              ; a structure that can be read but not written
        mov edi, 8100h
        SVC 000Bh
        mov cx, 1
        SVC 0000h
        mov bx, ax
        mov edi, 8100h
        mov byte [8105h], 0F1h
        SVC 000Ch
        OK '000Ch'
        mov es, bx
        mov cx, 0
        FILL
        SETW S_IP, farproc
        mov edi, struct
        TRY 0301h, 'structure that is read-only'
        push ds
        pop es
        SETW S_SS, 0F000h       ; real stacks that can't be written
        SETW S_SP, 1000h
        TRY 0301h, 'stack at F0000h'
        SETW S_SS, 3000h
        SETW S_SP, 1
        TRY 0301h, 'stack with SP 1'
        SETW S_SS, 0F000h       ; F000h:0002h: one word below, at F0000h
        SETW S_SP, 2
        TRY 0301h, 'stack with SP 2 at F0000h'
        SETW S_SS, 0EFFFh
        SETW S_SP, 0014h        ; EFFFh:0010h is F0000h
        TRY 0301h, 'stack over F0000h'
        SETW S_SP, 0010h
        SETW S_IP, quiet        ; a callee that needs no stack
        SVC 0301h
        OK 'stack up to F0000h'
        mov bx, 0060h
        SETW S_SP, 0012h        ; the flags word would lie at F0000h
        TRY 0300h, '0300h, stack over F0000h'
        FILL                    ; words at the end of the client's stack
        SETW S_IP, farproc
        mov word [ss:0], 0AAAAh
        mov sp, 0FFFCh
        mov ecx, 3
        SVC 0301h
        mov sp, 4000h
%if W == 16
        OK 'words over the end of the stack'
%else
        NO 'words over the end of the stack'
%endif
        EXIT 0
farproc: SAY 'called '
quiet:  retf
CALL_FINISH
