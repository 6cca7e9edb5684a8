;@ g-exc-16 -DW=16
;@ g-exc-32 -DW=32
;@ g-deep-exc-16 -DW=16 -DDEEPER
;@ g-deep-exc-32 -DW=32 -DDEEPER
; Exceptions within exceptions to depth 32 and back: the protected stack of a depth ends at
; 008Fh:(depth+1)*800h. At depth 32 a call is refused with 8012h. g-deep-exc makes one more:
; the exit is deep.
%include "prot.inc"
struct  equ 0E000h
frame   equ 8*ITEM
ENTER_PROT
        push ds
        pop es
        mov bl, 0Dh
        mov cx, cs
        mov edx, handler
        SVC 0203h
        OK '0203h'
        mov edi, struct
        mov ax, [real_cs]
        mov [struct+2Ch], ax
        mov word [struct+2Ah], callee
        mov edx, 0100h          ; (E)SP that each frame must show
        mov si, 020Fh           ; and SS
first_hlt: hlt
        IS word [level], 0
        IS word [most], 32
        IS word [refused], 1
        mov bx, ss
        IS bx, 020Fh
        mov ebx, esp
        IS ebx, 0100h
        SVC 0902h
        OK '0902h'
        IS ax, 0901h
        EXIT 0
callee: retf
handler: mov bx, ss
        IS bx, 008Fh
        movzx eax, word [level]
        inc eax
        shl eax, 11             ; (depth + 1) * 800h
        sub eax, frame
        mov ebx, esp
%if W == 16
        IS bx, ax               ; the last ends at 10000h
%else
        IS ebx, eax
%endif
        mov bp, sp
        IS WORDW [bp+2*ITEM], 0 ; code
        IS word [bp+7*ITEM], si
%if W == 16
        IS word [bp+6*ITEM], dx
%else
        IS dword [bp+6*ITEM], edx
%endif
        inc word [level]
        mov ax, [level]
        mov [most], ax
        IS word [level], ax
        mov si, 008Fh
        mov edx, esp
        mov cx, 0
        cmp ax, 32
        je .deepest
        cmp ax, 31              ; at depth 31 there is room for one more
        jne .on
        SVC 0301h
        OK '0301h at depth 31'
.on:    hlt
        jmp .back
.deepest:
%ifdef DEEPER
        hlt
%endif
        SVC 0301h
        NO '0301h at depth 32'
        IS ax, 8012h
        inc word [refused]
.back:  dec word [level]
        mov bp, sp
        inc WORDW [bp+3*ITEM]
        mov edx, [bp+6*ITEM]    ; what the one above must show was this one's
        mov si, [bp+7*ITEM]
        xretf
level:  dw 0
most:   dw 0
refused: dw 0
PROT_FINISH
