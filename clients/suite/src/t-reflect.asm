;@ t-reflect-16 -DW=16
;@ t-reflect-32 -DW=32
; In protected mode, where the protected vector 08h is the default, 0087h:0208h, the interrupt is reflected
; with the present registers. The seven general registers and the flags pass to the real handler and
; from it to the client; the rest comes back as it was. Words: --timer 500.
%include "prot.inc"
ENTER_PROT
        cli
        mov bl, 08h
        mov cx, [real_cs]
        mov dx, handler
        SVC 0201h
        OK '0201h'
        push ds
        pop es
        push ds
        pop fs
        mov cx, 1000
        loop $
        IS word [count], 0
        mov eax, 0A1A1A1A1h
        mov ebx, 0B1B1B1B1h
        mov ecx, 0C1C1C1C1h
        mov edx, 0D1D1D1D1h
        mov esi, 51515151h
        mov edi, 61616161h
        mov ebp, 71717171h
        push word 0ED6h
        popf
        sti
        pushf                   ; here it comes
        pop word [flags_back]
        cld
        IS eax, 0A2A2A2A2h      ; what the handler left
        IS ebx, 0B2B2B2B2h
        IS ecx, 0C2C2C2C2h
        IS edx, 0D2D2D2D2h
        IS esi, 52525252h
        IS edi, 62626262h
        IS ebp, 72727272h
        IS word [flags_back], 0AD7h ; carry set and DF cleared by the image
        IS word [count], 1
        mov ax, ds
        IS ax, 0217h
        mov ax, es
        IS ax, 0217h
        mov ax, fs
        IS ax, 0217h
        mov ax, gs
        IS ax, 0
        mov ax, ss
        IS ax, 020Fh
        mov eax, esp
        IS eax, 0100h
        IS dword [in_eax], 0A1A1A1A1h ; what came to the handler
        IS dword [in_ebx], 0B1B1B1B1h
        IS dword [in_ebp], 71717171h
        IS word [in_flags], 0CD6h ; IF off, the others as they were
        IS word [in_image], 0ED6h ; and IF in the image that it will pop
        IS word [in_ret], 0103h
        IS word [in_ret+2], 0F000h
        IS word [in_ss], 0D800h
        IS word [in_sp], 0400h - 6
        IS word [in_ds], 0
        IS word [in_es], 0
        IS word [in_fs], 0
        IS word [in_gs], 0
        SVC 0902h
        OK '0902h'
        IS ax, 0901h            ; restored
        cli
        EXIT 0
handler: mov [cs:in_eax], eax
        mov [cs:in_ebx], ebx
        mov [cs:in_ebp], ebp
        mov [cs:in_ss], ss
        mov [cs:in_sp], sp
        mov [cs:in_ds], ds
        mov [cs:in_es], es
        mov [cs:in_fs], fs
        mov [cs:in_gs], gs
        pushf
        pop word [cs:in_flags]
        inc word [cs:count]
        mov bp, sp
        mov ax, [bp]
        mov [cs:in_ret], ax
        mov ax, [bp+2]
        mov [cs:in_ret+2], ax
        mov ax, [bp+4]
        mov [cs:in_image], ax
        xor word [bp+4], 0401h  ; carry set, direction cleared
        mov eax, 0A2A2A2A2h
        mov ebx, 0B2B2B2B2h
        mov ecx, 0C2C2C2C2h
        mov edx, 0D2D2D2D2h
        mov esi, 52525252h
        mov edi, 62626262h
        mov ebp, 72727272h
        iret
count:  dw 0
flags_back: dw 0
in_eax: dd 0
in_ebx: dd 0
in_ebp: dd 0
in_ss:  dw 0
in_sp:  dw 0
in_ds:  dw 1
in_es:  dw 1
in_fs:  dw 1
in_gs:  dw 1
in_flags: dw 0
in_image: dw 0
in_ret: dd 0
PROT_FINISH
