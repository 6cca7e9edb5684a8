; Prefixes in any order and number: the last segment, the last of F2h and F3h, 66h and 67h once
; however often they come, LOCK where it is allowed, and instructions of 14 and 15 bytes.
%include "client.inc"
START
%macro P 1+                     ; bytes: printed are EAX, ECX, SI and DI
        %defstr %%s %1
        SAY %%s, ': '
        mov eax, 0EEEEEEEEh
        mov ecx, 3
        mov bx, letters
        mov si, letters
        mov di, letters
        db %1
        call show
%endmacro
        mov ax, cs
        mov dx, 2000h           ; ES FS GS: other segments with other letters
        mov bx, letters
        mov ds, dx
        mov byte [bx], 'd'
        inc dh
        mov es, dx
        mov byte [es:bx], 'e'
        inc dh
        mov fs, dx
        mov byte [fs:bx], 'f'
        inc dh
        mov gs, dx
        mov byte [gs:bx], 'g'
        mov byte [ss:bx], 's'
        P 8Ah, 07h
        P 26h, 8Ah, 07h
        P 2Eh, 8Ah, 07h
        P 36h, 8Ah, 07h
        P 64h, 8Ah, 07h
        P 65h, 8Ah, 07h
        P 65h, 3Eh, 8Ah, 07h    ; the last segment counts
        P 3Eh, 26h, 64h, 8Ah, 07h
        P 64h, 64h, 26h, 8Ah, 07h
        P 66h, 2Eh, 8Bh, 07h
        P 2Eh, 66h, 66h, 8Bh, 07h ; 66h twice is 66h once
        P 67h, 67h, 2Eh, 8Ah, 03h ; [ebx] with 67h twice
        P 67h, 2Eh, 66h, 67h, 8Bh, 03h
        P 0F3h, 2Eh, 8Ah, 07h   ; F2h and F3h before other rows: nothing
        P 0F2h, 40h
        P 0F3h, 90h
        P 0F3h, 2Eh, 0ACh       ; REP LODSB
        P 2Eh, 0F3h, 66h, 0ADh
        P 0F2h, 0F3h, 2Eh, 0A6h ; the last one counts: REPE CMPSB with ES
        P 0F3h, 0F2h, 2Eh, 0A6h ; REPNE
        P 0F3h, 67h, 2Eh, 0ACh
        push cs                 ; LOCK with every operation that takes it
        pop ds
        mov dword [letters], 'abcd'
        P 0F0h, 00h, 07h        ; ADD
        P 0F0h, 09h, 07h        ; OR
        P 0F0h, 66h, 11h, 07h   ; ADC
        P 66h, 0F0h, 19h, 07h   ; SBB
        P 0F0h, 21h, 0Fh        ; AND
        P 0F0h, 80h, 2Fh, 01h   ; SUB by group 1
        P 0F0h, 83h, 37h, 0FFh  ; XOR by group 1
        P 0F0h, 0F6h, 17h       ; NOT
        P 0F0h, 0F7h, 1Fh       ; NEG
        P 0F0h, 0FEh, 07h       ; INC
        P 0F0h, 0FFh, 0Fh       ; DEC
        P 0F0h, 87h, 07h        ; XCHG
        P 0F0h, 0Fh, 0ABh, 0Fh  ; BTS
        P 0F0h, 0Fh, 0BAh, 3Fh, 4 ; BTC
        P 0F3h, 0F0h, 2Eh, 0F0h, 01h, 07h
        H8 [letters]
        NL
        ; 14 and 15 bytes
        P 3Eh,3Eh,3Eh,3Eh,3Eh,3Eh,3Eh,3Eh,3Eh,3Eh,3Eh,66h,0FFh,0C0h
        P 3Eh,3Eh,3Eh,3Eh,3Eh,3Eh,3Eh,3Eh,3Eh,3Eh,3Eh,3Eh,66h,0FFh,0C0h
        EXIT 0
show:   H8 eax
        SAY ' '
        H8 ecx
        SAY ' '
        sub si, letters
        H4 si
        SAY ' '
        sub di, letters
        H4 di
        NL
        ret
letters: db 'cdef', 0, 0, 0, 0
FINISH
