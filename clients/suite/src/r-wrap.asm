; Ends of segments and of the first megabyte: SP wraps modulo 65536, string indices wrap, offsets
; of forms wrap, near jumps of 16 bits wrap, segment:offset above FFFFFh shows the bytes of the
; start, the bytes from F0000h on are F4h.
%include "client.inc"
START
        ; SP = 0: a push goes to FFFEh
        mov bp, sp
        mov bx, ss
        mov ax, 3000h
        mov ss, ax
        xor sp, sp
        push word 1234h
        mov cx, sp
        push dword 89ABCDEFh
        mov dx, sp
        pop eax
        pop si
        mov di, sp
        mov ss, bx
        mov sp, bp
        V4 cx
        V4 dx
        V8 eax
        V4 si
        V4 di
        H4 [ss:0]
        NL
        ; string indices
        mov ax, 3000h
        mov ds, ax
        mov es, ax
        mov word [0FFFEh], 'wx'
        mov word [0], 'yz'
        mov esi, 0FFFEh
        mov edi, 8000h
        mov cx, 4
        rep movsb
        V8 esi
        H8 [8000h]
        std
        mov si, 2
        lodsw
        mov dx, ax
        lodsw
        V8 esi
        V4 dx
        V4 ax
        cld
        NL
        ; forms: BX+SI and a displacement wrap, so FFFFh + 3 is 2
        mov bx, 0FFFFh
        mov si, 3
        mov byte [2], 'm'
        H2 [bx+si]
        H2 [bx+3]
        mov bp, 0FFF0h
        mov di, 12h
        H2 [ds:bp+di]
        NL
        ; the megabyte: FFFFh:0010h is 00000h, read and written; FFFFh:0000h is F4h
        mov ax, 0FFFFh
        mov ds, ax
        xor ax, ax
        mov es, ax
        H4 [es:0]
        H4 [10h]
        mov dword [es:180h], 'WRAP' ; vector 60h
        H8 [190h]
        mov byte [191h], 'r'
        H8 [es:180h]
        mov dword [190h], 0F0000060h
        H8 [es:180h]
        SAY ' '
        H4 [0]
        H4 [0Eh]
        H8 [0Eh]                ; F4h F4h and the first two bytes of memory
        mov ax, 0F000h
        mov ds, ax
        H8 [0FFFCh]
        H8 [0]
        NL
        ; near jumps over the end of the segment
        mov ax, 3000h
        mov es, ax
        mov byte [es:0], 0CBh   ; RETF at 3000h:0000h
        mov word [es:0FFF0h], 0EEBh ; JMP SHORT from FFF0h to FFF2h + 0Eh = 0000h
        call 3000h:0FFF0h
        SAY 'back '
        mov byte [es:0FFF0h], 0E9h  ; JMP NEAR from FFF0h to FFF3h + 000Dh = 0000h
        mov word [es:0FFF1h], 000Dh
        call 3000h:0FFF0h
        SAY 'again', 10
        EXIT 0
FINISH
