;@ callback-prints -DCASE=1
;@ callback-freed-inside -DCASE=2
;@ callback-short-structure -DCASE=3
;@ callback-structures -DCASE=4
; A handler of INT 60h in real mode far-calls a callback; the client calls INT 60h by function 0300h. The procedure resumes real mode after
; the far call: it takes the return address from the real stack, DS:SI, into the structure at ES:DI (IP at 2Ah, CS at 2Ch, SP at 2Eh).
; 1: the procedure also prints C, by a call of its own. Expected: console `C`, exit 0, and in this order enter 0 int 60, enter 1 back 0,
;    enter 2 int 21, leave 2 int 21, leave 1 back 0, leave 0 int 60.
; 2: it frees the callback that runs. Expected: it returns all the same; exit 0, enter 0 int 60, enter 1 back 0, leave 1 back 0, leave 0 int
;    60.
; 3: the structure is in the last 32h bytes of a segment of 132h bytes; then the limit is made one byte less. Expected: the callback can't
;    start: exit loststructure, with the line enter 0 int 60 alone, depth 1.
; 4: as 1, and each of the three structures holds the registers of its own level. The handler far-calls with EAX = A0A0A0A0h and EBX =
;    A1A1A1A1h, which are what the callback's structure gets, and hands them back, since the procedure leaves them. After the far call the
;    handler sets EAX = B0B0B0B0h and EBX = B1B1B1B1h, which are what its return writes to the structure of INT 60h. The procedure's own
;    call has EAX = 0C0C0200h and EBX = C1C1C1C1h in its structure, and function 02h leaves them. Expected: exit 0, console `C`; EBX, ECX
;    and EDX are the three EAX, b0b0b0b0 a0a0a0a0 0c0c0200; ESI, EDI and EBP the three EBX, b1b1b1b1 a1a1a1a1 c1c1c1c1.
%include "plain.inc"
structure equ 1000h             ; of the call of INT 60h, in DS, as are the next two
back    equ 1100h               ; of the callback
address equ 1200h               ; the callback; in real mode at CS:1100h, since CS is 100h bytes after DS
inner   equ 1300h               ; of the procedure's own call
START
ENTER
        mov ax, 0201h
        mov bl, 60h
        mov cx, 0074h
        mov dx, real
        int 31h
%if CASE == 3
        xor ax, ax
        mov cx, 1
        int 31h
        mov bx, ax
        mov ax, 0008h
        xor cx, cx
        mov dx, 0131h
        int 31h
        push ds
        push cs
        pop ds
        mov es, bx
        mov si, procedure
        mov di, 0100h
        SERVICE 0303h
        pop ds
        mov [address], dx
        mov [address+2], cx
        push ds
        pop es
        mov ax, 0008h
        xor cx, cx
        mov dx, 0130h
        int 31h
%else
        push ds
        pop es
        push ds
        push cs
        pop ds
        mov si, procedure
        mov di, back
        SERVICE 0303h
        pop ds
        mov [address], dx
        mov [address+2], cx
%endif
        mov di, structure
        xor cx, cx
        mov ax, 0300h
        mov bx, 0060h
        int 31h
        sbb al, al              ; FFh where the call is refused
%if CASE == 4
        mov ebx, [structure+1Ch]
        mov ecx, [back+1Ch]
        mov edx, [inner+1Ch]
        mov esi, [structure+10h]
        mov edi, [back+10h]
        mov ebp, [inner+10h]
%endif
        mov ah, 4Ch
        int 21h
real:
%if CASE == 4
        mov eax, 0A0A0A0A0h
        mov ebx, 0A1A1A1A1h
%endif
        call far [cs:address-100h]
%if CASE == 4
        mov eax, 0B0B0B0B0h
        mov ebx, 0B1B1B1B1h
%endif
        iret
procedure:
%if CASE == 1 || CASE == 4
        push di
        mov di, inner
 %if CASE == 4
        mov dword [es:di+1Ch], 0C0C0200h
        mov dword [es:di+10h], 0C1C1C1C1h
 %else
        mov word [es:di+1Ch], 0200h ; AX: AH = 02h
 %endif
        mov byte [es:di+14h], 'C' ; DL
        xor cx, cx
        mov ax, 0300h
        mov bx, 0021h
        int 31h
        pop di
%elif CASE == 2
        mov ax, 0304h
        mov cx, 0F000h
        mov dx, 0110h
        int 31h
%endif
        mov ax, [si]
        mov [es:di+2Ah], ax
        mov ax, [si+2]
        mov [es:di+2Ch], ax
        add word [es:di+2Eh], 4
        iret
FINISH
