;@ block-freed-read -DCASE=1
;@ block-freed-last -DCASE=2
;@ block-freed-write -DCASE=3
;@ block-freed-push -DCASE=4
;@ block-freed-pop -DCASE=5
;@ block-freed-code -DCASE=6
;@ block-after-end -DCASE=7
;@ block-shrunk -DCASE=8
;@ block-moved -DCASE=9
;@ block-kept -DCASE=10
; What happens at addresses of a memory block that are no longer, or never were, the block's. A block of two pages is at 00400000h (handle 1
; in SI:DI); the descriptor 022Fh in BX and DS is 64 KB from there on.
; Expected: the page isn't there, so exception 0Eh has code 4 for a read and for a fetch of code, and 6 for a write (4: by the client; 2: a
; write; 1 would say that the page is there). Nothing handles it: exit fault 0e. block-kept reads in the page that the block kept: exit 0.
%include "plain.inc"
START
ENTER
        mov ax, 0501h
        xor bx, bx
        mov cx, 2000h
        int 31h
        mov ax, 0000h
        mov cx, 1
        int 31h
        mov bx, ax
        mov ax, 0007h
        mov cx, 0040h
        xor dx, dx
        int 31h
        mov ax, 0008h
        xor cx, cx
        mov dx, 0FFFFh
        int 31h
        mov ds, bx
%if CASE == 1                   ; its data is in the block that it frees: the first byte is read, code 4
        SERVICE 0502h
        mov al, [0]
%elif CASE == 2                 ; the last byte is read, code 4
        SERVICE 0502h
        mov al, [1FFFh]
%elif CASE == 3                 ; the first byte is written, code 6
        SERVICE 0502h
        mov byte [0], 41h
%elif CASE == 4                 ; its stack is in the block that it frees: a push, code 6
        mov ss, bx
        mov sp, 0800h
        SERVICE 0502h
        push ax
%elif CASE == 5                 ; a pop, code 4
        mov ss, bx
        mov sp, 0800h
        SERVICE 0502h
        pop ax
%elif CASE == 6                 ; its code is: it writes MOV AX,0502h and INT 31h there, makes 022Fh a code segment and jumps to it. The
        mov word [0], 02B8h     ; instruction after INT 31h can't be fetched: code 4, at 022Fh:0005h
        mov word [2], 0CD05h
        mov word [4], 9031h
        mov ax, 0009h
        mov cx, 00FAh
        int 31h
        jmp 022Fh:0000h
%elif CASE == 7                 ; the byte after the block, code 4
        mov al, [2000h]
%elif CASE == 8                 ; a byte of the page that the block gave back, code 4
        mov ax, 0503h
        xor bx, bx
        mov cx, 1000h
        int 31h
        mov al, [1000h]
%elif CASE == 9                 ; another block follows, so the first moves when it grows; where it was, code 4
        mov ax, 0501h
        xor bx, bx
        mov cx, 1
        int 31h
        mov ax, 0503h
        xor bx, bx
        mov cx, 3000h
        mov di, 1
        int 31h
        mov al, [0]
%else                           ; the last byte of the page that the block kept: 0, the exit code
        mov ax, 0503h
        xor bx, bx
        mov cx, 1000h
        int 31h
        mov al, [0FFFh]
        mov ah, 4Ch
        int 21h
%endif
FINISH
