;@ call-structure-last -DCASE=1
;@ call-structure-rom -DCASE=2
;@ call-stack-odd -DCASE=3
;@ call-stack-wraps -DCASE=4
;@ call-stack-over-structure -DCASE=5
;@ call-stack-over-eax -DCASE=6
; Function 0300h for INT 21h, AX = 3000h, which only answers, with structures and stacks of real mode at the ends of what may be used. The
; client ends with 0 where the call is served and with FFh (255) where it is refused.
; Expected: 1, 3, 4, 5 and 6 are served: exit 0, with the lines enter 0 int 21 and leave 0 int 21. 2 is refused: exit 255, with neither.
; 6 has the procedure's stack inside the structure: the frame, at 0164h:001Ch, overwrites EAX and the flags. All values are read before the
; first write, so that the enter line shows what was there before: eax=00003000, fl=0002, and esp=0000001c. The frame is popped as it
; was pushed, and the return writes EAX: it is 5, the version, in ECX at the end.
%include "plain.inc"
START
ENTER
%if CASE == 1                   ; the structure's 32h bytes are the last ones of the segment
        push ds
        pop es
        mov di, 0FFCEh
        mov word [di+1Ch], 3000h
        mov cx, strict word 0
%elif CASE == 2                 ; the structure is in memory that can be read only, F0000h
        mov ax, 0002h
        mov bx, 0F000h
        int 31h
        mov es, ax
        xor di, di
        xor cx, cx
%else
        push ds
        pop es
        mov di, 1000h
        mov word [di+1Ch], 3000h
 %if CASE == 3                  ; an odd SP: the frame is at 8000h:FFF9h
        mov word [di+30h], 8000h
        mov word [di+2Eh], 0FFFFh
 %elif CASE == 4                ; FFFFh:0020h is past the first megabyte: its bytes are those at 10h
        mov word [di+30h], 0FFFFh
        mov word [di+2Eh], 0020h
 %elif CASE == 5                ; the stack ends at 0164h:0034h, linear 1674h, two bytes after the structure, 1640h to 1671h: the frame
        mov word [di+30h], 0164h ; overwrites its end, SP and SS, and the call returns all the same
        mov word [di+2Eh], 0034h
 %else
        mov word [di+30h], 0164h
        mov word [di+2Eh], 0022h
 %endif
        mov cx, strict word 0
%endif
        mov ax, 0300h
        mov bx, 0021h
        int 31h
        sbb al, al
%if CASE == 6
        mov ecx, [di+1Ch]
%endif
        mov ah, 4Ch
        int 21h
FINISH
