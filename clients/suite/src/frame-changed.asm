;@ frame-cs-null -DCASE=1
;@ frame-cs-level -DCASE=2
;@ frame-cs-data -DCASE=3
;@ frame-ss-null -DCASE=4
;@ frame-ss-code -DCASE=5
;@ frame-ss-other -DCASE=6
;@ frame-flags-all -DCASE=7
;@ frame-flags-none -DCASE=8
; A handler of exception 0Dh, which HLT raises, returns with another frame. After PUSH BP and MOV BP,SP the frame of 16 bits is: [BP+02h]
; the return address, [BP+06h] the code, [BP+08h] IP, [BP+0Ah] CS, [BP+0Ch] flags, [BP+0Eh] SP, [BP+10h] SS.
; Expected: a CS of null, of privilege level 0 or of data, and an SS of null or of code can't be loaded: exit badframe, with a line of the
; entry into the handler (4 in all) and none of its return, depth 1. SS = 0217h, data, is loaded, and the client goes on after HLT and ends
; with 5. With all bits of the flags set it ends with 6, since carry is set; with none it ends with 5. Of IF the virtual interrupt flag is
; taken: `fl` at the end has IF where the handler set it.
%include "plain.inc"
START
ENTER
HANDLED
        hlt
END_HANDLED
        push bp
        mov bp, sp
%if CASE >= 6
        inc word [bp+08h]       ; past HLT
%endif
%if CASE == 1
        mov word [bp+0Ah], 0000h
%elif CASE == 2
        mov word [bp+0Ah], 0204h
%elif CASE == 3
        mov word [bp+0Ah], 0217h
%elif CASE == 4
        mov word [bp+10h], 0000h
%elif CASE == 5
        mov word [bp+10h], 0207h
%elif CASE == 6
        mov word [bp+10h], 0217h
%elif CASE == 7
        mov word [bp+0Ch], 0FFFFh
%else
        mov word [bp+0Ch], 0000h
%endif
        pop bp
        retf
FINISH
