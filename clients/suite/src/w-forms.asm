;@ w-forms-write-16 -DW=16 -DTYPE=1
;@ w-forms-write-32 -DW=32 -DTYPE=1
;@ w-forms-access-16 -DW=16 -DTYPE=2
;@ w-forms-access-32 -DW=32 -DTYPE=2
; Watchpoints and the instructions' other forms: each operation with memory on either side, immediates,
; counts, prefixes, both address sizes; on the stack the 32-bit ones. R reads the watched byte, WR writes
; it, N does neither.
%include "prot.inc"
%include "watch.inc"
%define WR HIT
%define N MISS
%if TYPE == 2
 %define R HIT
%else
 %define R MISS
%endif
there   equ 6FF0h
ENTER_PROT
        WATCHING
        WATCH AT(cell), 1, TYPE
        push ds
        pop es
        push ds
        pop fs
 %macro BOTH 1                  ; an operation with memory first, second, and an immediate
        WR {%1 [cell], bl}
        WR {%1 [cell-1], cx}
        WR {%1 [cell-2], edx}
        R {%1 bl, [cell]}
        R {%1 cx, [cell-1]}
        R {%1 edx, [cell-3]}
        WR {%1 byte [cell], 5}
        WR {%1 word [cell-1], 1234h}
        WR {%1 dword [cell-3], 7}
        N {%1 bl, [cell-1]}
        N {%1 [cell+1], edx}
        N {%1 bl, cl}
 %endmacro
        BOTH add
        BOTH adc
        BOTH or
        BOTH sbb
        BOTH xor
        WR {mov [cell], bl}
        WR {mov [fs:cell-1], bx}
        R {mov bl, [fs:cell]}
        R {mov ebx, [cell-3]}
        R {cmp dword [cell-3], 7}
        R {cmp byte [cell], 7}
        R {test word [cell-1], 7}
        R {test byte [cell], 7}
        R {or al, [cell]}
        WR {xchg bl, [cell]}
        WR {xchg [cell-2], edx}
        WR {rol byte [cell], 4}
        WR {rcl word [cell-1], cl}, {mov cl, 3}
        WR {sar dword [cell-3], 1}
        WR {rcr byte [cell], cl}, {mov cl, 1}
        WR {shld [cell-3], edx, cl}, {mov cl, 5}
        WR {shrd [cell], cx, 3}
        WR {bts [cell-4], ax}, {mov ax, 33}
        WR {btr [cell], eax}, {mov eax, 0}
        WR {btc [cell+4], eax}, {mov eax, -1}
        N {bts [cell], eax}, {mov eax, 32}
        R {bt dword [cell-3], 31}
        R {bsr edx, [cell-3]}
        R {movsx eax, byte [cell]}
        R {movzx eax, word [cell-1]}
        R {imul ebx, [cell-3]}
        R {imul ebx, [cell-3], 1000h}
        R {imul byte [cell]}
        R {mul dword [cell-2]}
        WR {inc byte [cell]}
        WR {dec dword [cell-3]}
        WR {not word [cell-1]}
        WR {neg byte [cell]}
        WR {setnz [cell]}
        WR {mov [cell-1], cs}
        N {mov [cell-2], cs}
        WR {pop dword [cell-3]}
        R {push dword [cell-3]}
        R {fs lodsb}, {mov si, cell}
        R {fs cmpsb}, {mov si, cell}, {mov di, cell+8}
        WR {fs movsb}, {mov si, cell+8}, {mov di, cell}
        R {a32 lodsb}, {mov esi, cell}
        WR {a32 movsd}, {mov esi, cell+8}, {mov edi, cell-3}
        R {a32 scasb}, {mov edi, cell}
        R {a32 xlatb}, {mov ebx, cell-3}, {mov al, 3}
        R {fs xlatb}, {mov bx, cell-3}, {mov al, 3}
        mov [cell+2], ds
        R {lgs bx, [cell]}
        R {lfs bx, [cell]}
        mov [cell], ds
        R {lgs bx, [cell-2]}
        R {lgs ebx, [cell-4]}
        R {mov gs, [cell]}
        R {mov es, [cell]}
        mov word [cell], 0100h
        mov word [cell+2], 020Fh
        R {lss sp, [cell]}
        mov dword [cell], 0100h
        mov word [cell+4], 020Fh
        R {lss esp, [cell]}
        mov dword [cell+4], 7FFFFFFFh
        WR {mov dword [cell], 7FFFFFFFh}
        mov dword [cell-4], 0
        R {bound eax, [cell-4]}, {mov eax, 4}
        mov dword [cell], 0
        N {bound eax, [cell-12]}, {mov eax, 0}
        R {lar ax, [cell]}
        R {lsl ax, [cell-1]}
        R {verw [cell-1]}
        N {lar eax, ebx}
        N {cbw}
        N {xchg ax, bx}
        N {daa}
        N {aam}
        N {lahf}
        N {cld}
        N {jmp short $+2}
        N {loop $+2}
        N {lea esi, [cell]}
        N {lds si, [cell+16]}
        UNWATCH
        ; the stack
        WATCH STACK(there), 1, TYPE
        push ds
        pop es
        WR {push fs}, {mov sp, there+2}
        WR {o32 push es}, {mov sp, there+4}
        N {o32 push es}, {mov sp, there+5}
        WR {push dword 1234h}, {mov sp, there+3}
        WR {pushfd}, {mov sp, there+4}
        mov ax, ds
        mov [ss:there], ax
        R {pop fs}, {mov sp, there}
        R {o32 pop gs}, {mov sp, there}
        mov dword [ss:there-2], 0
        R {o32 pop gs}, {mov sp, there-2}
        mov dword [ss:there-3], 0
        R {popfd}, {mov sp, there-3}
        N {popfd}, {mov sp, there-4}
        WR {o32 enter 8, 0}, {mov esp, there+4}
        N {o32 enter 8, 0}, {mov esp, there+5}
        WR {o32 enter 0, 2}, {mov esp, there+12}, {mov ebp, 6000h}
        N {o32 enter 0, 2}, {mov esp, there+13}, {mov ebp, 6000h}
        R {o32 enter 0, 2}, {mov esp, 6400h}, {mov ebp, there+4}
        N {o32 enter 0, 2}, {mov esp, 6400h}, {mov ebp, there+5}
        R {o32 leave}, {mov ebp, there-3}
        mov ebp, 0
        WR {pop dword [ss:there]}, {mov sp, 6100h}
        WR {push word [cell]}, {mov sp, there+2}
        R {push word [ss:there]}, {mov sp, 6100h}
        ; near calls by memory and register, and 32-bit frames
        mov word [cell], .a
        call fresh
        mov sp, there+2
        call [cell]
.a:     mov sp, 0100h
        call result
        IS ax, 0101h
        mov bx, .b
        call fresh
        mov bx, .b
        mov sp, there+1
        call bx
.b:     mov sp, 0100h
        call result
        IS ax, 0101h
        call fresh
        mov sp, there+4
        o32 call dword .c
.c:     mov sp, 0100h
        call result
        IS ax, 0101h
        mov dword [ss:there-3], .d
        call fresh
        mov sp, there-3
        o32 ret 4
.d:     mov sp, 0100h
        call result
        IS ax, (TYPE - 1) * 101h
        call fresh
        mov sp, there+8         ; CS as a doubleword above EIP
        call dword 0207h:.e
.e:     mov sp, 0100h
        call result
        IS ax, 0101h
        call fresh
        mov sp, there+9
        call dword 0207h:.f
.f:     mov sp, 0100h
        call result
        IS ax, 0
        mov dword [ss:there-4], .g
        mov dword [ss:there], 0207h
        call fresh
        mov sp, there-4
        o32 retf
.g:     mov sp, 0100h
        call result
        IS ax, (TYPE - 1) * 101h
        mov dword [ss:there-8], .h
        mov dword [ss:there-4], 0207h
        mov dword [ss:there], 0202h
        call fresh
        mov sp, there-8
        o32 iret
.h:     mov sp, 0100h
        call result
        IS ax, (TYPE - 1) * 101h
        mov dword [cell], .i
        mov word [cell+4], 0207h
        call fresh
        mov sp, there+4
        call dword far [cell]   ; EIP at 6FECh, CS from 6FF0h on
.i:     mov sp, 0100h
        call result
        IS ax, 0101h
        EXIT 0
        times 16 db 0
cell:   dd 0
        dd 7FFFFFFFh
        dd 7FFFFFFFh
        dd 0
        dw 0, 0217h
        times 16 db 0
WATCH_PARTS
PROT_FINISH
