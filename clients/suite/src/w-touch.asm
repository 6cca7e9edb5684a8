;@ w-touch-write-16 -DW=16 -DTYPE=1
;@ w-touch-write-32 -DW=32 -DTYPE=1
;@ w-touch-access-16 -DW=16 -DTYPE=2
;@ w-touch-access-32 -DW=32 -DTYPE=2
; Which instructions touch a byte: type 1 is hit where a byte of a write lies in the range, type 2 where a byte
; of a read or a write does. A watchpoint on one byte; R: the instruction reads it, WR: it writes it, N: it
; does neither.
%include "prot.inc"
%include "watch.inc"
%define WR HIT
%define N MISS
%if TYPE == 2
 %define R HIT
%else
 %define R MISS
%endif
ENTER_PROT
        WATCHING
        WATCH AT(cell), 1, TYPE
        push ds
        pop es
        WR {mov [cell], al}
        WR {mov [cell], ax}
        WR {mov [cell], eax}
        WR {mov [cell-1], ax}   ; a word that crosses into the range
        WR {mov [cell-3], eax}
        N {mov [cell-1], al}
        N {mov [cell-2], ax}
        N {mov [cell-4], eax}
        N {mov [cell+1], eax}
        R {mov al, [cell]}
        R {mov ax, [cell-1]}
        R {mov eax, [cell-3]}
        N {mov al, [cell+1]}
        N {mov eax, [cell-4]}
        N {mov eax, [cell+1]}
        N {lea ax, [cell]}
        N {nop}
        N {mov ax, cell}
        WR {mov byte [cell], 5}
        WR {mov dword [cell-2], 5}
        R {mov al, [bx]}, {mov bx, cell}
        R {mov al, [es:bp+si]}, {mov bp, cell - 7}, {mov si, 7}
        WR {a32 mov [ebx+esi*4], al}, {mov ebx, cell - 40}, {mov esi, 10}
        ; an operand that is read and written
        WR {add [cell], al}
        WR {inc word [cell]}
        WR {dec byte [cell]}
        WR {not byte [cell]}
        WR {neg dword [cell-3]}
        WR {xchg [cell], al}
        WR {lock or byte [cell], 1}
        WR {shl byte [cell], 1}
        WR {ror dword [cell-2], 3}
        WR {and byte [cell], 0FFh} ; also where nothing changes
        WR {sbb [cell], ax}
        WR {bts word [cell], 3}
        WR {btr word [cell], 3}
        WR {btc dword [cell], 9}
        WR {shld [cell], ax, 4}
        WR {shrd [cell-1], ax, 4}
        WR {setc [cell]}
        WR {mov [cell], ds}
        WR {pop word [cell]}
        mov word [cell], 0004h
        WR {arpl [cell], ax}, {mov ax, 3}
        ; an operand that is read
        R {cmp [cell], al}
        R {cmp al, [cell]}
        R {test [cell], al}
        R {add al, [cell]}
        R {bt word [cell], 3}
        R {bt [cell-2], ax}, {mov ax, 16} ; the word two bytes above
        N {bt [cell], ax}, {mov ax, 16}
        N {bt [cell], ax}, {mov ax, -1}
        R {bt [cell+2], ax}, {mov ax, -1}
        R {bsf ax, [cell]}
        R {movzx eax, byte [cell]}
        R {movsx eax, word [cell-1]}
        R {mul byte [cell]}
        R {imul ax, [cell]}
        R {imul ax, [cell], 3}
        mov word [cell], 0007h
        R {div word [cell]}, {mov ax, 0}, {mov dx, 0}
        R {idiv byte [cell]}, {mov ax, 0}
        R {push word [cell]}
        R {mov ax, [cs:cell]}
        mov [cell+2], ds
        R {les bx, [cell]}
        R {lds bx, [cell]}
        mov dword [cell-4], 0
        N {les bx, [cell-4]}
        push ds
        pop es
        mov [cell], ds
        R {mov es, [cell]}
        R {les ebx, [cell-4]}   ; six bytes
        R {lfs bx, [cell-2]}
        R {verr [cell]}
        R {verw [cell]}
        R {lar eax, [cell]}
        R {lsl eax, [cell]}
        mov dword [cell-2], 7FFF0004h
        R {bound ax, [cell-2]}, {mov ax, 4}
        mov dword [cell], 7FFF0004h
        R {bound ax, [cell]}, {mov ax, 4}
        N {bound ax, [cell+4]}, {mov ax, 4}
        R {xlatb}, {mov bx, cell - 7}, {mov al, 7}
        N {xlatb}, {mov bx, cell - 7}, {mov al, 6}
        N {in al, dx}
        N {out dx, al}
        mov word [cell], .jumped
        call fresh
        jmp [cell]
.jumped: call result
        IS ax, (TYPE - 1) * 101h
        mov word [cell], .called
        call fresh
        call [cell]
.called: add sp, 2
        call result
        IS ax, (TYPE - 1) * 101h
        mov word [cell], .far
        mov [cell+2], cs
        call fresh
        jmp far [cell]
.far:   call result
        IS ax, (TYPE - 1) * 101h
        EXIT 0
        times 16 db 0
cell:   dd 0
        dd 7FFF0004h
        times 16 db 0
WATCH_PARTS
PROT_FINISH
