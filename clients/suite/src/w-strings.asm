;@ w-strings-write-16 -DW=16 -DTYPE=1
;@ w-strings-write-32 -DW=32 -DTYPE=1
;@ w-strings-access-16 -DW=16 -DTYPE=2
;@ w-strings-access-32 -DW=32 -DTYPE=2
; String instructions, also repeated: one repetition is one step, and the exception comes
; between two of them, with the IP at the prefix. A hit while the status is set makes no exception, so the
; rest of the repetitions runs through.
%include "prot.inc"
%include "watch.inc"
%define WR HIT
%define N MISS
%if TYPE == 2
 %define R HIT
%else
 %define R MISS
%endif
%macro REP 5                    ; instruction, CX, SI, DI, CX at the exception (-1: none)
 %assign checks checks + 1
        mov word [at_cx], -1
        call fresh
        mov cx, %2
        mov si, %3
        mov di, %4
%%i:    %1
%%n:    call result
        mov bx, [at_cx]
%if %5 < 0
        cmp ax, 0
        jne %%bad
        cmp bx, -1
        jne %%bad
%else
        cmp ax, 0101h
        jne %%bad
        cmp bx, %5
        jne %%bad
 %if %5 == 0
        cmp word [where], %%n
 %else
        cmp word [where], %%i
 %endif
        jne %%bad
%endif
        jmp %%good
%%bad:  FAILING
%%good:
%endmacro
ENTER_PROT
        WATCHING
        mov bl, 1               ; a handler before the usual one, which notes CX
        mov cx, cs
        mov edx, notes
        SVC 0203h
        OK '0203h'
        WATCH AT(cell), 1, TYPE
        push ds
        pop es
        cld
        WR {movsb}, {mov si, other}, {mov di, cell}
        R {movsb}, {mov di, other}, {mov si, cell}
        N {movsb}, {mov si, cell+1}, {mov di, cell-1}
        WR {movsw}, {mov si, other}, {mov di, cell-1}
        WR {movsd}, {mov si, other}, {mov di, cell-3}
        N {movsd}, {mov si, other}, {mov di, cell-4}
        WR {stosb}, {mov di, cell}
        WR {stosd}, {mov di, cell-3}
        N {stosd}, {mov di, cell+1}
        R {lodsb}, {mov si, cell}
        R {lodsw}, {mov si, cell-1}
        N {lodsw}, {mov si, cell-2}
        R {scasb}, {mov di, cell}
        N {scasb}, {mov di, cell+1}
        R {cmpsb}, {mov si, cell}, {mov di, other}
        R {cmpsb}, {mov si, other}, {mov di, cell}
        R {cmpsd}, {mov si, other}, {mov di, cell-3}
        N {cmpsw}, {mov si, cell-2}, {mov di, cell+1}
        WR {a32 stosb}, {mov edi, cell}
        WR {stosw}, {mov di, cell}, {std}
        WR {stosw}, {mov di, cell-1}, {std} ; downwards: the element itself isn't moved
        N {stosw}, {mov di, cell+1}, {std}
        ; repeated: the byte is reached at the fourth of ten
        REP {rep stosb}, 10, other, cell-3, 6
        REP {rep movsb}, 10, other, cell-3, 6
        REP {rep stosb}, 1, other, cell, 0
        REP {rep stosb}, 10, other, cell, 9
        REP {rep stosb}, 10, other, cell-9, 0
        REP {rep stosb}, 10, other, cell-10, -1
        REP {rep stosb}, 10, other, cell+1, -1
        REP {rep stosb}, 0, other, cell, -1 ; counter 0: nothing is touched
        REP {rep movsd}, 5, other, cell-11, 2
        REP {rep movsd}, 5, other, cell-8, 2
        REP {repne stosb}, 10, other, cell-3, 6
%if TYPE == 2
        REP {rep movsb}, 10, cell-3, other, 6
        REP {rep lodsb}, 10, cell-3, other, 6
        call clears
        REP {repe cmpsb}, 10, cell-3, other, 6
        REP {repe cmpsb}, 10, other, cell-3, 6
        mov al, 5
        REP {repne scasb}, 10, other, cell-3, 6
%else
        REP {rep movsb}, 10, cell-3, other, -1
        REP {rep lodsb}, 10, cell-3, other, -1
        call clears
        REP {repe cmpsb}, 10, cell-3, other, -1
        REP {repe cmpsb}, 10, other, cell-3, -1
        REP {repne scasb}, 10, other, cell-3, -1
%endif
        REP {rep cmpsb}, 0, cell, cell, -1
        EXIT 0
notes:  push ds
        mov ds, [cs:data]
        mov [at_cx], cx
        pop ds
        jmp exception1
clears: mov al, 0               ; so that the strings are equal
        mov cx, 124
        mov di, cell - 40
        rep stosb
        ret
at_cx:  dw 0
        times 40 db 0
cell:   dd 0
        times 40 db 0
other:  times 40 db 0
WATCH_PARTS
PROT_FINISH
