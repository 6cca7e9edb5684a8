;@ w-exec-16 -DW=16
;@ w-exec-32 -DW=32
; Watchpoints of type 0, executing: the linear address of CS:EIP lies in the range, so it is the first
; byte of an instruction with its prefixes that counts; and an instruction that faults or is a software
; interrupt hits nothing.
%include "prot.inc"
%include "watch.inc"
%macro X 4-5                    ; from where, size, hits (0 or 1), instruction, before
 %assign checks checks + 1
        mov bx, (AT(%%i) + (%1)) >> 16
        mov cx, (AT(%%i) + (%1)) & 0FFFFh
        mov dx, %2              ; type 0
        SVC 0B00h
        mov [handle], bx
        mov byte [skip], %%n - %%i
        call fresh
%if %0 >= 5
        %5
%endif
%%i:    %4
%%n:    mov sp, 0100h
        call result
        mov si, ax
        UNWATCH
        jc %%bad
        cmp si, %3 * 101h
        jne %%bad
%if %3
        cmp word [where], %%n
        jne %%bad
%endif
        jmp %%good
%%bad:  FAILING
%%good:
%endmacro
ENTER_PROT
        WATCHING
        X 0, 1, 1, {nop}
        X 0, 2, 1, {nop}
        X 0, 4, 1, {nop}
        X 1, 1, 0, {mov al, 5}  ; its second byte alone
        X 1, 4, 0, {mov eax, 12345678h}
        X 1, 4, 0, {mov dword [spare], 12345678h}
        X -1, 2, 1, {nop}
        X -1, 1, 0, {nop}, {mov bx, 1234h}
        X -3, 4, 1, {cwd}
        X -4, 4, 0, {nop}, {db 0C7h, 06h, 00h, 0F0h, 00h, 00h}
        X 0, 1, 1, {mov eax, 12345678h} ; the operand prefix
        X 1, 1, 0, {mov eax, 12345678h} ; and the opcode after it
        X 0, 1, 1, {mov ax, [cs:data]}
        X 1, 1, 0, {mov ax, [cs:data]}
        X 0, 1, 1, {lock inc word [spare]}
        X 1, 1, 0, {lock inc word [spare]}
        X 2, 1, 0, {a32 mov eax, [ebx]}, {mov ebx, spare}
        X 0, 1, 1, {push ax}
        X 0, 1, 1, {mov word [spare], 1234h}
        X 0, 1, 1, {into}       ; not taken, it is no software interrupt
        X 0, 1, 1, {in al, dx}
        X 0, 1, 1, {cli}
        X 0, 1, 1, {sti}
        X 0, 1, 1, {rep movsb}, {mov cx, 0}
        X 0, 1, 1, {loop $}, {mov cx, 1}
        ; software interrupts
        X 0, 1, 0, {int3}
        X 0, 1, 0, {int 61h}
        X 0, 2, 0, {int 61h}
        X 0, 1, 0, {int 31h}, {mov ax, 0400h}
        mov bl, 4               ; a handler for INTO
        mov cx, cs
        mov edx, back
        SVC 0205h
        OK '0205h'
        X 0, 1, 0, {into}, {call overflow}
        ; faults; the handlers go on after the instruction
        mov bl, 0Dh
        mov cx, cs
        mov edx, skips
        SVC 0203h
        OK '0203h'
        mov bl, 0
        SVC 0203h
        OK '0203h'
        mov bl, 5
        SVC 0203h
        OK '0203h'
        mov bl, 6
        SVC 0203h
        OK '0203h'
        mov bl, 0Ch
        SVC 0203h
        OK '0203h'
        X 0, 1, 0, {hlt}
        X 0, 1, 0, {div bl}, {mov bl, 0}
        X 0, 1, 0, {ud2}
        X 0, 1, 0, {insb}
        X 0, 1, 0, {a32 mov al, [dword ebx]}, {mov ebx, 10000h}
        X 0, 1, 0, {bound ax, [limits]}, {mov ax, 9}
        X 0, 1, 0, {mov ss, ax}, {mov ax, 0}
        X 0, 1, 0, {lldt ax}
        ; a jump: the IP of the frame is its target
        mov bx, AT(.jump) >> 16
        mov cx, AT(.jump)
        mov dx, 1
        SVC 0B00h
        OK '0B00h'
        mov [handle], bx
        call fresh
.jump:  jmp .target
        EXIT 98
.target: call result
        IS ax, 0101h
        IS word [where], .target
        UNWATCH
        OK '0B01h'
        mov bx, 0
        mov cx, AT(.ret)
        mov dx, 1
        SVC 0B00h
        mov [handle], bx
        call fresh
        push word .after
.ret:   ret
        EXIT 97
.after: call result
        IS ax, 0101h
        IS word [where], .after
        UNWATCH
        ; a repeated instruction: at its first repetition; the IP stays at the prefix
        mov bx, 0
        mov cx, AT(.rep)
        mov dx, 1
        SVC 0B00h
        mov [handle], bx
        push ds
        pop es
        call fresh
        mov cx, 3
        mov si, spare
        mov di, spare + 8
.rep:   rep movsb
        call result
        IS ax, 0101h
        IS word [where], .rep
        IS cx, 0
        UNWATCH
        ; a trap byte is no client instruction
        mov bx, 000Fh
        mov cx, 0231h
        mov dx, 4
        SVC 0B00h
        OK '0B00h of a trap'
        mov [handle], bx
        call fresh
        SVC 0400h
        OK '0400h'
        call result
        IS ax, 0
        UNWATCH
        ; other descriptors for the same bytes: linear addresses count
        mov bx, cs
        SVC 000Ah
        OK '000Ah'
        mov bx, ax
        mov cx, 0
        mov dx, AT(.same)       ; the alias begins at the instruction
        SVC 0007h
        OK '0007h'
        mov cx, 00FBh
        SVC 0009h
        OK '0009h'
        mov [alias+2], bx
        mov bx, 0
        mov cx, AT(.same)
        mov dx, 1
        SVC 0B00h
        OK '0B00h'
        mov [handle], bx
        call fresh
        push word 0             ; (room)
        call far [alias]
        add sp, 2
        call result
        IS ax, 0101h
        IS word [where], 1
        EXIT 0
.same:  nop
        retf
overflow: pop ax                ; sets OF, and calls nothing that clears it
        mov bl, 7Fh
        inc bl
        jmp ax
back:   xiret
skips:  push bp
        push ax
        mov bp, sp
        movzx ax, byte [cs:skip]
        add [bp+4+3*ITEM], ax
        pop ax
        pop bp
        xretf
skip:   db 0
        align 4
limits: dw 1, 2
spare:  times 16 db 0
alias:  dd 0
WATCH_PARTS
PROT_FINISH
