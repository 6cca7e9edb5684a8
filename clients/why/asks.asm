; Clients that end in the ways that tools/why explains. How the runs are written is in `run`.
%include "exe.inc"
%ifdef FILE
;: 0 -DFILE
;= It ended itself after 8 steps, with code 2.
;= It called DOS function 3Dh once, which isn't there: it opens a file.
;= There are no files here: a program that needs one can't run.
    mov dx, name
    mov ax, 3D00h
    int 21h
    jnc done
    mov ax, 4C02h
    int 21h
name: db 'DATA.TXT', 0
%elifdef COPROCESSOR
;: 0 -DCOPROCESSOR
;= It ended in exception 07h, the coprocessor, which isn't there, at 0074:00000000 (fninit).
;= That is an instruction of the coprocessor.
;= Perhaps it only looks for a coprocessor. Build it without floating point (gcc: -mno-80387), or take the look out of its start-up.
    fninit
%elifdef NEWER
;: 0 -DNEWER
;= It ended in exception 06h, an invalid opcode, at 0074:00000003 (bswap eax).
;= That is BSWAP, of the 80486.
;= Build it for an 80386 (gcc: -march=i386).
    mov ax, 1
    bswap eax
%elifdef LOOP
;: 0 -DLOOP --bound 50000
;= Its 50,000 steps are used up (--bound).
;= Its last steps were between 0074:00000003 and 00000004: a loop.
;= If it is only long, give a greater --bound. If it waits for a clock or an interrupt, none comes but with --timer.
    mov ax, 1
again:
    inc ax
    jmp again
;: 0 -DLOOP --bound 1
;= Its 1 steps are used up (--bound).
;= If it is only long, give a greater --bound. If it waits for a clock or an interrupt, none comes but with --timer.
;: 0 -DLOOP --bound 5
;= Its 5 steps are used up (--bound).
;= Its last steps were between 0074:00000003 and 00000004: a loop.
;= If it is only long, give a greater --bound. If it waits for a clock or an interrupt, none comes but with --timer.
%elifdef STRAIGHT
;: 0 -DSTRAIGHT --bound 14
;= Its 14 steps are used up (--bound).
;= If it is only long, give a greater --bound. If it waits for a clock or an interrupt, none comes but with --timer.
    mov ah, 30h
    int 21h
    mov ah, 30h
    int 21h
    mov ah, 30h
    int 21h
    mov ah, 30h
    int 21h
    mov ah, 30h
    int 21h
%elifdef OVERWRITES
;: 0 -DOVERWRITES
;= It ended in exception 0Dh, a general protection fault: a limit, a wrong selector, or an instruction that a client may not use, at 0074:00000006 (hlt).
;! 0 -DOVERWRITES
;= It ended in exception 0Dh, a general protection fault: a limit, a wrong selector, or an instruction that a client may not use, at 0074:00000006 (in the file: nop).
    mov byte [cs:place - code], 0F4h
place:
    nop
%elifdef KEY
;: 0 -DKEY
;= It ended as nokeys after 3 steps: a key was asked for, and none was left. It was at 0074:00000002 (int 0x21).
;= Keys are given before the run: --keys 41420d is A, B and Enter; --keys-file NAME takes them from a file.
;: 0 -DKEY --keys 41
;= It ended itself after 6 steps, with code 0.
    mov ah, 8
    int 21h
%elifdef LIMIT
;: 0 -DLIMIT
;= It ended in exception 0Dh, a general protection fault: a limit, a wrong selector, or an instruction that a client may not use, at 0207:0000002A (mov al,[0x10]).
;= INT 31h function 0008h was refused once; first with AX=8021h: invalid value (BX=020Fh, CX=0010h, DX=0000h, SI=0000h, DI=0100h), at step 15.
    mov ax, 1687h
    int 2Fh
    push es
    push di
    mov bp, sp
    xor ax, ax
    call far [bp]
    mov bx, ss
    mov ax, 8
    mov cx, 10h                         ; 100000h is no limit that ends in FFFh
    xor dx, dx
    int 31h
    mov bx, ds
    mov ax, 8
    xor cx, cx
    mov dx, 0Fh
    int 31h
    mov ax, ds
    mov ds, ax
    mov al, [10h]
%else
;: 0
;= It ended itself after 3 steps, with code 0.
%endif
done:
    mov ax, 4C00h
    int 21h
end:
