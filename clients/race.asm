; A race over ten miles, for two clients in turns. The hare runs fast, but sleeps after six miles; the tortoise walks all the way.
;     nasm -f bin -DHARE race.asm -o hare.exe
;     nasm -f bin race.asm -o tortoise.exe
%include "exe.inc"
%ifdef HARE
    %define NAME 'Hare'
    %define PACE 400            ; turns that a mile takes
    %define SLEEP 12000         ; and the sleep
%else
    %define NAME 'Tortoise'
    %define PACE 1200
%endif
    push cs
    pop ds
    mov si, miles - code
    mov dx, start - code
    call print
mile:
    mov cx, PACE
    loop $
    mov dx, name - code
    call print
    mov dl, [si]
    mov ah, 02h                 ; the next digit
    int 21h
    mov dx, line_end - code
    call print
%ifdef HARE
    cmp byte [si], '6'
    jne awake
    mov dx, sleeps - code
    call print
    mov cx, SLEEP
    loop $
    mov dx, wakes - code
    call print
awake:
%endif
    inc si
    cmp byte [si], '9'
    jbe mile
    mov cx, PACE
    loop $
    mov dx, finish - code
    call print
    mov ax, 4C00h               ; end with 0
    int 21h

; prints the text at DX up to '$'
print:
    mov ah, 09h
    int 21h
    ret

start:
    db NAME, ' starts.', 13, 10, '$'
name:
    db NAME, ' at mile $'
line_end:
    db '.', 13, 10, '$'
sleeps:
    db NAME, ' sleeps.', 13, 10, '$'
wakes:
    db NAME, ' wakes.', 13, 10, '$'
finish:
    db NAME, ' is there.', 13, 10, '$'
miles:
    db '123456789', 0FFh
end:
