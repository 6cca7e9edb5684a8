; Finds who overwrites a byte. A record has eight letters of a name, and a grade after them. Four names are stored in it, and one of them
; overwrites the grade: a watchpoint on that byte says where. Ends with the number of times that it was overwritten.
;     nasm -f bin watch.asm -o watch.exe
%include "exe.inc"
%macro say 1                    ; prints a text
    mov si, %1 - code
    call print
%endmacro
    push cs
    pop ds
    mov ax, 1687h               ; ES:DI = the entry to protected mode
    int 2Fh
    push es
    push di
    mov bp, sp
    xor ax, ax                  ; a client of 16 bits
    call far [bp]
    mov [data - code], ds
    mov ax, 0203h               ; the handler of exception BL is CX:DX
    mov bl, 1
    mov cx, cs
    mov dx, handler - code
    int 31h

    mov ax, 0006h               ; CX:DX = the base of BX
    mov bx, ds
    int 31h
    add dx, grade - code
    adc cx, 0
    mov [address + 2 - code], cx
    mov [address - code], dx
    mov bx, cx                  ; the linear address BX:CX
    mov cx, dx
    mov dx, 0101h               ; one byte, for writing
    mov ax, 0B00h
    int 31h                     ; BX = the watchpoint
    mov [watchpoint - code], bx
    say grade_at
    mov dx, [address + 2 - code]
    call print_word
    mov dx, [address - code]
    call print_word
    say is_watched

    mov bx, names - code
next_name:
    say storing
    mov si, bx
    call print
    say line_end
    mov si, bx
    call store_name
    mov bx, si                  ; after its 0
    cmp byte [bx], 0
    jne next_name

    say name_is
    say record
    say grade_is
    mov dl, [grade - code]
    mov ah, 02h                 ; print DL
    int 21h
    say full_stop
    mov al, [found - code]
    mov ah, 4Ch                 ; end with their number
    int 21h

; Copies the name at SI to the record, with the 0 after it: nine bytes where it has eight letters.
store_name:
    mov di, record - code
letter:
    lodsb
    mov [di], al
    inc di
    test al, al
    jnz letter
    ret

; On the handler's stack: the address to return to, the error code, then IP, CS, flags, SP and SS of the client. IP is that of the
; instruction after the one that wrote. The client goes on with the registers that the handler leaves.
handler:
    push ds
    pusha
    cld
    mov bp, sp                  ; these take 18 bytes
    mov ds, [cs:data - code]
    mov ax, 0B02h               ; AX = 1 if it was this watchpoint
    mov bx, [watchpoint - code]
    int 31h
    test ax, ax
    jz done
    inc byte [found - code]
    say written_before
    mov dx, [bp+18+8]
    call print_word
    mov dl, ':'
    mov ah, 02h
    int 21h
    mov dx, [bp+18+6]
    call print_word
    say in_routine
    mov bx, [bp+18+6]
    call print_routine
    say byte_now
    mov dl, [grade - code]
    call print_byte
    mov byte [grade - code], 'B' ; a hit too, but raises nothing: the watchpoint wasn't reset yet
    say byte_again
    mov ax, 0B03h               ; reset it
    mov bx, [watchpoint - code]
    int 31h
done:
    popa
    pop ds
    retf

; prints the name of the last routine that begins at BX or before
print_routine:
    mov si, routines - code
next_routine:
    mov di, si
    add si, 4
    cmp [si], bx
    jbe next_routine
    mov si, [di + 2]

; prints the text at SI up to its 0
print:
    lodsb
    test al, al
    jz printed
    mov dl, al
    mov ah, 02h
    int 21h
    jmp print
printed:
    ret

; print DX, DL, or the low four bits of DL in hexadecimal
print_word:
    xchg dl, dh
    call print_byte
    mov dl, dh
print_byte:
    push dx
    shr dl, 4
    call print_digit
    pop dx
print_digit:
    and dl, 0Fh
    add dl, '0'
    cmp dl, '9'
    jbe decimal
    add dl, 'A' - '9' - 1
decimal:
    mov ah, 02h
    int 21h
    ret

; where each routine begins, and its name
routines:
    dw 0, name_of_main - code
    dw store_name - code, name_of_store_name - code
    dw handler - code, name_of_handler - code
    dw 0FFFFh
name_of_main:
    db 'the main program', 0
name_of_store_name:
    db 'store_name', 0
name_of_handler:
    db 'the handler', 0

grade_at:
    db 'The grade is B, at linear address ', 0
is_watched:
    db 'h. It is watched.', 13, 10, 0
storing:
    db 'Store ', 0
line_end:
    db 13, 10, 0
written_before:
    db '  Overwritten before ', 0
in_routine:
    db ', in ', 0
byte_now:
    db ': the grade is ', 0
byte_again:
    db 'h. Make it B again.', 13, 10, 0
name_is:
    db 'The name is ', 0
grade_is:
    db ', the grade ', 0
full_stop:
    db '.', 13, 10, 0
names:
    db 'Ada', 0, 'Edsger', 0, 'Penelope', 0, 'Grace', 0, 0

record:
    times 8 db ' '
grade:
    db 'B'
found:
    db 0
watchpoint:
    dw 0
data:
    dw 0
address:
    dd 0
end:
