; Watchpoints on the frame of exception 1 itself, E0000h + 800h - 8 items at depth 0 (MODEL.md, section 12). The host writes the frame,
; and its trap at 0087h:0322h reads all of it but the return address: neither is an instruction of the client, so neither hits. The
; handler's own instructions do: a write of an item, and its far return, which reads the two items of the return address. Then exception
; 1 comes at depth 1.
;: -DW=16
;= exit exited 0
;: -DW=32
;= exit exited 0
%include "hostile.inc"
%define FRAME (0E0000h + 800h - 8*ITEM)
    enter_protected
    exception 1, handler
    watch linear(cell), 2, 1

    ; One on each item from the error code on, for writing and for reading or writing.
%assign item 2
%rep 6
    watch FRAME + item*ITEM, 2, 1
    watch FRAME + item*ITEM, 2, 2
    %assign item item + 1
%endrep
    check bx, 13
    mov [cell - code], ax
    check word [calls - code], 1
%assign handle 2
%rep 12
    status handle, 0
    %assign handle handle + 1
%endrep

    ; The handler writes the error code, which nobody reads: hits of 2 and 3, and one exception after that instruction.
    mov byte [writes - code], 1
    call again
    check word [calls - code], 2
    check word [where - code], after_write - code
    check word [where_stack - code], 1000h - 8*ITEM
    status 2, 1
    status 3, 1
    status 4, 0
    mov byte [writes - code], 0

    ; A watchpoint on the return address, for reading: the far return hits it, and the next exception comes before the trap.
    watch FRAME, 2, 2
    check bx, 14
    call again
    check word [calls - code], 2
    check word [where - code], 322h
    check word [where_code - code], 87h
    check word [where_stack - code], 1000h - 8*ITEM
    status 14, 1

    ; The same for writing: nothing.
    mov bx, 14
    service 0B01h
    watch FRAME, 2, 1
    check bx, 14
    call again
    check word [calls - code], 1
    status 14, 0
    finish 0

again:
    mov word [calls - code], 0
    mov bx, 1
    service 0B03h
    mov [cell - code], ax
    ret

; At depth 1 it notes its frame.
handler:
    push ax
    push bp
    mov bp, sp
    inc word [calls - code]
    lea ax, [bp+4]
    cmp ax, 800h - 8*ITEM
    je outer
    mov [where_stack - code], ax
    mov ax, [bp+4+3*ITEM]
    mov [where - code], ax
    mov ax, [bp+4+4*ITEM]
    mov [where_code - code], ax
    jmp done
outer:
    cmp byte [writes - code], 0
    je done
    mov [bp+4+2*ITEM], ax
after_write:
    nop
done:
    pop bp
    pop ax
    far_return
cell:
    dw 0
calls:
    dw 0
where:
    dw 0
where_code:
    dw 0
where_stack:
    dw 0
writes:
    db 0
end:
