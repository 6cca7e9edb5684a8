; Watchpoints on the stack on which the handler of exception 1 runs. That stack is the host's, E0000h to E07FFh at depth 0 (MODEL.md,
; section 12), with eight items of the frame at its end; the handler's first push is the word below them. The handler's own pushes and
; pops are instructions like any others: where one hits and the status was clear, exception 1 comes again at once, at depth 1, on the
; next stack.
;: -DW=16
;= exit exited 0
;: -DW=32
;= exit exited 0
%include "hostile.inc"
%define PUSHED (0E0000h + 800h - 8*ITEM - 2) ; the word that the handler pushes at depth 0
    enter_protected
    exception 1, handler
    watch linear(cell), 2, 1
    watch PUSHED, 1, 2

    ; The store hits the first one. The handler's push hits the second one: a second handler, at depth 1, which returns to the first.
    mov [cell - code], ax
after_store:
    check word [calls - code], 2
    check word [order - code], after_push - code
    check word [stacks - code], 1000h - 8*ITEM - 2
    check word [order + 2 - code], after_store - code
    check word [stacks + 2 - code], 800h - 8*ITEM - 2
    status 1, 1
    status 2, 1

    ; The status of the second one is still set: its next hit raises nothing.
    call again
    check word [calls - code], 1
    status 2, 1

    ; A handler that resets the second one after its push: its push hits, and its pop too. The first handler's note is before its pop.
    mov bx, 2
    service 0B03h
    mov byte [resets - code], 1
    call again
    check word [calls - code], 3
    check word [order - code], after_push - code
    check word [order + 2 - code], after_store_again - code
    check word [order + 4 - code], after_pop - code
    check word [stacks + 4 - code], 1000h - 8*ITEM - 2
    status 2, 0                 ; the third handler reset it
    finish 0

again:
    mov word [calls - code], 0
    mov bx, 1
    service 0B03h
    mov [cell - code], ax
after_store_again:
    ret

; It notes the IP of its frame, and where its first push was.
handler:
    push ax
after_push:
    push bx
    push bp
    cmp byte [resets - code], 0
    je keep
    mov bx, 2
    service 0B03h
keep:
    mov bp, sp
    mov ax, [bp+6+3*ITEM]
    mov bx, [calls - code]
    shl bx, 1
    mov [bx + order - code], ax
    lea ax, [bp+4]
    mov [bx + stacks - code], ax
    inc word [calls - code]
    pop bp
    pop bx
    pop ax
after_pop:
    far_return
cell:
    dw 0
calls:
    dw 0
order:
    times 8 dw 0
stacks:
    times 8 dw 0
resets:
    db 0
end:
