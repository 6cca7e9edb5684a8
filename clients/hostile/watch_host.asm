; Watchpoints on the host's window, C0000000h to C00DAFFFh. They are made as any others (MODEL.md, section 14: an address is refused
; only past FFFFFFFFh). A client may not touch the window: a read there is exception 0Eh with code 5, a write with code 7, and a fetch
; with code 5. An instruction that raises an exception hits nothing, so exception 1 never comes, and no status is set.
;: -DW=16
;= exit exited 0
;: -DW=32
;= exit exited 0
%include "hostile.inc"
    enter_protected
    exception 1, on_hit
    exception 0Eh, on_fault
    mov cx, 2                   ; two descriptors with base 0 and 4 GB: data in FS, code in [far_code + 4]
    service 0000h
    mov bx, ax
    call all_memory
    mov fs, bx
    add bx, 8
    call all_memory
    mov cx, 80FBh               ; code of 16 bits, its limit in pages
    service 0009h
    mov [far_code + 4 - code], bx
    watch 0C0000000h, 4, 2
    check bx, 1
    watch 0C0000000h, 4, 1
    watch 0C0000000h, 4, 0
    watch 0C00DAFFFh, 1, 2

    mov esi, 0C0000000h
    mov word [next - code], read_one - code
    mov al, [fs:esi]
    finish 101
read_one:
    check word [fault - code], 5
    mov word [next - code], write_one - code
    mov [fs:esi+3], al
    finish 102
write_one:
    check word [fault - code], 7
    mov esi, 0C00DAFFFh         ; its last byte, and one after it
    mov word [next - code], read_last - code
    mov ax, [fs:esi]
    finish 103
read_last:
    check word [fault - code], 5
    mov esi, 0BFFFFFFFh         ; the byte before it, where nothing is, and one of it
    mov word [next - code], read_before - code
    mov ax, [fs:esi]
    finish 104
read_before:
    check word [fault - code], 4
    mov word [next - code], jumped - code
    jmp dword far [far_code - code]
    finish 105
jumped:
    check word [fault - code], 5
    check word [faults - code], 5
    check word [hits - code], 0
    status 1, 0
    status 2, 0
    status 3, 0
    status 4, 0
    finish 0

all_memory:
    mov cx, 0FFFFh
    mov dx, 0FFFFh
    service 0008h
    ret

on_hit:
    inc word [hits - code]
    far_return
on_fault:                       ; notes the error code, and goes on at [next]
    push bp
    push ax
    mov bp, sp
    mov ax, [bp+4+2*ITEM]
    mov [fault - code], ax
    mov ax, [next - code]
    mov [bp+4+3*ITEM], ax
%if W == 32
    mov word [bp+4+3*ITEM+2], 0
%endif
    mov [bp+4+4*ITEM], cs
    inc word [faults - code]
    pop ax
    pop bp
    far_return
far_code:
    dd 0C0000000h
    dw 0
hits:
    dw 0
faults:
    dw 0
fault:
    dw 0
next:
    dw 0
end:
