; DOS memory: resizing and the refusals. A refused call changes nothing but AX, BX and carry.
%include "client.inc"
%include "arena.inc"
START
        RESIZE 0064h, 0FFFFh    ; BX = the largest size, here the present one
        RESIZE 0064h, 9F9Dh
        RESIZE 0064h, 9F9Bh     ; one less: an entry of size 0 comes after it
        LIST
        RESIZE 0064h, 9F9Ch
        LIST
        RESIZE 0064h, 800h
        ALLOC 10h
        ALLOC 20h
        ALLOC 30h
        LIST
        RESIZE 0865h, 11h       ; a used block comes after it
        FREE 0876h
        RESIZE 0865h, 32h       ; 10h + 1 + 20h = 31h
        RESIZE 0865h, 18h
        LIST
        RESIZE 0865h, 31h       ; the whole free entry, its header too
        LIST
        RESIZE 0865h, 0
        LIST
        RESIZE 0865h, 2Fh
        LIST
        RESIZE 0897h, 0FFFFh    ; the last block
        RESIZE 0897h, 976Bh
        RESIZE 0897h, 9768h
        LIST
        RESIZE 0897h, 30h
        RESIZE 0061h, 3         ; after the environment comes a used block
        RESIZE 0061h, 1
        RESIZE 0061h, 2
        LIST
        ; no used block starts there: carry, AX = 9
        FREE 0060h
        FREE 0062h
        FREE 0866h
        FREE 0000h
        FREE 0FFFFh
        RESIZE 0063h, 1
        RESIZE 0897h + 31h, 1   ; a free entry
        FREE 0897h + 31h
        FREE 0897h
        FREE 0897h              ; twice
        RESIZE 0897h, 1
        LIST
        FREE 0064h              ; the program's own block: it runs on
        LIST
        ALLOC 0FFFFh
        EXIT 0
ARENA_FINISH
