; Files that the loader refuses, one for each reason. The lines are as in asks.asm.
;: 2 -DSHORT
;= It isn't run: the file has fewer than 28 bytes, the length of an MZ header.
;: 2 -DSIGNATURE=5A4Eh
;= It isn't run: it doesn't begin with MZ.
;: 2 -DLAST=513
;= It isn't run: the header's count of pages is 0, the bytes of its last page are more than 512, or the header is longer than they are.
;: 2 -DRELOCATIONS=100
;= It isn't run: the relocation table passes the end of the file.
;: 2 -DMINIMUM=0A000h
;= It isn't run: the program doesn't fit into DOS memory.
;: 2 -DRELOCATIONS=1 -DTARGET=0FFFFh
;= It isn't run: a relocation lies outside the program's memory.
;: 2 -DENTRY=0FFF0h
;= It isn't run: the first instruction lies outside the program's memory.
%ifndef SIGNATURE
%define SIGNATURE 5A4Dh
%endif
%ifndef LAST
%define LAST 38
%endif
%ifndef RELOCATIONS
%define RELOCATIONS 0
%endif
%ifndef MINIMUM
%define MINIMUM 10h
%endif
%ifndef TARGET
%define TARGET 0
%endif
%ifndef ENTRY
%define ENTRY 0
%endif
    dw SIGNATURE, LAST, 1, RELOCATIONS, 2, MINIMUM, 10h, 0, 100h, 0, ENTRY, 0
%ifndef SHORT
    dw 1Ch, 0, TARGET, 0
    mov ax, 4C00h
    int 21h
    nop
%endif
