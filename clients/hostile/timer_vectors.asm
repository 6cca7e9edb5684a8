; Vector 08h at the trap bytes of the host. By MODEL.md, section 14, an interrupt of the timer pushes the flags, CS and IP, disables
; virtual interrupts and goes to the vector; the work of the trap is the next turn, with the registers and the stack as they are
; (section 14, `work`). It comes in a loop with AX = EAX, BX and DX as below. -DREAL=V: real vector 08h is F000h:V. -DOWN=V: protected
; vector 08h is 0087h:V. SP is 100h before it: 00FAh in a frame of real mode or of a client of 16 bits.
;
; -- Real mode. Default vectors: 00h, 06h and 07h end the run as that exception, 20h as exited 0; 21h and 2Fh serve a call; all others
; do nothing. The frame is popped, so virtual interrupts are enabled again, and it comes once more in each 200 rounds.
;: -DREAL=000h --timer 200
;= exit fault 00 code=00000000
;: -DREAL=006h --timer 200
;= exit fault 06 code=00000000
;: -DREAL=007h --timer 200
;= exit fault 07 code=00000000
;: -DREAL=020h --timer 200
;= exit exited 0
;: -DREAL=021h -DAX_THEN=0200h -DDX_THEN=2Bh --timer 200 --bound 1000       five calls that print +; the fifth is asked for in round 1000
;= console 4
;= ++++
;= exit bound
;: -DREAL=021h -DAX_THEN=4C05h --timer 200
;= exit exited 5
;: -DREAL=021h -DAX_THEN=0700h --timer 200                                    a key, and there is none
;= exit nokeys
;: -DREAL=02Fh -DAX_THEN=1687h --timer 200                                    the entry's address in ES:DI
;= int2f 1687
;= exit exited 9
;= regs .. edi=00000100 .. es=f000 ..
;: -DREAL=001h --timer 200
;= exit exited 9
;= mode real
;= regs .. esp=000000fa ..
;: -DREAL=0FFh --timer 200
;= exit exited 9
; The entry pops IP and CS, and the flags stay: the loop goes on in protected mode, as a client of the width in AX, and nothing comes
; any more, since virtual interrupts are disabled.
;: -DREAL=100h -DAX_THEN=0 --timer 200
;= entry 16
;= exit exited 9
;= mode protected
;= depth 0
;: -DREAL=100h -DAX_THEN=1 --timer 200
;= entry 32
;= exit exited 9
;= mode protected
; A switch without an entry before it, the returns of a call, and a callback that is free lead nowhere. The state call pops IP and CS as
; the entry.
;: -DREAL=101h --timer 200
;= exit stray
;: -DREAL=102h --timer 200
;= exit exited 9
;= mode real
;: -DREAL=103h --timer 200
;= exit stray
;: -DREAL=110h-11Fh --timer 200
;= exit stray
; The bytes between are F4h, HLT: exception 0Dh, which ends a run of real mode. So are the traps of protected mode.
;: -DREAL=104h --timer 200
;= exit fault 0d code=00000000
;: -DREAL=10Fh --timer 200
;= exit fault 0d code=00000000
;: -DREAL=120h --timer 200
;= exit fault 0d code=00000000
;: -DREAL=231h --timer 200
;= exit fault 0d code=00000000
;: -DREAL=322h --timer 200
;= exit fault 0d code=00000000
;
; -- Real vectors of a client in protected mode, whose own vector is the default: it is reflected, and the trap runs in real mode, at
; depth 1.
;: -DREAL=001h -DPROTECTED --timer 200
;= enter 0 reflect 08 ..
;= leave 0 reflect 08 ..
;= exit exited 9
;= depth 0
;: -DREAL=006h -DPROTECTED --timer 200
;= enter 0 reflect 08 ..
;= exit fault 06 code=00000000
;= depth 1
;: -DREAL=020h -DPROTECTED --timer 200
;= exit exited 0
;= depth 1
; The entry for the second time: carry, and real mode goes on at the address that it pops, the return trap of the reflection.
;: -DREAL=100h -DPROTECTED --timer 200
;= enter 0 reflect 08 ..
;= entry refused
;= leave 0 reflect 08 ..
;= exit exited 9
;= depth 0
; The return trap at once, with the frame still there: the reflection's return needs nothing of it.
;: -DREAL=103h -DPROTECTED --timer 200
;= enter 0 reflect 08 ..
;= leave 0 reflect 08 ..
;= exit exited 9
; A switch with the loop's registers: AX = 0 is no selector that SS takes.
;: -DREAL=101h -DPROTECTED -DAX_THEN=0 --timer 200
;= enter 0 reflect 08 ..
;= exit badswitch
;: -DREAL=110h -DPROTECTED --timer 200
;= enter 0 reflect 08 ..
;= exit stray
;
; -- Own vectors. The default one is the only one that is reflected at once. At another default vector the frame is popped, and then the
; interrupt of that number is served; popping leaves virtual interrupts disabled, so it comes once.
;: -DOWN=208h --timer 200
;= enter 0 reflect 08 ..
;= exit exited 9
;: -DOWN=209h --timer 200
;= enter 0 reflect 09 ..
;= leave 0 reflect 09 ..
;= exit exited 9
;: -DOWN=221h -DAX_THEN=4C06h --timer 200
;= exit exited 6
;= depth 0
;- enter ..
;: -DOWN=221h -DAX_THEN=0200h -DDX_THEN=2Bh --timer 200
;= console 1
;= +
;= enter 0 reflect 21 ..
;= exit exited 9
;: -DOWN=220h --timer 200                                                     INT 20h is reflected, and ends the run there
;= enter 0 reflect 20 ..
;= exit exited 0
;= depth 1
; The interrupts 00h, 06h and 07h are reflected too, and end the run at their real vectors as those exceptions.
;: -DOWN=200h --timer 200
;= enter 0 reflect 00 ..
;= exit fault 00 code=00000000
;= mode real
;= depth 1
;: -DOWN=206h --timer 200
;= enter 0 reflect 06 ..
;= exit fault 06 code=00000000
;= mode real
;= depth 1
;: -DOWN=207h --timer 200
;= enter 0 reflect 07 ..
;= exit fault 07 code=00000000
;= mode real
;= depth 1
;: -DOWN=22Fh -DAX_THEN=1686h --timer 200                                     AX = 0: the client is in protected mode
;= int2f 1686
;= exit exited 9
;: -DOWN=231h -DAX_THEN=0400h --timer 200                                     a function that the client never asked for
;= int31 0400 ok
;= exit exited 9
;: -DOWN=231h -DAX_THEN=0B00h -DBX_THEN=0 -DDX_THEN=0101h --timer 200         one that watch_run serves: BX = 1
;= int31 0b00 ok
;= exit exited 9
;= regs .. ebx=00000001 ..
;: -DOWN=231h -DAX_THEN=1234h --timer 200
;= int31 1234 carry
;= exit exited 9
; The default exception handlers, the returns and the switch ask for records that aren't there; the switch to real mode takes any
; registers: DS, ES and CS are AX, CX and SI, so that CS:IP is 0:0. The vectors' bytes are additions up to F0h 06h, LOCK PUSH ES:
; exception 6.
;: -DOWN=300h-31Fh --timer 200
;= exit stray
;: -DOWN=322h --timer 200
;= exit stray
;: -DOWN=323h --timer 200
;= exit stray
;: -DOWN=320h --timer 200
;= switch real
;= exit fault 06 code=00000000
;= depth 0
; The state call pops IP and CS, and the flags stay.
;: -DOWN=321h --timer 200
;= exit exited 9
;= depth 0
;= regs .. esp=000000f8 ..
; HLT, from the host's code segment.
;: -DOWN=324h --timer 200
;= enter 0 exc 0d ..
;= exit fault 0d code=00000000
;: -DOWN=100h --timer 200
;= exit fault 0d code=00000000
; In the handler of an exception there is a record: 0Dh with code 4, by a load of selector 4. A default exception handler ends the run
; as that one.
;: -DOWN=300h -DIN_HANDLER --timer 200
;= enter 0 exc 0d ..
;= exit fault 0d code=00000004
;= depth 1
; The return of the exception pops six items, the first three of which are IP, CS and the flags of the interrupt: CS would be the flags,
; 0246h, and no descriptor has that selector.
;: -DOWN=322h -DIN_HANDLER --timer 200
;= exit badframe
;= depth 1
;: -DOWN=323h -DIN_HANDLER --timer 200
;= exit stray
;= depth 1
%include "hostile.inc"
%ifndef AX_THEN
    %define AX_THEN 0
%endif
%ifndef BX_THEN
    %define BX_THEN 0
%endif
%ifndef DX_THEN
    %define DX_THEN 0
%endif
%ifdef REAL
    mov ax, 0F000h
    mov ds, ax
    mov dx, REAL
    mov ax, 2508h
    int 21h
%endif
%ifdef OWN
    %define PROTECTED
%endif
%ifdef PROTECTED
    enter_protected
%endif
%ifdef OWN
    mov bl, 8
    mov cx, 87h
    mov dx, OWN
    service 0205h
%endif
%ifdef IN_HANDLER
    exception 0Dh, handler
    mov ax, 4
    mov es, ax
handler:
    sti
%endif
    xor esi, esi
    xor edi, edi
    mov cx, 2000
    mov bx, BX_THEN
    mov dx, DX_THEN
    mov eax, AX_THEN
    loop $
    mov ax, 4C09h
    int 21h
end:
