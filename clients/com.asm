; Makes a client of a .COM file: an MZ header before it. CS and SS are the segment of the prefix, 10h paragraphs below the image, and IP is
; 100h, as DOS starts a .COM file. COM is its name:
;     nasm -f bin -DCOM=program.com com.asm -o program.exe
%defstr NAME COM
header:
    db 'MZ'
    dw (end - header) % 512, (end - header + 511) / 512, 0, 2, 1000h, 0FFFFh
    dw -10h, 0FFFEh, 0, 100h, -10h, 1Ch, 0
    times 32 - ($ - header) db 0
    incbin NAME
end:
