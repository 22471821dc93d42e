; scroll.asm: register 9 becomes 4 while the counter reads `at`, and 0 again after the screen. White lines every eighth row tell which rows have moved.
home:   equ 0
at:     equ 90
        include 'quiet.asm'
        ld de, 32               ; tile 1: its first line alone
        call video
        ld a, 0xff
        out (data), a
        xor a
        ld b, 31
clear:  out (data), a
        djnz clear
        ld de, names
        call video
        ld de, 1
        ld bc, 32 * 28
        call fill
        xor a
        call on
again:
        ld c, at
        call until
        ld a, 4
        ld c, 9
        call register
        ld c, 0xc8
        call until
        xor a
        ld c, 9
        call register
        jr again
setup:  db 0x04, 0x80, 0xff, 0xff, 0xff, 0xff, 0xff, 0, 0, 0, 0xff
        include 'peer.asm'
