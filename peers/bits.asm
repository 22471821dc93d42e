; bits.asm: a white screen with a black line every eighth row and, with `dots` at 7f, every eighth column, and a red sprite at `top` and `across`; registers as
; they are named here, 18 by its hexadecimal number. With `away` at 1 the display is off from line 90 on, until after the screen.
home:   equ 0
reg_0:  equ 0x04
reg_1:  equ 0
reg_8:  equ 0
reg_9:  equ 0
reg_18: equ 0
away:   equ 0
dots:   equ 0x7f
top:    equ 100
across: equ 100
        include 'quiet.asm'
        ld de, 32               ; tile 1: all but its first line and its first column
        call video
        ld b, 4
        xor a
blank:  out (data), a
        djnz blank
        ld b, 7
rest:   ld a, dots
        out (data), a
        xor a
        out (data), a
        out (data), a
        out (data), a
        djnz rest
        ld de, names
        call video
        ld de, 1
        ld bc, 32 * 28
        call fill
        ld de, list
        call video
        ld a, top
        out (data), a
        ld a, 0xd0
        out (data), a
        ld de, list + 128
        call video
        ld a, across
        out (data), a
        ld a, 1
        out (data), a
        if reg_18
        ld a, reg_18
        out (command), a
        ld a, 0x98
        out (command), a
        endif
        ld a, reg_1
        call on
again:
        if away
        ld c, 90
        call until
        ld a, 0x80
        ld c, 1
        call register
        ld c, 0xc8
        call until
        xor a
        call on
        endif
        jr again
setup:  db reg_0, 0x80, 0xff, 0xff, 0xff, 0xff, 0xff, 2, reg_8, reg_9, 0xff
        include 'peer.asm'
