; home.asm: a cartridge for the home machine (docs/HOME.md): hills that go by, a column a frame, under a bar that stands; the left edge, where new columns come
; in, is filled. From row `ground` on, by line interrupt, colour 0 is another. A ball rolls to the left, three columns a frame, and goes under the fill.
; What is of this machine alone: one byte a colour, bits 5 and 6 of register 0, register 7, and 256 x 192 pixels, with row y at line y.

ground: equ 120                 ; the first row with the other colour, 16 to 191
scroll: equ 0xc000              ; in memory: how far the hills have gone
ball:   equ 0xc001              ; and the ball's X

        org 0
        di
        im 1
        ld sp, 0xdff0
        jp start

        ds 0x38 - $             ; here the processor goes on an interrupt
        push af
        in a, (command)         ; the status, which ends the interrupt
        rlca
        jr c, screen_end        ; bit 7: the screen's end
        xor a                   ; else it is the line interrupt: colour 0, at palette address 0
        out (command), a
        ld a, 0xc0
        out (command), a
        ld a, below
        out (data), a
        pop af
        ei
        reti
        ds 0x66 - $             ; and here when pause is pressed
        retn

screen_end:                     ; colour 0 is the sky's again; all goes on by its columns
        push bc
        push de
        push hl
        ld hl, sky
        xor a
        ld b, 1
        call colours
        ld hl, scroll
        inc (hl)
        ld a, (hl)
        ld c, 8
        call register
        ld hl, ball
        dec (hl)
        dec (hl)
        dec (hl)
        ld de, list + 128
        call video
        ld a, (hl)
        out (data), a
        pop hl
        pop de
        pop bc
        pop af
        ei
        reti

start:
        xor a
        ld (scroll), a
        ld a, 120
        ld (ball), a
        ld hl, setup
        call registers
        xor a                   ; colours 0 to 4
        ld b, 5
        ld hl, sky
        call colours
        ld a, 16                ; and 16 to 18: the fill, and the ball
        ld b, 3
        ld hl, fills
        call colours
        ld de, 0                ; tiles 0 to 3: nothing, hill, bar, a mark of the bar
        call video
        ld hl, shapes
        ld de, 0x0100
        call tile
        ld de, 0x0102           ; hill: set bits colour 1, the others colour 2
        call tile
        ld de, 0x0403
        call tile
        ld de, 0x0403
        call tile
        ld de, 32 * 256         ; the tile of sprite 0
        call video
        ld de, 0x0200
        call tile
        ld de, names            ; the bar: two rows, a mark at each fourth tile of the second one
        call video
        ld de, 2
        ld bc, 32
        call fill
        ld b, 8
marks:  push bc
        ld de, 3
        ld bc, 1
        call fill
        ld de, 2
        ld bc, 3
        call fill
        pop bc
        djnz marks
        ld c, 26                ; the hills: in each row four tiles of hill and four of nothing, and each row begins a tile further on
hills:  ld b, 32
hill:   ld a, b
        add a, c
        rrca
        rrca
        and 1
        out (data), a
        xor a
        out (data), a
        djnz hill
        dec c
        jr nz, hills
        ld de, list             ; one sprite
        call video
        ld a, ground - 9
        out (data), a
        ld a, 0xd0
        out (data), a
        ld de, list + 128
        call video
        ld a, (ball)
        out (data), a
        xor a
        out (data), a
        ld a, 0xe0              ; the display and the frame interrupt on
        ld c, 1
        call register
        ei
sleep:
        halt
        jr sleep

;          0     1     2     3     4     5     6     7  8  9  10
setup:  db 0x74, 0x80, 0xff, 0xff, 0xff, 0xff, 0xff, 0, 0, 0, ground
sky:    db 0x38, 0x08, 0x04, 0x10, 0x3f ; colours 0 to 4: a byte each, two bits for red (lowest), green and blue
below:  equ 0x06
fills:  db 0x15, 0x3f, 0x0b
shapes: db 0x00, 0x00, 0x00, 0x00, 0x00, 0x00, 0x00, 0x00
        db 0xff, 0xbb, 0xff, 0xee, 0xff, 0xbb, 0xff, 0xee
        db 0x00, 0x00, 0x00, 0x00, 0x00, 0x00, 0x00, 0x00
        db 0x80, 0x80, 0x80, 0x80, 0x80, 0x80, 0xf0, 0x00
        db 0x3c, 0x7e, 0xff, 0xff, 0xff, 0xff, 0x7e, 0x3c

        include 'chip.asm'
        include 'end.asm'
