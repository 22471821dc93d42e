; first.asm: a first cartridge, to begin your own with (docs/CARTRIDGE.md): stripes all over the map, a block in each corner of the screen, and another colour
; from row `row` on, by line interrupt. While the start button is down the blocks are white.

row:    equ 100                 ; the first row with the other colour, 0 to 143

        org 0
        di
        im 1
        ld sp, 0xdff0
        jp start

        ds 0x38 - $             ; here the processor goes on an interrupt
        push af
        in a, (command)         ; the status, which ends the interrupt
        rlca
        jr c, screen_end        ; bit 7: the screen's end
        ld a, 2 * 1             ; else it is the line interrupt: colour 1, at palette address 2, all within the line's 228 cycles
        out (command), a
        ld a, 0xc0
        out (command), a
        ld a, below & 0xff
        out (data), a
        ld a, below >> 8
        out (data), a
        pop af
        ei
        reti
        ds 0x66 - $
        retn

screen_end:                     ; colour 1 is the upper one again, for the next frame; and colour 2 goes by the button
        push bc
        push hl
        ld a, 2 * 1
        ld b, 2
        ld hl, above
        call colours
        ld hl, block
        in a, (0)
        rlca
        jr c, up                ; bit 7 of port 0 is 1 while start is up
        ld hl, white
up:     ld a, 2 * 2
        ld b, 2
        call colours
        pop hl
        pop bc
        pop af
        ei
        reti

start:
        ld hl, setup
        call registers
        ld de, 32               ; tile 1: stripes of colours 1 and 0; tile 2: all of it colour 2
        call video
        ld hl, stripes
        ld de, 0x0100           ; set bits have colour 1, the others colour 0
        call tile
        ld hl, solid
        ld de, 0x0200
        call tile
        ld de, names            ; the map: tile 1 everywhere
        call video
        ld de, 1
        ld bc, 32 * 28
        call fill
        ld hl, corners          ; but for the corners of the window that the screen shows of it: columns 6 to 25, rows 3 to 20
        ld b, 4
corner: ld e, (hl)
        inc hl
        ld d, (hl)
        inc hl
        call video
        ld a, 2
        out (data), a
        djnz corner
        ld de, list             ; no sprites
        call video
        ld a, 0xd0
        out (data), a
        include 'sleep.asm'

;          0     1     2     3     4     5     6     7  8  9  10
setup:  db 0x14, 0x80, 0xff, 0xff, 0xff, 0xff, 0xff, 0, 0, 0, row + 24
above:  db 0x0f, 0x00           ; red: a digit each for green and red, then blue
below:  equ 0x0f00              ; blue
block:  db 0xf0, 0x00           ; green
white:  db 0xff, 0x0f
stripes: db 0xff, 0xff, 0xff, 0xff, 0xff, 0xff, 0xff, 0x00
solid:  db 0xff, 0xff, 0xff, 0xff, 0xff, 0xff, 0xff, 0xff
corners: dw names + 2 * (32 * 3 + 6)
        dw names + 2 * (32 * 3 + 25)
        dw names + 2 * (32 * 20 + 6)
        dw names + 2 * (32 * 20 + 25)

        include 'chip.asm'
        include 'end.asm'
