; sprites.asm: a worm crawls behind the grass, a bird flies the other way, and nine glow-worms stand on one line, of which the chip shows eight.
; The list of sprites is made in memory, and goes to the chip at the screen's end of each frame.
;
; sprites 0 to 8 the glow-worms, 9 and 10 the bird, 11 to 15 the worm, its head first

status: equ 0xc000              ; in memory: the status as the last interrupt found it,
time:   equ 0xc001              ; how many frames have ended,
heights: equ 0xc010             ; the Y bytes of the sprites, and their end,
places: equ 0xc030              ; X and tile of each
sprites: equ 16

        org 0
        di
        im 1
        ld sp, 0xdff0
        jp start

        ds 0x38 - $
        push af
        in a, (command)         ; the status, which ends the interrupt
        ld (status), a
        ld a, (time)
        inc a
        ld (time), a
        pop af
        ei
        reti
        ds 0x66 - $
        retn

start:
        ld hl, setup
        call registers
        xor a                   ; all the colours
        ld b, 64
        ld hl, palette
        call colours
        ld de, 0                ; tiles 0 to 4, of the background
        call video
        ld b, 5
        ld hl, ground
        call tiles
        ld de, 0x2000           ; tiles 0 to 4, of the sprites
        call video
        ld b, 5
        ld hl, animals
        call tiles
        ld de, names
        call video
        ld de, 0x0000           ; 16 lines of sky
        ld bc, 32 * 16
        call fill
        ld de, 0x1001           ; a line of grass, with priority
        ld bc, 32
        call fill
        ld de, 0x1002           ; a line of earth with priority,
        ld bc, 32
        call fill
        ld de, 0x0003           ; and ten without
        ld bc, 32 * 10
        call fill
        ld hl, moon             ; four names of one tile: as it is, turned across, down, and both
        ld de, names + 2 * (32 * 5 + 21)
        call video
        call two_names
        ld de, names + 2 * (32 * 6 + 21)
        call video
        call two_names
        xor a
        ld (time), a
        call move
        call send
        ld a, 0xe0              ; the display and the frame interrupt on
        ld c, 1
        call register
        ei
next:
        halt
        call send
        call move
        jr next

; two_names: four bytes from HL on.
two_names:
        ld b, 4
        ld c, data
        otir
        ret

; tiles: B tiles from HL on: the code of the set bits, that of the others, and eight bytes.
tiles:
        push bc
        ld d, (hl)
        inc hl
        ld e, (hl)
        inc hl
        call tile
        pop bc
        djnz tiles
        ret

; send: the list of sprites to the chip.
send:
        ld de, list
        call video
        ld hl, heights
        ld b, sprites + 1
        ld c, data
        otir
        ld de, list + 128
        call video
        ld hl, places
        ld b, 2 * sprites
        otir
        ret

; move: the list of sprites by the time. A place on the screen is 48 further right, and 23 further down, in the list.
move:
        ld ix, heights
        ld iy, places
        ld b, 9                 ; the glow-worms: row 40, columns 8, 24, and so on
        ld d, 48 + 8
move_glow:
        ld a, 23 + 40
        ld e, 4
        call place
        ld a, d
        add a, 16
        ld d, a
        djnz move_glow

        ld a, (time)            ; the bird: to the left, and its wings by every eighth frame
        ld c, a
        ld a, 48 + 120
        sub c
        ld d, a
        ld a, c
        rrca
        rrca
        rrca
        and 1
        add a, 2
        ld e, a
        ld a, 23 + 56
        call place
        ld a, d
        add a, 8
        ld d, a
        ld a, 23 + 56
        call place

        ld a, (time)            ; the worm: to the right, its head first, up and down by the time and the place in it
        ld c, a
        add a, 48 + 40
        ld d, a
        ld e, 1                 ; the head's tile
        ld b, 5
move_worm:
        ld a, c
        rrca
        rrca
        add a, b
        and 7
        ld hl, humps
        add a, l
        ld l, a
        ld a, 0
        adc a, h
        ld h, a
        ld a, (hl)
        add a, 23 + 100
        call place
        ld e, 0                 ; and that of the rest
        ld a, d
        sub 6
        ld d, a
        djnz move_worm
        ld (ix + 0), 0xd0       ; the end of the list
        ret

; place: the next sprite has A as its Y byte, D as X and E as its tile.
place:
        ld (ix + 0), a
        inc ix
        ld (iy + 0), d
        ld (iy + 1), e
        inc iy
        inc iy
        ret

humps:  db 0, 0, 1, 2, 3, 3, 2, 1

;          0     1     2     3     4     5     6     7  8  9  10
setup:  db 0x04, 0x80, 0xff, 0xff, 0xff, 0xff, 0xff, 0, 0, 0, 0xff

; Each colour: red + 16 * green, blue. 0 sky, 1 grass, 2 earth, 3 stones, 4 moon; of the sprites 1 worm, 2 bird, 3 glow-worms.
palette:
        db 0x42, 0x08, 0xa3, 0x03, 0x46, 0x02, 0x68, 0x04, 0xef, 0x0b, 0, 0, 0, 0, 0, 0
        db 0, 0, 0, 0, 0, 0, 0, 0, 0, 0, 0, 0, 0, 0, 0, 0
        db 0, 0, 0x8f, 0x09, 0x01, 0x01, 0xff, 0x04, 0, 0, 0, 0, 0, 0, 0, 0
        db 0, 0, 0, 0, 0, 0, 0, 0, 0, 0, 0, 0, 0, 0, 0, 0

moon:   db 4, 0x00, 4, 0x02, 4, 0x04, 4, 0x06

; Tiles of the background: the code of the set bits, that of the others, and the bits.
ground: db 0, 0                 ; 0: sky
        ds 8
        db 1, 0                 ; 1: grass
        db %00000000
        db %00000100
        db %01000100
        db %01001100
        db %01101101
        db %11101101
        db %11111111
        db %11111111
        db 1, 2                 ; 2: where grass and earth meet
        db %11111111
        db %11101111
        db %11000111
        db %01000101
        db %01000001
        db %00000001
        db %00000000
        db %00000000
        db 3, 2                 ; 3: earth with a stone
        db %00000000
        db %00000000
        db %00011000
        db %00111100
        db %00111100
        db %00000000
        db %00000000
        db %00000000
        db 4, 0                 ; 4: a quarter of the moon
        db %00000111
        db %00011111
        db %00111111
        db %01111111
        db %01111111
        db %11111111
        db %11111111
        db %11111111

animals:
        db 1, 0                 ; 0: a ring of the worm
        db %00111100
        db %01111110
        db %11111111
        db %11111111
        db %11111111
        db %11111111
        db %01111110
        db %00111100
        db 1, 0                 ; 1: its head
        db %00111100
        db %01111110
        db %11110011
        db %11110011
        db %11111111
        db %11111110
        db %01111000
        db %00111100
        db 2, 0                 ; 2: a wing up
        db %11000011
        db %01100110
        db %01111110
        db %00111100
        db %00011000
        db %00000000
        db %00000000
        db %00000000
        db 2, 0                 ; 3: a wing down
        db %00000000
        db %00000000
        db %00011000
        db %00111100
        db %01111110
        db %01100110
        db %11000011
        db %00000000
        db 3, 0                 ; 4: a glow-worm
        db %00000000
        db %00011000
        db %00111100
        db %01111110
        db %01111110
        db %00111100
        db %00011000
        db %00000000

        include 'chip.asm'
        include 'end.asm'
