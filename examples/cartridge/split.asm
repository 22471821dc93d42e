; split.asm: a picture in two parts by the line interrupt. With register 10 at 91 the chip asks at line 90 (and at 182, under the picture): there colour 3
; becomes the sea's and the map moves aside, a little further in each frame. At the screen's end the frame interrupt brings back the sky, which stands still.
; The processor itself sleeps. Row 66 is the last of the sky, row 67 the first of the sea.

aside:  equ 0xc000              ; in memory: how far the sea has moved
sea:    equ 0x0941              ; its colour: red 1, green 4, blue 9

        org 0
        di
        im 1
        ld sp, 0xdff0
        jp start

        ds 0x38 - $
        push af
        in a, (command)         ; the status, which ends the interrupt
        rlca
        jr c, screen_end        ; bit 7: the screen's end
        in a, (line)
        cp 128                  ; of its two interrupts the first: which line it is exactly, players do not agree on
        jr nc, leave
        ld a, 2 * 3             ; colour 3, all within the line's 228 cycles
        out (command), a
        ld a, 0xc0
        out (command), a
        ld a, sea & 0xff
        out (data), a
        ld a, sea >> 8
        out (data), a
        ld a, (aside)           ; register 8
        out (command), a
        ld a, 0x88
        out (command), a
        jr leave
        ds 0x66 - $
        retn

screen_end:
        push bc
        push hl
        ld hl, sky
        ld a, 2 * 3
        ld b, 2
        call colours
        xor a
        ld c, 8
        call register
        ld hl, aside
        inc (hl)
        pop hl
        pop bc
leave:
        pop af
        ei
        reti

start:
        ld hl, setup
        call registers
        ld a, 2 * 2             ; colours 2 and 3
        ld b, 4
        ld hl, foam
        call colours
        ld de, 0                ; tiles 0 to 2: nothing but colour 3, half a cloud, waves
        call video
        ld b, 3
        ld hl, clear
drawn:
        push bc
        ld de, 0x0203           ; set bits colour 2, the others colour 3
        call tile
        pop bc
        djnz drawn
        ld de, names            ; eleven lines of sky; the split is in the fourth row of the next one
        call video
        ld de, 0
        ld bc, 32 * 11
        call fill
        ld de, 2
        ld bc, 32 * 17
        call fill
        ld b, 5
        ld hl, clouds
cloud:
        ld e, (hl)
        inc hl
        ld d, (hl)
        inc hl
        push hl
        push bc
        call video
        ld hl, halves
        ld b, 4
        ld c, data
        otir
        pop bc
        pop hl
        djnz cloud
        ld de, list             ; no sprites
        call video
        ld a, 0xd0
        out (data), a
        xor a
        ld (aside), a
        include 'sleep.asm'

;          0     1     2     3     4     5     6     7  8  9  10
setup:  db 0x14, 0x80, 0xff, 0xff, 0xff, 0xff, 0xfb, 0, 0, 0, 91
foam:   db 0xed, 0x0f
sky:    db 0xa6, 0x0e

clear:  ds 8
        db %00000000            ; the left half of a cloud
        db %00000011
        db %00001111
        db %00011111
        db %01111111
        db %11111111
        db %01111111
        db %00000000
        db %00000000            ; waves
        db %00000000
        db %00000000
        db %00000000
        db %00011000
        db %00100100
        db %01000010
        db %10000001

; The map's names of a cloud: tile 1, and turned across. And where the clouds stand; the screen begins at column 6 and line 3 of the map.
halves: db 1, 0, 1, 2
clouds: dw names + 2 * (32 * 4 + 8)
        dw names + 2 * (32 * 7 + 11)
        dw names + 2 * (32 * 5 + 15)
        dw names + 2 * (32 * 8 + 18)
        dw names + 2 * (32 * 4 + 22)

        include 'chip.asm'
        include 'end.asm'
