; peer.asm: what the cartridges of this folder share. Included behind a cartridge's own code, which has `home: equ 1` for the home machine, else 0.
; Answers are shown as bytes, a bit to a tile: white where it is set, from the screen's upper left corner on, one byte below the other (run.py reads them).

; begin: video memory all zero but tile 1, which is code 1 everywhere, and the end of the list of sprites; colour 1 white, colours 17 and 18 red and blue; the
; registers from HL on, with the display off.
begin:
        call registers
        if home                 ; a recording has no room for all of video memory, which is zero there to begin with
        else
        ld de, 0
        call video
        ld bc, 0x2000
        ld de, 0
        call fill
        endif
        ld de, 32
        call solid
        ld de, 0x2020
        call solid
        call no_sprites
        if home
        ld a, 1
        ld hl, white
        ld b, 1
        call colours
        ld a, 17
        ld hl, red
        ld b, 2
        call colours
        else
        ld a, 2
        ld hl, white
        ld b, 2
        call colours
        ld a, 34
        ld hl, red
        ld b, 4
        call colours
        endif
        ret
        if home
white:  db 0x3f
red:    db 0x03, 0x30
        else
white:  db 0xff, 0x0f
red:    db 0x0f, 0x00, 0x00, 0x0f
        endif

; solid: the tile at DE has code 1 everywhere.
solid:
        call video
        ld b, 8
solid_line:
        ld a, 0xff
        out (data), a
        xor a
        out (data), a
        out (data), a
        out (data), a
        djnz solid_line
        ret

no_sprites:
        ld de, list
        call video
        ld a, 0xd0
        out (data), a
        ret

; on: the display on, with A in the other bits of register 1.
on:
        or 0xc0
        ld c, 1
        jp register

; until: waits until the counter reads C.
until:
        in a, (line)
        cp c
        jr nz, until
        ret

; frames: waits for the ends of B screens.
frames:
        ld c, 0xe0
        call until
        ld c, 0xe8
        call until
        djnz frames
        ret

; show: the B bytes from HL on.
show:
        ld de, names + corner
show_byte:
        push bc
        call video
        ld c, (hl)
        inc hl
        ld b, 8
show_bit:
        xor a
        rlc c
        adc a, 0
        out (data), a           ; tile 0 or 1
        xor a
        out (data), a
        djnz show_bit
        ld a, e                 ; the next row of the map
        add a, 64
        ld e, a
        ld a, d
        adc a, 0
        ld d, a
        pop bc
        djnz show_byte
        ret

        if home
corner: equ 0
        else
corner: equ 2 * (32 * 3 + 6)
        endif
answers: equ 0xc100             ; in memory

        include 'chip.asm'
        include 'end.asm'
