; chip.asm: what the cartridges share: the ports of the video chip, and how to speak to it. Included behind a cartridge's own code.

line:    equ 0x7e               ; read: the line counter
data:    equ 0xbe               ; the chosen memory
command: equ 0xbf               ; write: command bytes; read: the status

names:   equ 0x3800             ; where the map of the background stands in video memory, with register 2 at ff
list:    equ 0x3f00             ; where the sprites stand, with register 5 at ff

; registers: registers 0 to 10 become the eleven bytes from HL on.
registers:
        ld c, 0x80
registers_next:
        ld a, (hl)
        inc hl
        out (command), a
        ld a, c
        out (command), a
        inc c
        ld a, c
        cp 0x8b
        jr nz, registers_next
        ret

; register: register C becomes A.
register:
        out (command), a
        ld a, c
        or 0x80
        out (command), a
        ret

; video: the next data bytes go to video memory from DE on.
video:
        ld a, e
        out (command), a
        ld a, d
        or 0x40
        out (command), a
        ret

; colours: the B bytes from HL on, two a colour (on the home machine one), go to the palette from byte A on.
colours:
        out (command), a
        ld a, 0xc0
        out (command), a
        ld c, data
        otir
        ret

; tile: the eight bytes from HL on, a bit for each pixel, become a tile, at the place where data bytes go. Set bits have code D, the others code E.
tile:
        ld b, 8
tile_line:
        push bc
        push de
        ld c, (hl)
        inc hl
        ld b, 4                 ; planes, the lowest bit of the code first
tile_plane:
        xor a
        srl e
        jr nc, tile_set
        ld a, c
        cpl
tile_set:
        srl d
        jr nc, tile_out
        or c
tile_out:
        out (data), a
        djnz tile_plane
        pop de
        pop bc
        djnz tile_line
        ret

; fill: BC times the two bytes E and D, as names of the map.
fill:
        ld a, e
        out (data), a
        ld a, d
        out (data), a
        dec bc
        ld a, b
        or c
        jr nz, fill
        ret
