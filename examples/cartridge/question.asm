; question.asm: the author's question as a cartridge. It looks at the line counter all the time, and when that reads 90 it makes colour 3 blue; at the
; screen's end, c1, it makes it red again. Which rows are blue? (Row 66 is red, row 67 blue: README.md of the project.)
; No interrupts. Every eighth row of the screen is ruled in grey.

change: equ 90

        org 0
        di
        im 1
        ld sp, 0xdff0
        jp start
        ds 0x38 - $
        ei
        reti
        ds 0x66 - $
        retn

start:
        ld hl, setup
        call registers
        ld a, 2 * 2             ; colours 2 and 3
        ld b, 4
        ld hl, grey
        call colours
        ld de, 32               ; tile 1
        call video
        ld hl, ruled
        ld de, 0x0203           ; set bits colour 2, the others colour 3
        call tile
        ld de, names
        call video
        ld de, 1
        ld bc, 32 * 28
        call fill
        ld de, list             ; no sprites
        call video
        ld a, 0xd0
        out (data), a
        ld a, 0xc0              ; the display on
        ld c, 1
        call register

wait_split:
        in a, (line)
        cp change
        jr nz, wait_split
        ld hl, blue
        call colour_3
wait_end:
        in a, (line)
        cp 0xc1
        jr nz, wait_end
        ld hl, red
        call colour_3
        jr wait_split

; colour_3: colour 3 becomes that of the two bytes at HL.
colour_3:
        ld a, 2 * 3
        ld b, 2
        jp colours

;          0     1     2     3     4     5     6     7  8  9  10
setup:  db 0x04, 0x80, 0xff, 0xff, 0xff, 0xff, 0xfb, 0, 0, 0, 0xff
grey:   db 0x66, 0x06
red:    db 0x0f, 0x00
blue:   db 0x00, 0x0f
ruled:  db 0xff, 0, 0, 0, 0, 0, 0, 0

        include 'chip.asm'
        include 'end.asm'
