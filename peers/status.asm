; status.asm: the status after a frame with `many` sprites, solid, in one place: Y byte `y`, X byte 128; with `priority` before them a background of
; priority, and with `shown` at 0 the display off.
home:   equ 0
y:      equ 100
many:   equ 2
priority: equ 0
shown:  equ 1
        include 'quiet.asm'
        if priority
        ld de, names
        call video
        ld de, 0x1001
        ld bc, 32 * 28
        call fill
        endif
        ld de, list
        call video
        ld b, many
        ld a, y
put_y:  out (data), a
        djnz put_y
        ld a, 0xd0
        out (data), a
        ld de, list + 128
        call video
        ld b, many
put_x:  ld a, 128
        out (data), a
        ld a, 1
        out (data), a
        djnz put_x
        ld a, 0x80 + 0x40 * shown
        ld c, 1
        call register
        ld b, 4
        call frames
        in a, (command)
        ld b, 1
        call frames
        in a, (command)
        and 0x60
        ld (answers), a
        call no_sprites
        ld de, names
        call video
        ld de, 0
        ld bc, 32 * 28
        call fill
        ld hl, answers
        ld b, 1
        call show
        xor a
        call on
stay:   jr stay
setup:  db 0x04, 0x80, 0xff, 0xff, 0xff, 0xff, 0xff, 0, 0, 0, 0xff
        include 'peer.asm'
