; ports.asm: where a byte goes after a first command byte alone, and after a register write; what a read gives while the palette is chosen; the low bits of the
; status. The answers: the byte at 1000 and at 1005, the byte at 1000 and at 0805, the palette read, the status.
home:   equ 0
        include 'quiet.asm'
        ld de, 0x1000           ; a first command byte, and then data
        call video
        ld a, 5
        out (command), a
        ld a, 0x77
        out (data), a
        ld hl, answers
        ld de, 0x1000
        call read
        ld de, 0x1005
        call read
        ld de, 0x1000           ; a register, and then data
        call video
        xor a
        out (data), a
        ld de, 0x1000
        call video
        ld a, 5
        ld c, 8
        call register
        ld a, 0x66
        out (data), a
        xor a
        ld c, 8
        call register
        ld de, 0x1000
        call read
        ld de, 0x0805
        call read
        ld de, 0x1000           ; 55 is read ahead, and then the palette is chosen
        call video
        ld a, 0x55
        out (data), a
        xor a
        out (command), a
        ld a, 0x10
        out (command), a
        xor a
        out (command), a
        ld a, 0xc0
        out (command), a
        in a, (data)
        ld (hl), a
        inc hl
        in a, (command)
        ld b, 2
        push hl
        call frames
        pop hl
        in a, (command)
        and 0x1f
        ld (hl), a
        ld hl, answers
        ld b, 6
        call show
        xor a
        call on
stay:   jr stay
; read: the byte at DE goes to HL, which goes on.
read:
        ld a, e
        out (command), a
        ld a, d
        out (command), a
        in a, (data)
        ld (hl), a
        inc hl
        ret
setup:  db 0x04, 0x80, 0xff, 0xff, 0xff, 0xff, 0xff, 0, 0, 0, 0xff
        include 'peer.asm'
