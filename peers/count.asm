; count.asm: how many line interrupts a frame has, with register 10 at 0. The status bit 7 that a handler finds tells that a frame is over.
home:   equ 0
        include 'head.asm'
handler:
        push af
        push hl
        ld hl, (count)
        inc hl
        ld (count), hl
        in a, (command)
        rlca
        jr nc, same_frame
        ld (answers), hl
        ld hl, 0
        ld (count), hl
same_frame:
        pop hl
        pop af
        ei
        reti
start:
        ld hl, setup
        call begin
        ld hl, 0
        ld (count), hl
        in a, (command)
        ld a, 20                ; some frames, whatever time the handler takes
        ld (turns), a
wait:
        ei
        ld bc, 0x1000
delay:  dec bc
        ld a, b
        or c
        jr nz, delay
        ld hl, turns
        dec (hl)
        jr nz, wait
        di
        ld hl, answers
        ld b, 2
        call show
        xor a
        call on
stay:   jr stay
count:  equ 0xc000
turns:  equ 0xc002
setup:  db 0x14, 0x80, 0xff, 0xff, 0xff, 0xff, 0xff, 0, 0, 0, 0
        include 'peer.asm'
