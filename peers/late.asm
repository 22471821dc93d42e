; late.asm: bit 5 of register 1 is set at line 208, while bit 7 of the status waits. The answer: what the counter reads when the interrupt comes.
home:   equ 0
        include 'head.asm'
handler:
        in a, (line)
        ld (answers), a
        ret
start:
        ld hl, setup
        call begin
        xor a
        call on
        ld b, 2
        call frames
        in a, (command)
        ld c, 0xc8
        call until
        ei
        ld c, 0xd0
        call until
        ld a, 0xe0
        out (command), a
        ld a, 0x81
        out (command), a
        ld b, 40
        djnz $                  ; more than two lines
        di
        ld hl, answers
        ld b, 1
        call show
        xor a
        call on
stay:   jr stay
setup:  db 0x04, 0x80, 0xff, 0xff, 0xff, 0xff, 0xff, 0, 0, 0, 0xff
        include 'peer.asm'
