; quiet.asm: how a cartridge of this folder begins that does nothing when it is interrupted; behind it comes what it does, and at `setup` its registers.
        include 'head.asm'
handler:
        ei
        reti
start:
        ld hl, setup
        call begin
