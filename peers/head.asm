; head.asm: how every cartridge of this folder begins; the interrupt's code is a jump that the cartridge has at `handler`.
        org 0
        di
        im 1
        ld sp, 0xdff0
        jp start
        ds 0x38 - $
        jp handler
        ds 0x66 - $
        retn
