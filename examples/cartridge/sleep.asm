; sleep.asm: the end of a start: the display and the frame interrupt on, and from then on all is done by interrupts.

        ld a, 0xe0
        ld c, 1
        call register
        ei
sleep:
        halt
        jr sleep
