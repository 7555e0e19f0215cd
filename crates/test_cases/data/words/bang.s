nop !
