1: nop
