c.nop
