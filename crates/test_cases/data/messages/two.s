nop; nop
