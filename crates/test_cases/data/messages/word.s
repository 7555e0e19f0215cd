nop
here: move a0,a1