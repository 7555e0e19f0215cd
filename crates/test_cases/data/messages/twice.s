here: nop
there:
here: nop
