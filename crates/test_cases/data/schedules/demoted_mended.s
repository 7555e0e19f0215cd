# The task goes in-band by a call for that, and then puts a byte.
        li a0,1         # first in first out
        li a1,10
        li a7,7         # attach
        ecall
        li a7,32        # switch_oob
        ecall
        li a7,33        # switch_in_band
        ecall
        li a0,104
        li a7,1         # putc
        ecall
        li a7,0         # exit
        ecall
