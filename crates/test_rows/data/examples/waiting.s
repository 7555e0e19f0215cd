# Stalls the in-band stage for a while, then waits for line 5 and ends.
        li a7,4         # stall
        ecall
        nop
        nop
        li a7,5         # unstall: what waits in the log is played
        ecall
        li a0,5
        li a7,6         # wait for line 5
        ecall
        li a7,0         # exit
        ecall
