# A weak task locks a mutex, which keeps it out-of-band, and computes without end.
        li a0,0
        li a1,0
        li a7,9         # new_mutex 0
        ecall
        li a0,3
        li a1,0
        li a7,7         # attach: weak
        ecall
        li a0,0
        li a1,0
        li a7,36        # lock
        ecall
stay:   j stay
