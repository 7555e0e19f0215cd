# The mutex is unlocked, and the task is in-band again.
        li a0,0
        li a1,0
        li a7,9         # new_mutex 0
        ecall
        li a0,3
        li a1,0
        li a7,7         # attach: weak
        ecall
        li a0,0
        li a1,0
        li a7,36        # lock
        ecall
        li a0,0
        li a7,38        # unlock
        ecall
        li a7,0         # exit
        ecall
