# Both lock in one order.
        li a0,0
        li a1,0
        li a7,9         # new_mutex: mutex 0
        ecall
        li a0,0
        ecall           # mutex 1
        la a0,both
        li a2,1
        li a7,3         # spawn on processor 1
        ecall
both:   li s0,0
        li s1,1
        li a0,1
        li a1,10
        li a7,7         # attach
        ecall
        mv a0,s0
        li a1,0
        li a7,36        # lock the first
        ecall
        mv a0,s1
        ecall           # lock the second
        bnez a0,bad
        mv a0,s1
        li a7,38        # unlock
        ecall
        mv a0,s0
        ecall
        li a7,0         # exit
        ecall
bad:    ebreak
