# Two tasks lock two mutexes in opposite orders; the lock that would never end is refused, and the task stops.
        li a0,0
        li a1,0
        li a7,9         # new_mutex: mutex 0
        ecall
        li a0,0
        ecall           # mutex 1
        la a0,other
        li a2,1
        li a7,3         # spawn on processor 1
        ecall
        li s0,0
        li s1,1
        j both
other:  li s0,1
        li s1,0
both:   li a0,1
        li a1,10
        li a7,7         # attach
        ecall
        mv a0,s0
        li a1,0
        li a7,36        # lock the first
        ecall
        mv a0,s1
        ecall           # lock the second
        bnez a0,bad
        mv a0,s1
        li a7,38        # unlock
        ecall
        mv a0,s0
        ecall
        li a7,0         # exit
        ecall
bad:    ebreak
