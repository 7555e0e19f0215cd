# Priority inversion. High (task 0, rank 130) is on processor 0, middle (task 1, rank 120) and low (task 2, rank 110) on
# processor 1. Low owns mutex 0 when middle becomes ready and high locks that mutex. Its kind and its ceiling are in a0
# and a1 at the start.
        li a7,9         # new_mutex: mutex 0
        ecall
        li a0,0         # mutex 1, of inheritance, for which middle waits
        ecall
        la a0,middle
        li a2,1         # on processor 1
        li a7,3         # spawn
        ecall
        la a0,low
        ecall
        li a0,1
        li a1,30
        li a7,7         # attach: first in first out, priority 30
        ecall
        li a0,1
        li a1,0
        li a7,36        # lock mutex 1
        ecall
        li a0,1
        li a7,38        # unlock it: middle is ready
        ecall
        li a0,0
        li a7,36        # lock mutex 0, which low owns
        ecall
        li a0,0
        li a7,38        # unlock it
        ecall
stay:   j stay
middle: li a0,1
        li a1,20
        li a7,7
        ecall
        li a0,1
        li a1,0
        li a7,36        # lock mutex 1
        ecall
        li s0,5         # work of its own
work:   addi s0,s0,-1
        bnez s0,work
        li a7,33        # go in-band
        ecall
        li a7,0         # exit
        ecall
low:    li a0,1
        li a1,10
        li a7,7
        ecall
        li a0,0
        li a1,0
        li a7,36        # lock mutex 0
        ecall
        nop             # work with it
        nop
        nop
        li a0,0
        li a7,38        # unlock it
        ecall
idle:   j idle
