# Task 0 works in-band, and yields now and then. Task 1 has a class: it waits in-band for line 5, goes out-of-band when
# it wakes, stalls that stage for a while, and goes in-band again by a putc.
        la a0,task
        li a1,0
        li a2,0
        li a7,3         # spawn, on this processor
        ecall
work:   li a7,2         # yield
        ecall
        nop
        j work
task:   li a0,1
        li a1,10
        li a7,7         # attach: first in first out, priority 10
        ecall
        li a0,5
        li a7,6         # wait for line 5
        ecall
        li a7,32        # go out-of-band
        ecall
        li a7,51        # stall the out-of-band stage
        ecall
        nop
        li a0,82
        li a7,1         # putc: the task goes in-band first
        ecall
        li a7,0         # exit
        ecall
