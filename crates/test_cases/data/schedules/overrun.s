# A timer with a period of one tick: two ticks may pass before the task asks for its expiries.
        li a7,13        # new_timer
        ecall
        li a0,1         # first in first out
        li a1,10
        li a7,7         # attach
        ecall
        li a0,0
        li a1,1         # the first tick
        li a2,1         # the period
        li a7,48        # timer_set
        ecall
        li a0,0
        li a7,49        # timer_wait
        ecall
        li a7,0         # exit
        ecall
