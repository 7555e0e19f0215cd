# A task waits for an event that may have been signalled before.
        li a7,11        # new_event: event 0
        ecall
        li a0,0
        li a1,0
        li a7,9         # new_mutex: mutex 0
        ecall
        la a0,waker
        li a2,1
        li a7,3         # spawn on processor 1
        ecall
        li a0,1
        li a1,20
        li a7,7         # attach
        ecall
        li a0,0
        li a1,0
        li a7,36        # lock
        ecall
        li a0,0
        li a1,0
        li a2,0
        li a7,42        # event_wait
        ecall
        li a0,0
        li a7,38        # unlock
        ecall
        li a7,0         # exit
        ecall
waker:  li a0,1
        li a1,10
        li a7,7
        ecall
        li a0,0
        li a7,43        # signal
        ecall
        li a7,0
        ecall
