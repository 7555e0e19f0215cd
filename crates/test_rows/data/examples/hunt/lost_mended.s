# The flag is read and written under the mutex.
        li a7,11        # new_event: event 0
        ecall
        li a0,0
        li a1,0
        li a7,9         # new_mutex: mutex 0
        ecall
        la a0,setter
        li a2,1
        li a7,3         # spawn on processor 1
        ecall
        li a0,1
        li a1,20
        li a7,7         # attach
        ecall
        la s0,flag
        li a0,0
        li a1,0
        li a7,36        # lock
        ecall
again:  ld t0,0(s0)
        bnez t0,set
        li a0,0
        li a1,0
        li a2,0
        li a7,42        # event_wait
        ecall
        j again
set:    li a0,0
        li a7,38        # unlock
        ecall
        li a7,0         # exit
        ecall
setter: li a0,1
        li a1,10
        li a7,7
        ecall
        li a0,0
        li a1,0
        li a7,36
        ecall
        la s0,flag
        li t0,1
        sd t0,0(s0)
        li a0,0
        li a7,43        # signal
        ecall
        li a0,0
        li a7,38
        ecall
        li a7,0
        ecall
        .data
flag:   .dword 0
