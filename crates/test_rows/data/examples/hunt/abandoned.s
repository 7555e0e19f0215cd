# Two workers take jobs from a count. One that finds none left exits with the mutex, which passes on to the other if that waits for it.
        li a0,0
        li a1,0
        li a7,9         # new_mutex: mutex 0
        ecall
        la a0,worker
        li a2,1
        li a7,3         # spawn on processor 1
        ecall
worker: li a0,1
        li a1,10
        li a7,7         # attach
        ecall
        la s0,jobs
again:  li a0,0
        li a1,0
        li a7,36        # lock
        ecall
        ld t0,0(s0)
        beqz t0,done
        addi t0,t0,-1
        sd t0,0(s0)
        li a0,0
        li a7,38        # unlock
        ecall
        j again
done:   li a7,0         # exit
        ecall
        .data
jobs:   .dword 1
