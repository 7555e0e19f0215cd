# Three philosophers on three processors take two forks each, which are semaphores. Each takes the left one first, and all may wait for the
# right one.
        .globl _start
_start: li a0,1
        li a7,10        # new_semaphore 0, 1 and 2, the forks
        ecall
        li a0,1
        ecall
        li a0,1
        ecall
        la a0,begin
        li a1,1
        li a2,1
        li a7,3         # spawn on processor 1
        ecall
        la a0,begin
        li a1,2
        li a2,2
        ecall           # .. on processor 2
        li a0,0
begin:  mv s0,a0        # the left fork
        addi s1,s0,1    # the right fork
        li t0,3
        bne s1,t0,sit
        li s1,0
sit:    li a0,1
        li a1,10
        li a7,7         # attach
        ecall
        li a1,0
think:  mv a0,s0
        li a7,39        # sem_get
        ecall
        mv a0,s1
        ecall
        mv a0,s0
        li a7,41        # sem_put
        ecall
        mv a0,s1
        ecall
        j think
