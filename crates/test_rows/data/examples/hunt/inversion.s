# High and low take turns by a semaphore; middle keeps low from running while high waits. All run on processor 0.
        li a0,1
        li a7,10        # new_semaphore 0, of count 1
        ecall
        la a0,high
        li a1,0
        li a2,0
        li a7,3         # spawn
        ecall
        la a0,middle
        ecall
        li a0,1
        li a1,10
        li a7,7         # low is this task: attach
        ecall
        li a0,0
        li a1,0
        li a7,39        # sem_get
        ecall
        li s0,8         # work with what the semaphore guards
low:    addi s0,s0,-1
        bnez s0,low
        li a7,33        # switch_in_band: the others start
        ecall
        li a7,2         # yield
        ecall
        li a0,0
        li a7,41        # sem_put
        ecall
        li a7,0         # exit
        ecall
middle: li a0,1
        li a1,20
        li a7,7
        ecall
        li a7,32        # switch_oob
        ecall
        li s0,60        # work of its own
work:   addi s0,s0,-1
        bnez s0,work
        li a7,0
        ecall
high:   li a0,1
        li a1,30
        li a7,7
        ecall
        li a0,0
        li a1,0
        li a7,39        # sem_get: low has it
        ecall
        li a0,0
        li a7,41
        ecall
        li a7,0
        ecall
