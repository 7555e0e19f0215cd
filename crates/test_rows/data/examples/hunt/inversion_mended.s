# A mutex of inheritance in place of the semaphore: low ranks as high while high waits.
        li a0,0
        li a1,0
        li a7,9         # new_mutex 0, of inheritance
        ecall
        la a0,middle
        li a1,0
        li a2,0
        li a7,3         # spawn
        ecall
        la a0,high
        ecall
        li a0,1
        li a1,10
        li a7,7         # low is this task: attach
        ecall
        li a0,0
        li a1,0
        li a7,36        # lock
        ecall
        li s0,8         # work with what the mutex guards
low:    addi s0,s0,-1
        bnez s0,low
        li a0,0
        li a7,38        # unlock
        ecall
        li a7,0         # exit
        ecall
middle: li a0,1
        li a1,20
        li a7,7
        ecall
        li a7,32        # switch_oob
        ecall
        li s0,60        # work of its own
work:   addi s0,s0,-1
        bnez s0,work
        li a7,0
        ecall
high:   li a0,1
        li a1,30
        li a7,7
        ecall
        li a0,0
        li a1,0
        li a7,36        # lock
        ecall
        li a0,0
        li a7,38
        ecall
        li a7,0
        ecall
