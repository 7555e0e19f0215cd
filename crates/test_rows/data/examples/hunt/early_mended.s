# A semaphore keeps the put.
        li a0,0
        li a7,10        # new_semaphore: semaphore 0
        ecall
        la a0,waker
        li a2,1
        li a7,3         # spawn on processor 1
        ecall
        li a0,1
        li a1,20
        li a7,7         # attach
        ecall
        li a0,0
        li a1,0
        li a7,39        # sem_get
        ecall
        li a7,0         # exit
        ecall
waker:  li a0,1
        li a1,10
        li a7,7
        ecall
        li a0,0
        li a7,41        # sem_put
        ecall
        li a7,0
        ecall
