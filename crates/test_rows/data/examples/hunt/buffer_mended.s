# A producer and a consumer on two processors share a buffer of two slots. One semaphore counts free slots, the other full ones. The producer
# puts that of the full slots behind its store.
        .globl _start
_start: li a0,2
        li a7,10        # new_semaphore 0, of free slots
        ecall
        li a0,0
        ecall           # new_semaphore 1, of full slots
        la a0,consume
        li a1,0
        li a2,1
        li a7,3         # spawn on processor 1
        ecall
        li a0,1
        li a1,10
        li a7,7         # attach
        ecall
        la s1,_start
        li t0,16384
        add s1,s1,t0    # two words behind the program: 1 in a full slot
        li s2,1
        li a1,0
put:    li a0,0
        li a7,39        # sem_get
        ecall
        ld t0,0(s1)
        bnez t0,bad
        sd s2,0(s1)
        li a0,1
        li a7,41        # sem_put
        ecall
        xori s1,s1,8    # the other slot
        j put
consume:
        li a0,1
        li a1,10
        li a7,7
        ecall
        la s1,_start
        li t0,16384
        add s1,s1,t0
        li a1,0
take:   li a0,1
        li a7,39
        ecall
        ld t0,0(s1)
        beqz t0,bad
        sd zero,0(s1)
        li a0,0
        li a7,41
        ecall
        xori s1,s1,8
        j take
bad:    ebreak
