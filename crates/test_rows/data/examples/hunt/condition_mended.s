# A producer on processor 0 and two consumers on processor 1 share a slot under a mutex. Each checks the slot again when its wait has ended.
        .globl _start
_start: li a0,0
        li a1,0
        li a7,9         # new_mutex 0
        ecall
        li a7,11        # new_event 0, the slot is full
        ecall
        ecall           # new_event 1, it is free
        la a0,consume
        li a1,0
        li a2,1
        li a7,3         # spawn
        ecall
        la a0,consume
        ecall
        li a0,1
        li a1,10
        li a7,7         # attach
        ecall
        la s1,_start
        li t0,16384
        add s1,s1,t0    # a word behind the program: 1 while the slot is full
        li s2,1
        li a2,0
put:    li a0,0
        li a1,0
        li a7,36        # lock
        ecall
full:   ld t0,0(s1)
        beqz t0,free
        li a0,1
        li a7,42        # event_wait
        ecall
        j full
free:   sd s2,0(s1)
        li a0,0
        li a7,43        # signal
        ecall
        li a0,0
        li a7,38        # unlock
        ecall
        j put
consume:
        li a0,1
        li a1,10
        li a7,7
        ecall
        la s1,_start
        li t0,16384
        add s1,s1,t0
        li a1,0
        li a2,0
take:   li a0,0
        li a7,36
        ecall
empty:  ld t0,0(s1)
        bnez t0,there
        li a0,0
        li a7,42
        ecall
        j empty
there:  ld t0,0(s1)
        beqz t0,bad
        sd zero,0(s1)
        li a0,1
        li a7,43
        ecall
        li a0,0
        li a7,38
        ecall
        j take
bad:    ebreak
