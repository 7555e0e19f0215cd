# Two tasks on two processors share a word without a lock, by Peterson's algorithm. Each raises its flag before it gives the turn away.
        .globl _start
_start: la a0,other
        li a1,0
        li a2,1
        li a7,3         # spawn on processor 1
        ecall
        li s0,0
        li s4,1
        j both
other:  li s0,1
        li s4,0
both:   la s6,_start
        li t0,16384
        add s6,s6,t0    # words behind the program: two flags, the turn, who is inside
        slli t0,s0,3
        add s2,s6,t0    # the own flag
        slli t0,s4,3
        add s3,s6,t0    # the other's flag
        addi s5,s6,16   # the turn
        addi s6,s6,24   # 1 while a task is inside
        li s1,1
round:  sd s1,0(s2)     # the own flag
        sd s4,0(s5)     # the turn is the other's
wait:   ld t0,0(s3)
        beqz t0,enter
        ld t0,0(s5)
        beq t0,s4,wait
enter:  ld t0,0(s6)
        bnez t0,bad
        sd s1,0(s6)
        sd zero,0(s6)
        sd zero,0(s2)
        j round
bad:    ebreak
