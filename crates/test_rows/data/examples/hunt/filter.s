# Three tasks on three processors share a word by a filter lock. Each passes one level, which keeps back one of three, so two may enter.
        .globl _start
_start: la a0,begin
        li a1,1
        li a2,1
        li a7,3         # spawn on processor 1
        ecall
        la a0,begin
        li a1,2
        li a2,2
        ecall           # .. on processor 2
        li a0,0
begin:  mv s0,a0        # the own number
        la s6,_start
        li t0,16384
        add s6,s6,t0    # words behind the program: three levels, who came last to level 1, to level 2, who is inside
        slli t0,s0,3
        add s1,s6,t0    # the own level
        mv s2,s6        # the others'
        bnez s0,other
        addi s2,s6,8
other:  addi s3,s6,16
        li t0,2
        bne s0,t0,round
        addi s3,s6,8
round:  li s4,1
        addi s5,s6,24
level:  sd s4,0(s1)     # the own level
        sd s0,0(s5)     # this task came last
wait:   ld t0,0(s5)
        bne t0,s0,pass
        ld t0,0(s2)
        bge t0,s4,wait
        ld t0,0(s3)
        bge t0,s4,wait
pass:   addi s4,s4,1
        addi s5,s5,8
        li t0,2         # one level
        blt s4,t0,level
        ld t0,40(s6)
        bnez t0,bad
        sd s4,40(s6)
        sd zero,40(s6)
        sd zero,0(s1)
        j round
bad:    ebreak
