# Two tasks, one on each of two processors, count how often line 8 came.
        la a0,count     # spawn count on processor 1
        li a1,0
        li a2,1
        li a7,3
        ecall
count:  li a0,8
        li a7,6         # wait for line 8
        ecall
        addi s0,s0,1
        j count
