# A line is played, and a task waits for it only afterwards.
        li s0,4         # the work before the wait
work:   addi s0,s0,-1
        bnez s0,work
        li a0,5
        li a7,6         # wait_line 5
        ecall
        li a7,0         # exit
        ecall
