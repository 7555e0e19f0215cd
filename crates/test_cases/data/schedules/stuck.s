# Task 0 goes out-of-band and never waits, so task 1, which is in-band on its processor, never runs.
        la a0,task
        li a1,0
        li a2,0
        li a7,3         # spawn
        ecall
        li a0,1         # first in first out
        li a1,10
        li a7,7         # attach
        ecall
        li a7,32        # switch_oob
        ecall
loop:   j loop
task:   li a7,0         # exit
        ecall
