# One task, which counts how often line 5 is played.
        .globl _start
_start: li a0,5
wait:   li a7,6         # wait_line 5
        ecall
        addi s0,s0,1
        li a0,5
        j wait
