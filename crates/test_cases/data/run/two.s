# task 0 puts three a's and task 1 on processor 1 three b's
 li a7,3
 la a0,other
 li a1,98
 li a2,1
 ecall
 li a0,97
other: mv t1,a0
 li a7,1
 li t0,3
again: mv a0,t1
 ecall
 addi t0,t0,-1
 bne t0,zero,again
 li a7,0
 ecall
