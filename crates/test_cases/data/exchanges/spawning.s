# task 0 spawns a task of processor 1, and both jump for ever
 la a0,w
 li a2,1
 li a7,3
 ecall
l: j l
w: addi a3,a3,1
 j w
