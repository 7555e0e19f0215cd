# task 0 has mutex 0 and waits for semaphore 0, task 1 on processor 1 waits for the mutex
 li a7,7
 li a0,1
 li a1,10
 ecall
 li a7,9
 li a0,0
 li a1,0
 ecall
 li a7,10
 li a0,0
 ecall
 li a7,3
 la a0,other
 li a1,0
 li a2,1
 ecall
 li a7,36
 li a0,0
 li a1,0
 ecall
 li a7,39
 li a0,0
 li a1,0
 ecall
other: li a7,7
 li a0,1
 li a1,20
 ecall
 li t0,40
wait: addi t0,t0,-1
 bne t0,zero,wait
 li a7,36
 li a0,0
 li a1,0
 ecall
