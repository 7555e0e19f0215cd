# task 0 owns mutex 0; each task n of 1 to 18 owns mutex n and waits for n - 1; task 19 (50) owns 19 and locks 18; task n runs on processor n % 8
 # new_mutex 0, twenty times
 li s0,20
m: li a0,0
 li a7,9
 ecall
 addi s0,s0,-1
 bnez s0,m
 # spawn w, n, n % 8
 li s0,1
s: la a0,w
 mv a1,s0
 andi a2,s0,7
 li a7,3
 ecall
 addi s0,s0,1
 li t0,20
 bne s0,t0,s
 # attach 1, 10
 li a0,1
 li a1,10
 li a7,7
 ecall
 # lock 0, 0
 li a0,0
 li a1,0
 li a7,36
 ecall
 # switch_inband: the other tasks of this processor run
 li a7,33
 ecall
 # unlock 0
 li a0,0
 li a7,38
 ecall
 mv s2,a0
 ebreak
w: mv s0,a0
 # attach 1, 10, or 50
 li a0,1
 li a1,10
 li t0,19
 bne s0,t0,low
 li a1,50
low: li a7,7
 ecall
 # lock n, 0
 mv a0,s0
 li a1,0
 li a7,36
 ecall
 # lock n - 1, 0
 addi a0,s0,-1
 ecall
 mv s2,a0
 ebreak
