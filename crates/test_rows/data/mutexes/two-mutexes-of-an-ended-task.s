 # new_mutex 0, four times
 li s0,4
m: li a0,0
 li a7,9
 ecall
 addi s0,s0,-1
 bnez s0,m
 # spawn w, 3, 1
 la a0,w
 li a1,3
 li a2,1
 li a7,3
 ecall
 # spawn w, 0, 1
 la a0,w
 li a1,0
 li a2,1
 li a7,3
 ecall
 # attach 1, 10
 li a0,1
 li a1,10
 li a7,7
 ecall
 # lock 3, 0
 li a0,3
 li a1,0
 li a7,36
 ecall
 # lock 0, 0
 li a0,0
 ecall
 ebreak
 # exit
 li a7,0
 ecall
w: mv s0,a0
 # attach 1, 20
 li a0,1
 li a1,20
 li a7,7
 ecall
 # lock the mutex of its argument, 0
 mv a0,s0
 li a1,0
 li a7,36
 ecall
 mv s2,a0
 ebreak
