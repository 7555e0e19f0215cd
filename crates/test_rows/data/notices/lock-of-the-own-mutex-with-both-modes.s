 # new mutex 2, 50
 li a0,2
 li a1,50
 li a7,9
 ecall
 # attach 2, 10
 li a0,2
 li a1,10
 li a7,7
 ecall
 # set mode 3
 li a0,3
 li a7,35
 ecall
 # lock 0, 0
 li a0,0
 li a1,0
 li a7,36
 ecall
 lui s0,0x10000
 # lock 0, 0
 li a0,0
 li a1,0
 li a7,36
 ecall
 mv s2,a0
 ebreak
