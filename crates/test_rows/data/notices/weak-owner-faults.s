 # new mutex 0
 li a0,0
 li a7,9
 ecall
 # attach 3, 0
 li a0,3
 li a1,0
 li a7,7
 ecall
 # set mode 1
 li a0,1
 li a7,35
 ecall
 # lock 0, 0
 li a0,0
 li a1,0
 li a7,36
 ecall
 .word 0
