 li a0,1
 li a1,10
 li a7,7
 ecall
 li a0,1
 li a7,35
 ecall
 li a7,1
 ecall
