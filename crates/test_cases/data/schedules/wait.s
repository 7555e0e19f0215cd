 li a0,5
 li a7,6
 ecall
